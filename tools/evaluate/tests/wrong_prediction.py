"""Wrong rules of global history and of the return stack: what is wrong, a text of the model, what stands there then, and runs whose
traces it changes."""

SHIFT = "history = (2 * history + taken) % 2 ** self.d.history"
BRANCHES = "        if item.kind == BRANCH:\n            " + SHIFT
AFTER = "self.history, self.stack = self.checkpoint_behind(entry.item, taken=entry.value == 1)"
PUSHES = "        if item.links and self.d.returns:\n"
PUSHED = "(*stack, item.pc + 4 & WORD)[-self.d.returns:]"
LINKS = "self.kind in (JAL, JALR) and self.operation.code.destination == LINK"
POPS = "self.kind == JALR and self.operation.code.destination == 0 and self.operation.code.sources == (LINK,)"
POPPED = "        if item.returns:\n            stack = stack[:-1]\n"
PLACE = "(branch.pc // 4 ^ history) % self.d.counters"
RESOLVED = "            place = self.counter_of(item)\n"
FETCHED = "self.history, self.stack = self.checkpoint_behind(item, self.is_taken(item))"

WRONG = [
    # global history
    ("a counter stands by the address alone", PLACE, "branch.pc // 4 % self.d.counters", ["loop_by_history", "short_history"]),
    ("a counter stands by the history alone", PLACE, "history % self.d.counters", ["loop_by_history"]),
    ("a branch teaches the counter of the present history", RESOLVED, "            place = (item.pc // 4 ^ self.history) % self.d.counters\n",
     ["loop_by_history", "history_as_fetched"]),
    ("history has no length", SHIFT, "history = 2 * history + taken", ["short_history"]),
    ("the newest direction is the highest digit", SHIFT, "history = (history + 2 ** self.d.history * taken) // 2", ["loop_by_history"]),
    ("a branch that is predicted not taken leaves history as it is", BRANCHES, BRANCHES.replace("== BRANCH", "== BRANCH and taken"),
     ["history_as_fetched"]),
    ("a taken branch counts as not taken", SHIFT, "history = 2 * history % 2 ** self.d.history", ["loop_by_history", "squash_by_history"]),
    ("each jump enters history too", BRANCHES, BRANCHES.replace("== BRANCH", "in (BRANCH, JAL, JALR)").replace("+ taken", "+ (taken or item.kind != BRANCH)"),
     ["jumps_leave_history"]),
    ("history isn't mended at a squash", AFTER, "_, self.stack = self.checkpoint_behind(entry.item, taken=entry.value == 1)",
     ["squash_by_history", "history_as_fetched"]),
    ("at a squash history is that before the branch", AFTER,
     "self.history, (_, self.stack) = entry.item.checkpoint[0], self.checkpoint_behind(entry.item, taken=entry.value == 1)",
     ["loop_by_history", "squash_by_history"]),
    ("at a squash history has the direction that was predicted", AFTER, AFTER.replace("entry.value == 1", "entry.value != 1"),
     ["loop_by_history", "squash_by_history"]),
    ("history has the true direction where nothing is squashed too", RESOLVED,
     RESOLVED + "            self.history, _ = self.checkpoint_behind(item, entry.value == 1)\n", ["branch_to_the_next"]),
    ("history is empty behind a squash", AFTER, "self.history, self.stack = 0, self.checkpoint_behind(entry.item, taken=entry.value == 1)[1]",
     ["loop_by_history", "squash_by_history"]),
    ("history takes no direction as a branch is fetched", FETCHED, "self.stack = self.checkpoint_behind(item, self.is_taken(item))[1]",
     ["history_as_fetched"]),

    # the return stack
    ("a return is predicted as any other JALR", "if item.returns and stack:", "if False:", ["return_by_stack", "wrong_return_pops"]),
    ("an empty stack predicts address 0", "        if item.returns and stack:\n            return stack[-1]\n",
     "        if item.returns and self.d.returns:\n            return (0, *stack)[-1]\n", ["return_from_no_call"]),
    ("the oldest address is the one that is popped", "            return stack[-1]\n", "            return stack[0]\n",
     ["wrong_return_pops", "full_stack"]),
    ("a return leaves its address on the stack", POPPED, "", ["full_stack"]),
    ("a full stack takes no more", PUSHES, "        if item.links and len(stack) < self.d.returns:\n", ["full_stack"]),
    ("a full stack loses its newest", PUSHED, "(*stack[:self.d.returns - 1], item.pc + 4 & WORD)", ["full_stack"]),
    ("a stack holds one more", PUSHED, "(*stack, item.pc + 4 & WORD)[-self.d.returns - 1:]", ["full_stack"]),
    ("a stack without places holds one", PUSHES, "        if item.links:\n", ["return_without_stack"]),
    ("what is pushed is the address of the jump", PUSHED, PUSHED.replace("item.pc + 4", "item.pc"), ["return_by_stack"]),
    ("a JALR never pushes", LINKS, LINKS.replace("(JAL, JALR)", "(JAL,)"), ["linking_jump", "link_through_x1"]),
    ("a JAL never pushes", LINKS, LINKS.replace("(JAL, JALR)", "(JALR,)"), ["return_by_stack"]),
    ("a jump that writes x5 pushes too", LINKS, LINKS.replace("== LINK", "in (LINK, 5)"), ["jump_that_links_elsewhere"]),
    ("each jump pushes", LINKS, "self.kind in (JAL, JALR)", ["jump_that_links_elsewhere"]),
    ("a JALR by any register pops", POPS, POPS.replace(" and self.operation.code.sources == (LINK,)", ""), ["return_by_another_register"]),
    ("a JALR that links pops too", POPS, POPS.replace(" and self.operation.code.destination == 0", ""),
     ["return_that_links", "link_through_x1"]),
    ("a JALR with an offset doesn't pop", POPS, POPS + " and self.operation.imm == 0", ["wrong_return_pops"]),
    ("a return that was predicted by the stack teaches no target", "        elif entry.fault is None:\n",
     "        elif entry.fault is None and not (item.returns and item.checkpoint[1]):\n", ["return_by_stack"]),
    ("a return never teaches a target", "        elif entry.fault is None:\n", "        elif entry.fault is None and not item.returns:\n",
     ["return_from_no_call"]),
    ("the stack isn't mended at a squash", AFTER, "self.history, _ = self.checkpoint_behind(entry.item, taken=entry.value == 1)",
     ["stack_behind_a_squash"]),
    ("at a squash the stack is that before the jump", AFTER,
     "self.history, self.stack = self.checkpoint_behind(entry.item, taken=entry.value == 1)[0], entry.item.checkpoint[1]",
     ["linking_jump", "wrong_return_pops"]),
    ("the stack is empty behind a squash", AFTER, "self.history, self.stack = self.checkpoint_behind(entry.item, taken=entry.value == 1)[0], ()",
     ["stack_behind_a_squash", "linking_jump", "wrong_return_pops"]),
]
