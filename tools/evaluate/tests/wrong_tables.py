"""Wrong rules of the sizes and places of counters, targets, history and return stack: what is wrong, a text of the model, what stands there
then (or several of each), and runs and facts whose traces it changes."""

SHIFT = "history = (2 * history + taken) % 2 ** self.d.history"
PUSHED = "(*stack, item.pc + 4 & WORD)[-self.d.returns:]"
PLACE = "(branch.pc // 4 ^ history) % self.d.counters"
POPPED = "        if item.returns:\n            stack = stack[:-1]\n"
RETURNS = "        if item.returns and stack:\n"
BTB_PLACE = "place = item.pc // 4 % self.d.btb"
BTB_LOOK = "self.targets[pc // 4 % self.d.btb]"
AFTER = "self.history, self.stack = self.checkpoint_behind(entry.item, taken=entry.value == 1)"
VIOLATED = "self.history, self.stack = load.item.checkpoint"

WRONG = [
    ("history has at most six digits", SHIFT, SHIFT.replace("2 ** self.d.history", "2 ** min(self.d.history, 6)"),
     ["seven_digits_of_history"]),
    ("history has one digit less", SHIFT, SHIFT.replace("2 ** self.d.history", "2 ** max(self.d.history - 1, 0)"),
     ["history_behind_a_jalr", "seven_digits_of_history", "checkpoint_of_the_load"]),
    ("history has one digit more", SHIFT, SHIFT.replace("2 ** self.d.history", "2 ** (self.d.history + 1)"),
     ["stack_behind_a_squash", "loop"]),
    ("digits of history above the counters are folded", PLACE, PLACE.replace("history)", "history ^ history // self.d.counters)"),
     ["mixed_settings"]),
    ("a counter stands by the sum of address and history", PLACE, PLACE.replace("^", "+"),
     ["seven_digits_of_history", "history_as_fetched", "squash_by_history"]),
    ("a counter stands by the address in bytes", PLACE, PLACE.replace("branch.pc // 4", "branch.pc"),
     ["cleared_at_a_squash", "fault_held"]),
    ("a counter stands by every other word", PLACE, PLACE.replace("// 4", "// 8"), ["cleared_at_a_squash", "fault_held"]),
    ("there are at most eight counters", PLACE, PLACE.replace("self.d.counters", "min(self.d.counters, 8)"),
     ["run_36", "branch_to_the_next"]),
    ("targets stand by every other word", (BTB_PLACE, BTB_LOOK), (BTB_PLACE.replace("// 4", "// 8"), BTB_LOOK.replace("// 4", "// 8")),
     ["return_by_stack", "indirect_jump"]),
    ("there are as many targets as counters", ("[None] * numbers.btb", BTB_PLACE, BTB_LOOK),
     ("[None] * numbers.counters", BTB_PLACE.replace("btb", "counters"), BTB_LOOK.replace("btb", "counters")),
     ["jump_that_links_elsewhere", "return_by_another_register"]),
    ("targets stand by address and history", (BTB_PLACE, BTB_LOOK),
     (BTB_PLACE.replace("item.pc // 4", "(item.pc // 4 ^ item.checkpoint[0])"), BTB_LOOK.replace("pc // 4", "(pc // 4 ^ item.checkpoint[0])")),
     ["history_behind_a_jalr"]),
    ("a stack has at most four places", PUSHED, PUSHED.replace("-self.d.returns", "-min(self.d.returns, 4)"), ["five_returns"]),
    ("a stack has one place less", PUSHED,
     PUSHED.replace("[-self.d.returns:]", "[len(stack) + 2 - self.d.returns if len(stack) + 1 >= self.d.returns else 0:]"),
     ["five_returns", "full_stack"]),
    ("a return is predicted by its stored target where there is one", RETURNS,
     "        if item.returns and stack and not (self.targets[pc // 4 % self.d.btb] or (None,))[0] == pc:\n",
     ["wrong_return_pops"]),
    ("a return from an empty stack is predicted by no stored target", "        stored = self",
     "        if item.returns and self.d.returns:\n            return behind\n        stored = self",
     ["full_stack", "return_from_no_call"]),
    ("a return empties the stack", POPPED, POPPED.replace("stack[:-1]", "()"), ["five_returns", "link_through_x1", "full_stack"]),
    ("each JALR pops", POPPED, POPPED.replace("item.returns", "item.kind == JALR"), ["linking_jump", "link_through_x1"]),
    ("a violation gives back the store's checkpoint", VIOLATED, "self.history, self.stack = store.item.checkpoint", ["checkpoint_of_the_load"]),
    ("a violation gives back the checkpoint behind the load's oldest older branch", VIOLATED,
     "self.history, self.stack = next((e.item.checkpoint for e in self.window if e.kind in CONTROL), load.item.checkpoint)",
     ["checkpoint_of_the_load"]),
    ("a JALR's squash doesn't mend history", AFTER,
     AFTER + "\n        if entry.kind == JALR:\n            self.history = entry.item.checkpoint[0] * 2 % 2 ** self.d.history if "
     "self.d.history else 0",
     ["history_behind_a_jalr"]),
    ("a JALR's squash leaves history as it is", AFTER,
     "history = self.history\n        " + AFTER + "\n        self.history = history if entry.kind == JALR else self.history",
     ["history_behind_a_jalr"]),
]
