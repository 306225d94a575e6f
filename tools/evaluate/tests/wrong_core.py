"""Wrong rules of what goes where in a cycle: room, ports, times, predictors, what retires and what is squashed. Each is what is wrong, a text
of the model, what stands there then (or several of each), and runs and facts whose traces it changes."""

QUEUE = "len(self.queue) < self.d.queue"
RENAMES = "while self.queue and len(events) < self.d.fetch_width and self.fits(self.queue[0]):"
FETCHES = "while self.fetch_pc is not None and len(events) < self.d.fetch_width and"
FITS = "len(kinds) < self.d.rob and CALL not in kinds"
LOADS_FIT = "(item.kind != LOAD or kinds.count(LOAD) < self.d.loads)"
STORES_FIT = "(item.kind != STORE or kinds.count(STORE) < self.d.stores)"
STATIONS_FIT = "(item.kind in (CALL, STOP) or waiting < self.d.stations)"
WAITING = "waiting = sum(entry.state == WAITING for entry in self.window)"
CALL_FITS = "(item.kind != CALL or not kinds)"
LEFT = "left = {ALU: self.d.alus, MULTIPLIER: 1, DIVIDER: 1, ADDRESS: 1, DATA: 1, LOADS: 1}"
PORT = "return [PORTS.get(entry.kind, ALU)]"
BY_AGE = "for place, entry in enumerate(self.window):"
BUSY_UNTIL = '"due": self.now + 1, "issued": self.now,'
MULTIPLIES = 'values["due"] = self.now + self.d.mul_latency'
DIVIDES = 'values["due"] = self.free_from = self.now + time'
FREE = "self.now < self.free_from)"
ENDED = "ended = [entry for entry in self.window if entry.state == BUSY and entry.due == self.now]"
TURNS = "for _ in range(self.d.retire_width):"
LEAVES = "if head is None or head.state != DONE or head.kind in CONTROL and not head.resolved:"
STORED = "if head.kind == STORE and (stored or not head.cleared):"
COUNTS = "self.counters[place] = min(self.counters[place] + 1, 3) if entry.value else max(self.counters[place] - 1, 0)"
GUESS = "return self.counters[self.counter_of(branch)] >= 2"
TEACHES = "elif entry.fault is None:\n            place"
SQUASHES = "if entry.fault is not None or entry.next != item.predicted:"
ABLE = "entry.state == DONE and not entry.resolved\n                and not any(tainted[entry.serial]) and self.may_show(entry)]"
STORED_TARGET = "return stored[1] if stored and stored[0] == pc else behind"
GOES_ON = "self.fetch_pc = None if entry.fault is not None else entry.next"
FREED = "        if self.user in self.window[keep:]:\n            self.free_from, self.user = 0, None\n"
DROPPED = "        self.window, self.queue = self.window[:keep], []\n"
YOUNGEST = "(e for e in reversed(before) if register and e.item.operation.code.destination == register)"
MISALIGNED = 'values["fault"] = JUMP_MISALIGNED if found.misaligned else None'

WRONG = [
    # Fetch
    ("Fetch fills the queue up to `core.stations` instead of `core.queue`", QUEUE, "len(self.queue) < self.d.stations",
     ["run_14", "half_issued"]),
    ("the queue has room for one more", QUEUE, "len(self.queue) <= self.d.queue", ["run_14", "run_03"]),
    ("Fetch is as wide as Retire", FETCHES, FETCHES.replace("fetch_width", "retire_width"), ["run_14", "waiting_jalr_is_unsafe"]),
    ("Fetch ends with a taken branch or a jump", "            self.queue.append(item)\n            events.append(f\"fet:{item.pc:08x}\")\n",
     "            self.queue.append(item)\n            events.append(f\"fet:{item.pc:08x}\")\n            if item.predicted != "
     "item.pc + 4:\n                break\n",
     ["return_by_stack", "jump_that_links_elsewhere"]),
    ("Fetch waits behind a JALR that no table tells", STORED_TARGET, STORED_TARGET.replace("else behind", "else None"),
     ["budget", "straight_line"]),
    ("Fetch goes on behind a stop", "        if item.kind == STOP:\n            return None\n", "", ["budget", "straight_line"]),
    ("a JAL is fetched past", "if item.kind == JAL or item.kind == BRANCH", "if item.kind == BRANCH",
     ["return_by_stack", "jump_that_links_elsewhere"]),
    ("a branch is predicted taken only with the counter at 3", GUESS, GUESS.replace("2", "3"), ["stack_behind_a_squash", "loop"]),
    ("a branch is predicted taken with the counter at 1", GUESS, GUESS.replace("2", "1"), ["cleared_at_a_squash", "fault_held"]),
    ("no branch is predicted taken", GUESS, "return False", ["stack_behind_a_squash", "loop"]),
    ("a branch is predicted taken where it goes backwards", GUESS, "return branch.operation.imm < 0",
     ["stack_behind_a_squash", "loop_by_history"]),
    ("a target stored for another address is used", STORED_TARGET, STORED_TARGET.replace("stored and stored[0] == pc", "stored"),
     ["target_replaced", "run_22", "mixed_history_1"]),
    ("nothing is predicted by targets", STORED_TARGET, "return behind", ["target_replaced", "return_that_links"]),
    ("counters start at 0", "[1] * numbers.counters", "[0] * numbers.counters", ["cleared_at_a_squash", "stack_behind_a_squash"]),
    ("counters start at 2", "[1] * numbers.counters", "[2] * numbers.counters", ["cleared_at_a_squash", "fault_held"]),

    # Rename
    ("Rename is as wide as Retire", RENAMES, RENAMES.replace("fetch_width", "retire_width"), ["run_14", "waiting_jalr_is_unsafe"]),
    ("Rename takes all that fits", RENAMES, "while self.queue and self.fits(self.queue[0]):", ["join_leaves_second", "run_26"]),
    ("the window has room for one less", FITS, FITS.replace("rob and", "rob - 1 and"), ["run_07", "run_21"]),
    ("the window has room for one more", FITS, FITS.replace("<", "<="), ["run_25", "run_20"]),
    ("what is behind a call goes into the window", FITS, "len(kinds) < self.d.rob", ["budget", "straight_line"]),
    ("a call goes into a window that has entries", CALL_FITS, "True", ["budget", "straight_line"]),
    ("a call waits only for what isn't Done", CALL_FITS, "(item.kind != CALL or all(entry.state == DONE for entry in self.window))",
     ["next_line_fetched", "visible_given"]),
    ("loads are counted against `core.stores`", LOADS_FIT, LOADS_FIT.replace("d.loads", "d.stores"), ["run_03", "run_07"]),
    ("stores are counted against `core.loads`", STORES_FIT, STORES_FIT.replace("d.stores", "d.loads"), ["younger_store", "run_03"]),
    ("a load that is Done leaves its place to another", LOADS_FIT,
     LOADS_FIT.replace("kinds.count(LOAD)", "sum(e.kind == LOAD and e.state != DONE for e in self.window)"),
     ["run_26", "mixed_any_address_1"]),
    ("a store that is Done leaves its place to another", STORES_FIT,
     STORES_FIT.replace("kinds.count(STORE)", "sum(e.kind == STORE and e.state != DONE for e in self.window)"),
     ["run_21", "mixed_second_level_1", "run_18"]),
    ("there is one queue for loads and stores, of `core.loads`", LOADS_FIT,
     LOADS_FIT.replace("kinds.count(LOAD)", "kinds.count(LOAD) + kinds.count(STORE)"),
     ["older_tainted_address", "younger_store"]),
    ("a station is kept until an entry is Done", WAITING, WAITING.replace("== WAITING", "!= DONE"), ["run_14", "half_issued"]),
    ("a station is kept until an entry retires", WAITING, "waiting = len(self.window)", ["run_14", "half_issued"]),
    ("a stop needs a station", STATIONS_FIT, "(item.kind == CALL or waiting < self.d.stations)", ["run_14"]),
    ("there is one station more", STATIONS_FIT, STATIONS_FIT.replace("<", "<="), ["run_14", "half_issued"]),
    ("serials go back where entries are dropped", DROPPED,
     DROPPED + "        self.next_serial = max((e.serial + 1 for e in self.window), default=0)\n",
     ["indirect_jump", "cleared_at_a_squash"]),
    ("a source is written by the oldest writer", YOUNGEST, YOUNGEST.replace("reversed(before)", "before"),
     ["faulting_load_not_violated", "waiting_jalr_is_unsafe"]),
    ("register 0 is written", YOUNGEST, YOUNGEST.replace("register and ", "e.item.kind not in (STORE, BRANCH) and "),
     ["prefetch_behind_x0", "return_by_stack"]),

    # Issue
    ("the youngest go first", BY_AGE, BY_AGE.replace("enumerate(self.window)", "reversed([*enumerate(self.window)])"),
     ["load_reaches_behind_memory", "misaligned_refused"]),
    ("one more goes to the ALUs", LEFT, LEFT.replace("self.d.alus", "self.d.alus + 1"), ["run_14", "jumps_leave_history"]),
    ("there is one ALU", LEFT, LEFT.replace("self.d.alus", "1"), ["misaligned_jump", "return_by_stack"]),
    ("there are two multipliers", LEFT, LEFT.replace("MULTIPLIER: 1", "MULTIPLIER: 2"), ["tainted_data", "run_01", "run_18"]),
    ("two loads are tried in a cycle", LEFT, LEFT.replace("LOADS: 1", "LOADS: 2"), ["next_line_fetched", "joined_line_takes_no_register"]),
    ("multiplications take an ALU", PORT, "return [ALU if entry.kind == MULTIPLICATION else PORTS.get(entry.kind, ALU)]",
     ["faulting_load_not_violated", "faulting_store_cleared"]),
    ("divisions take the multiplier", PORT, "return [MULTIPLIER if entry.kind == DIVISION else PORTS.get(entry.kind, ALU)]",
     ["faulting_load", "visible_fault_given"]),
    ("branches and jumps take the multiplier", PORT, "return [MULTIPLIER if entry.kind in (*CONTROL, JAL) else PORTS.get(entry.kind, ALU)]",
     ["misaligned_jump", "return_by_stack"]),
    ("a source is given while its writer executes", "return writer.state == DONE and not held",
     "return writer.state != WAITING and not held",
     ["faulting_load", "faulting_load_not_violated"]),
    ("an instruction issues only where all before it have", "if entry.state != WAITING or not",
     "if entry.state != WAITING or any(e.state == WAITING for e in self.window[:self.window.index(entry)]) or not",
     ["load_reaches_behind_memory", "misaligned_refused"]),
    ("an ALU takes two cycles", BUSY_UNTIL, BUSY_UNTIL.replace("+ 1", "+ 2"), ["budget", "straight_line"]),
    ("a multiplication takes a cycle more", MULTIPLIES, MULTIPLIES + " + 1", ["faulting_load_not_violated", "faulting_store_cleared"]),
    ("a multiplication takes one cycle", MULTIPLIES, MULTIPLIES.replace("self.d.mul_latency", "1"),
     ["faulting_load_not_violated", "faulting_store_cleared"]),
    ("a multiplication begins once the one before is through", MULTIPLIES,
     'values["due"] = max([self.now, *(e.due for e in before if e.kind == MULTIPLICATION and e.due)]) + self.d.mul_latency',
     ["sixteen_bits", "bits_stay_set"]),
    ("a division's time is its divisor's", "self.operands(entry)[0])", "self.operands(entry)[1])", ["off_divides", "half_issued_data"]),
    ("a division takes 35 cycles", "time = division_time(item.operation.name, self.operands(entry)[0])", "time = 35",
     ["faulting_load", "visible_fault_given"]),
    ("the divider takes a division each cycle", FREE, "False)", ["off_divides", "division_corner_cases"]),
    ("the divider is free a cycle later", FREE, FREE.replace("<", "<="), ["off_divides", "division_corner_cases"]),
    ("the divider is free a cycle earlier", FREE, FREE.replace("<", "+ 1 <"), ["off_divides", "division_corner_cases"]),
    ("a branch that isn't taken traps where its target is misaligned", MISALIGNED,
     'values["fault"] = JUMP_MISALIGNED if entry.kind in CONTROL and item.operation.imm % 4 else None',
     ["run_12", "run_21"]),
    ("a jump to a misaligned address doesn't trap", MISALIGNED, 'values["fault"] = None',
     ["faulting_branch_squashes", "misaligned_jump", "run_36"]),

    # Complete
    ("one instruction completes in a cycle", ENDED,
     ENDED.replace("ended = [", "ended = [*[").replace("now]", "now][:1]]").replace("== self.now]", "<= self.now]"),
     ["load_reaches_behind_memory", "misaligned_refused"]),
    ("instructions complete in order", ENDED,
     ENDED.replace("entry.due == self.now", "entry.due <= self.now and all(e.state == DONE for e in self.window[:self.window.index(entry)])"),
     ["load_reaches_behind_memory", "misaligned_refused"]),

    # Resolve
    ("all branches and JALRs that may are resolved in one cycle", "events = self.fill() + self.complete() + self.resolve()",
     "events = self.fill() + self.complete() + self.resolve() + self.resolve()",
     ["done_branch_is_unsafe", "tainted_link"]),
    ("the youngest branch or JALR that may be is resolved", "entry, item = able[0], able[0].item", "entry, item = able[-1], able[-1].item",
     ["done_branch_is_unsafe", "target_replaced"]),
    ("branches and JALRs are resolved in order", ABLE,
     ABLE.replace("not entry.resolved", "not entry.resolved and "
     "all(e.resolved for e in self.window[:self.window.index(entry)] if e.kind in CONTROL)"),
     ["branch_not_held", "run_32"]),
    ("a branch is resolved in the cycle after it is Done", ABLE,
     ABLE.replace("not entry.resolved", "not entry.resolved and entry.due < self.now"),
     ["misaligned_jump", "return_by_stack"]),
    ("counters go up to 4", COUNTS, COUNTS.replace("3)", "4)"), ["faulting_branch_squashes", "checkpoint_of_the_load"]),
    ("counters go up to 2", COUNTS, COUNTS.replace("3)", "2)"), ["short_history", "run_05"]),
    ("counters go down to 1", COUNTS, COUNTS.replace(", 0)", ", 1)"), ["fault_held", "off_forwards"]),
    ("counters move by two", COUNTS, COUNTS.replace("+ 1, 3", "+ 2, 3").replace("- 1, 0", "- 2, 0"),
     ["cleared_at_a_squash", "stack_behind_a_squash"]),
    ("a counter moves only where its prediction was wrong", COUNTS,
     COUNTS.replace(" else max", " and entry.next != item.predicted else self.counters[place] if entry.next == item.predicted else max"),
     ["fault_held", "off_forwards"]),
    ("a branch that faults teaches nothing", "if entry.kind == BRANCH:\n            place",
     "if entry.kind == BRANCH and entry.fault is None:\n            place",
     ["faulting_branch_squashes", "run_36", "run_33"]),
    ("a JALR that faults stores its target", TEACHES, TEACHES.replace("elif entry.fault is None", "else"),
     ["misaligned_jump", "run_12", "run_21"]),
    ("a branch teaches the target table too", COUNTS,
     COUNTS + "\n            self.targets[item.pc // 4 % self.d.btb] = (item.pc, entry.next)",
     ["target_replaced"]),
    ("a stored target is kept where another address has it", "            self.targets[place] = (item.pc, entry.next)\n",
     "            if self.targets[place] is None or self.targets[place][0] == item.pc:\n                self.targets[place] = "
     "(item.pc, entry.next)\n",
     ["target_replaced"]),
    ("a JALR that was predicted rightly stores nothing", TEACHES, TEACHES.replace("None:", "None and entry.next != item.predicted:"),
     ["return_by_stack", "waiting_jalr_is_unsafe"]),
    ("each branch that is taken squashes", SQUASHES, SQUASHES.replace(":", " or entry.kind == BRANCH and entry.value:"),
     ["branch_to_the_next", "short_history"]),
    ("nothing is squashed", SQUASHES, "if False:", ["misaligned_jump", "indirect_jump"]),
    ("a fault in a branch or JALR doesn't squash", SQUASHES, "if entry.next != item.predicted:", ["faulting_branch_squashes"]),
    ("Fetch goes on behind a branch or JALR that faults", GOES_ON, "self.fetch_pc = entry.next", ["run_36", "run_33"]),
    ("a squash tells what it drops of the window alone", "dropped = len(self.window) - keep + len(self.queue)",
     "dropped = len(self.window) - keep",
     ["stack_behind_a_squash", "linking_jump"]),
    ("the queue stays at a squash", DROPPED, "        self.window = self.window[:keep]\n", ["stack_behind_a_squash", "linking_jump"]),
    ("the divider stays busy where its user is dropped", FREED, "",
     ["bit_asks_for_addresses", "bit_asks_for_no_clearing", "violated_by_one_byte"]),
    ("each squash frees the divider", FREED, "        self.free_from, self.user = 0, None\n",
     ["divider_kept_at_a_violation", "mixed_7", "mixed_1"]),
    ("misses go with a squash", DROPPED, DROPPED + "        self.misses = []\n", ["wrong_pass", "violated_without_data"]),

    # Retire
    ("Retire is as wide as Fetch", TURNS, TURNS.replace("retire_width", "fetch_width"), ["run_14", "tainted_data_hides_nothing"]),
    ("one retires in a cycle", TURNS, "for _ in range(1):", ["no_prefetch_behind_memory", "no_prefetch_of_address_0"]),
    ("a branch retires before it is resolved", LEAVES, "if head is None or head.state != DONE:",
     ["done_branch_is_unsafe", "jumps_leave_history", "history_as_fetched"]),
    ("two stores retire in one cycle", STORED, "if head.kind == STORE and not head.cleared:",
     ["older_store_without_data", "violated_behind_a_younger_store"]),
    ("nothing retires behind a store in its cycle", STORED, "if stored or head.kind == STORE and not head.cleared:",
     ["cleared_at_a_squash", "parts_alone"]),
    ("what traps counts as retired", "                self.end = f\"trap {cause} {head.item.pc:08x}\"\n",
     "                self.end = f\"trap {cause} {head.item.pc:08x}\"\n                self.retired += 1\n",
     ["load_reaches_behind_memory", "misaligned_refused"]),
    ("a call counts as no instruction", "            self.retired += 1\n", "            self.retired += head.kind != CALL\n",
     ["straight_line", "end_in_the_last_cycle"]),
    ("a call that isn't an exit leaves a0", "            self.registers[10] = call.answer\n", "            pass\n", ["run_35"]),
    ("the cycle goes on behind its end", "        if self.end is None:\n            events += self.issue()",
     "        if True:\n            events += self.issue()",
     ["straight_line", "end_in_the_last_cycle"]),
    ("x2 starts at the end of memory", " - 16 & WORD", " & WORD", ["no_prefetch_behind_memory", "no_prefetch_of_address_0"]),
    ("EBREAK traps as an illegal instruction", '"ebreak": 3', '"ebreak": 2', ["ebreak"]),
    ("a JAL to a misaligned address traps as an illegal instruction", '"jal": 0', '"jal": 2', ["misaligned_jal"]),
    ("an illegal instruction traps as one outside code", '"illegal": 2', '"illegal": 1', ["illegal_word"]),
]
