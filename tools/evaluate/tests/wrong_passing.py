"""Wrong rules of loads that pass stores: what is wrong, a text of the model, what stands there then, and facts whose traces it changes."""

PHASES = "events = self.fill() + self.complete() + self.resolve() + self.clear() + self.retire()"
BEFORE = """events = self.fill() + self.complete()
        cleared = self.clear()
        events += self.resolve() + cleared + self.retire()"""
AS_BEFORE = """events = self.fill() + self.complete()
        tainted, ask = self.hidden_roots(), self.hidden_roots
        events += self.resolve()
        self.hidden_roots = lambda: tainted
        events += self.clear()
        self.hidden_roots = ask
        events += self.retire()"""
KNOWN = "entry.address_due is not None\n                and not tainted[entry.serial][0]]"
SETTLED = "self.resolved if self.kind in CONTROL else self.cleared"
SAFE = "return self.state == DONE and self.fault is None and self.cleared"
ISSUED = "load.issued < self.address_due"
SHARED = "any(map(self.covers, range(load.address, load.address + load.size)))"
VIOLATED = f"return passed and load.fault is None and {SHARED}"
GOES = "        dropped = self.drop_from(self.window.index(load))\n        self.fetch_pc = load.item.pc\n"
BIT = "        place = self.bit_of(load)\n        self.waits_for_stores[place] = True\n"
CHECKPOINT = "self.history, self.stack = load.item.checkpoint"
TRAPS = "head.kind == STOP or head.fault is not None"
PASSES = "passes = self.d.depend and not self.waits_for_stores[self.bit_of(load)]"
ASKED = "if store.data_due is None and (tainted[store.serial][0] or"

WRONG = [
    # which store is cleared, and when
    ("a store is cleared while its address is tainted", KNOWN, "entry.address_due is not None]",
     ["tainted_address_not_cleared", "clearing_hides_futuristic", "passed_before_known"]),
    ("a store is cleared only once its data is there", "entry.address_due is not None\n",
     "None not in (entry.address_due, entry.data_due)\n", ["cleared_without_data"]),
    ("a store is cleared only once its data isn't tainted either", KNOWN, KNOWN.replace("tainted[entry.serial][0]]", "any(tainted[entry.serial])]"),
     ["cleared_with_tainted_data"]),
    ("a store with a fault isn't cleared", KNOWN, KNOWN.replace("]]", "] and entry.fault is None]"), ["clearing_hides", "faulting_store_cleared"]),
    ("a store is cleared before the branch's part of Resolve", PHASES, BEFORE, ["tainted_address_not_cleared", "passed_before_known"]),
    ("a store is cleared by what was tainted before the branch's part of Resolve", PHASES, AS_BEFORE,
     ["tainted_address_not_cleared", "passed_before_known"]),
    ("two stores are cleared in one cycle", PHASES, PHASES.replace("self.clear()", "self.clear() + self.clear()"),
     ["clearing_hides_futuristic"]),
    ("the youngest store that may be is cleared first", "store = able[0]", "store = able[-1]", ["clearing_hides_futuristic"]),
    ("stores have to be cleared without a bit of dependence", "cleared = item.kind != STORE or not self.d.depend",
     "cleared = item.kind != STORE", ["no_pass", "data_held"]),

    # which load is violated
    ("no load is violated", VIOLATED, "return False",
     ["wrong_pass", "waits_the_second_time", "oldest_load_violated", "stack_after_violation"]),
    ("the youngest violated load goes", "load = violated[0]", "load = violated[-1]", ["oldest_load_violated"]),
    ("a load that didn't pass the store is violated", f" and {ISSUED}", "", ["passed_before_known"]),
    ("a load that issues once the address is known has passed the store", ISSUED, ISSUED.replace("<", "<="), ["passed_before_known"]),
    ("a load that issues with the address part hasn't passed the store", ISSUED, ISSUED + " - 1", ["violated_by_one_byte"]),
    ("a load is violated only where the store writes its first byte", SHARED, "self.covers(load.address)", ["violated_by_one_byte"]),
    ("a load that shares no byte is violated", VIOLATED, "return passed and load.fault is None and self.fault is None",
     ["clearing_hides_futuristic"]),
    ("a store with a fault violates", SHARED,
     "any(self.address <= byte < self.address + self.size for byte in range(load.address, load.address + load.size))",
     ["faulting_store_cleared"]),
    ("a load with a fault is violated", VIOLATED, f"return passed and {SHARED}", ["faulting_load_not_violated"]),
    ("a load is violated only once it is Done", VIOLATED, VIOLATED.replace("passed", "passed and load.state == DONE"),
     ["wrong_pass", "waits_the_second_time", "oldest_load_violated", "stack_after_violation"]),

    # what a violation does
    ("the violated load is kept", GOES, GOES.replace("index(load))", "index(load) + 1)").replace("load.item.pc", "load.item.pc + 4"),
     ["wrong_pass", "oldest_load_violated"]),
    ("what is behind the violated load is fetched, and not the load", GOES, GOES.replace("load.item.pc", "load.item.pc + 4"),
     ["wrong_pass", "oldest_load_violated"]),
    ("what is between the store and the violated load is fetched too", GOES, GOES.replace("load.item.pc", "store.item.pc + 4"),
     ["violated_by_one_byte"]),
    ("the divider stays busy where its user goes with the violated load", GOES,
     f"        kept = self.free_from, self.user\n{GOES}        self.free_from, self.user = kept\n", ["violated_by_one_byte"]),
    ("the queue stays where a load is violated", GOES, f"        queue = self.queue\n{GOES}        self.queue = queue\n",
     ["wrong_pass", "oldest_load_violated"]),
    ("misses go with the violated load", GOES, f"{GOES}        self.misses = []\n", ["wrong_pass", "oldest_load_violated"]),
    ("the bit of the violated load isn't set", BIT, BIT.replace("= True", "= False"), ["waits_the_second_time"]),
    ("the bit of the load's neighbour is set", BIT, BIT.replace("[place]", "[place - 1]"), ["waits_the_second_time"]),
    ("the bit of the store is set", BIT, BIT.replace("bit_of(load)", "bit_of(store)"), ["wrong_pass", "waits_the_second_time"]),
    ("a bit stands by the address as it is", "load.item.pc // 4 % self.d.depend", "load.item.pc % self.d.depend",
     ["wrong_pass", "stack_after_violation"]),
    ("history and stack aren't mended at a violation", f"        {CHECKPOINT}\n", "", ["stack_after_violation"]),
    ("the stack isn't mended at a violation", CHECKPOINT, "self.history, _ = load.item.checkpoint", ["stack_after_violation"]),
    ("the stack is empty behind a violation", CHECKPOINT, "self.history, self.stack = load.item.checkpoint[0], ()", ["stack_after_violation"]),
    ("history isn't mended at a violation", CHECKPOINT, "_, self.stack = load.item.checkpoint", ["history_after_violation"]),
    ("history is empty behind a violation", CHECKPOINT, "self.history, self.stack = 0, load.item.checkpoint[1]", ["history_after_violation"]),

    # what is visible meanwhile
    ("under `spectre` a store that isn't cleared hides nothing", SETTLED, "self.kind not in CONTROL or self.resolved", ["clearing_hides"]),
    ("under `futuristic` a store that isn't cleared is safe", SAFE, SAFE.replace(" and self.cleared", ""), ["clearing_hides_futuristic"]),
    ("a store with a fault traps only once it is cleared", TRAPS, TRAPS + " and head.cleared", ["trap_not_cleared"]),

    # which load passes
    ("no load passes a store", PASSES, "passes = False", ["wrong_pass", "clearing_hides", "clearing_hides_futuristic"]),
    ("a load passes stores without a bit of dependence", PASSES, PASSES.replace("depend and", "depend == 0 or"), ["no_pass"]),
    ("a bit that is set is ignored", PASSES, "passes = self.d.depend", ["waits_the_second_time"]),
    ("a bit that is set tells all loads", PASSES, PASSES.replace("self.waits_for_stores[self.bit_of(load)]", "any(self.waits_for_stores)"),
     ["violated_by_one_byte"]),
    ("a load passes a store of known address too", ASKED, ASKED.replace("None and", "None and not passes and"),
     ["clearing_hides_futuristic", "cleared_without_data"]),
    ("a load passes a store of unknown address that is tainted, without data", ASKED,
     ASKED.replace("[0] or", "[0] and not (passes and store.address_due is None) or"), ["clearing_hides_futuristic"]),
    ("a load that passes a store waits for its data", ASKED, ASKED.replace("(tainted", "(store.address_due is None or tainted"),
     ["wrong_pass", "oldest_load_violated"]),
]
