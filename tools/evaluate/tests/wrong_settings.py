"""Wrong rules of settings together, `hold` and `off` with each other, with bits of dependence and a second level, and further ones of clearing:
what is wrong, a text of the model, what stands there then (or several of each), and runs and facts whose traces it changes."""

HELD = "held = self.d.defence == HOLD and writer.kind == LOAD and not self.is_visible(writer)"
GIVES = "return writer.state == DONE and not held"
VISIBLE = "return all(map(self.permits, self.window[:self.window.index(entry)]))"
PASSES = "return entry.settled if self.d.model == SPECTRE else entry.safe if self.d.model == FUTURISTIC else True"
OFF = "self.d.model not in (SPECTRE, FUTURISTIC)"
KNOWN_ADDRESS = "and entry.address_due is not None\n                and not tainted[entry.serial][0]]"
CLEARS = "        store = able[0]\n        store.cleared = True\n"
VIOLATED = "violated = [load for load in self.window[self.window.index(store):] if store.violates(load)]"
PHASES = "events = self.fill() + self.complete() + self.resolve() + self.clear() + self.retire()"
PASSING = "passes = self.d.depend and not self.waits_for_stores[self.bit_of(load)]"
UNKNOWN = "            if store.address_due is None and not passes:\n"
WITHOUT_DATA = "if store.data_due is None and (tainted[store.serial][0] or any(map(store.covers, bytes_of_it))):"
BIT = "        self.waits_for_stores[place] = True\n"
DROPS = "        dropped = self.drop_from(self.window.index(load))\n"
FORWARDS = "if all(sources) and not any(tainted[store.serial][0] for store in before if store.kind == STORE):"
SOURCES = "sources = [next((e for e in reversed(before) if e.covers(byte)), None) for byte in range(address, address + load.size)]"
SHARED = "return passed and load.fault is None and any(map(self.covers, range(load.address, load.address + load.size)))"
ISSUED = "passed = load.kind == LOAD and load.issued is not None and load.issued < self.address_due"
SETTLED = "return self.resolved if self.kind in CONTROL else self.cleared"
CHECKPOINT = "self.history, self.stack = load.item.checkpoint"
DIVIDES = "if entry.kind == DIVISION and (any(tainted[entry.serial]) or"
LOADS = "if entry.kind == LOAD and (tainted[entry.serial][0] or not"
LEAVES = "if head.kind == STORE and (stored or not head.cleared):"
ABLE = "and not any(tainted[entry.serial]) and self.may_show(entry)]\n        if not able:\n            return []\n        entry, item"
BEGINS_CLEARED = "cleared = item.kind != STORE or not self.d.depend"
BIT_OF = "return load.item.pc // 4 % self.d.depend"
AGAIN = "self.fetch_pc = load.item.pc"
FORWARDED = '            return [(load, values)], [f"ld:{serial}:f"]\n'
MARKED = FORWARDED.replace("values", '{**values, "forwarded": True}')

WRONG = [
    # `hold`
    ("`hold` gives what is forwarded at once", (HELD, FORWARDED),
     (HELD.replace("LOAD and", "LOAD and not getattr(writer, 'forwarded', False) and"), MARKED),
     ["held_under_futuristic"]),
    ("`hold` gives the 0 of a load that faults at once", HELD, HELD.replace("LOAD and", "LOAD and writer.fault is None and"),
     ["fault_held"]),
    ("`hold` holds under `off` too", HELD,
     HELD.replace("not self.is_visible(writer)", "not all(e.settled for e in self.window[:self.window.index(writer)])"),
     ["off_holds_nothing", "held_under_futuristic"]),
    ("`hold` holds a load until it is itself safe", HELD,
     HELD.replace("not self.is_visible(writer)", "not (self.is_visible(writer) and self.permits(writer))"),
     ["visible_fault_given"]),
    ("`hold` holds under `spectre` alone", HELD, HELD.replace("HOLD and", "HOLD and self.d.model == SPECTRE and"),
     ["held_under_futuristic"]),
    ("`hold` holds under `futuristic` until a load is visible under `spectre`", HELD,
     HELD.replace("not self.is_visible(writer)", f"{'self.d.model in (SPECTRE, FUTURISTIC)'} and not all(e.settled for e in "
     f"self.window[:self.window.index(writer)])"),
     ["held_under_futuristic"]),
    ("`hold` holds until a load is safe under `futuristic`", HELD,
     HELD.replace("not self.is_visible(writer)", "not all(e.safe for e in self.window[:self.window.index(writer)])"),
     ["waiting_store_hides_nothing", "off_holds_nothing"]),
    ("`hold` holds only without bits of dependence", HELD, HELD.replace("HOLD and", "HOLD and not self.d.depend and"), ["mixed_settings"]),
    ("`hold` holds only without a second level", HELD, HELD.replace("HOLD and", "HOLD and not self.second and"), ["mixed_settings"]),
    ("`hold` holds only without prefetch", HELD, HELD.replace("HOLD and", "HOLD and not self.d.prefetch and"), ["mixed_settings"]),
    ("`hold` holds only without history and return stack", HELD,
     HELD.replace("HOLD and", "HOLD and not self.d.history and not self.d.returns and"),
     ["mixed_settings"]),
    ("under `hold` a store that isn't cleared holds nothing", HELD,
     HELD.replace("not self.is_visible(writer)", "not all(self.permits(e) or e.kind == STORE for e in self.window[:self.window.index(writer)])"),
     ["mixed_settings"]),
    ("`hold` holds bytes and halfwords alone", HELD, HELD.replace("LOAD and", "LOAD and writer.size < 4 and"),
     ["fault_held", "held_under_futuristic", "mixed_settings"]),
    ("`hold` holds words alone", HELD, HELD.replace("LOAD and", "LOAD and writer.size == 4 and"),
     ["mixed_settings", "data_held", "base_held"]),
    ("`hold` holds what missed alone", HELD,
     HELD.replace("LOAD and", "LOAD and (writer.due or 0) - (writer.issued or 0) > self.d.hit_latency and"),
     ["fault_held", "held_under_futuristic", "mixed_settings"]),
    ("`hold` holds what hit or was forwarded alone", HELD,
     HELD.replace("LOAD and", "LOAD and (writer.due or 0) - (writer.issued or 0) <= self.d.hit_latency and"),
     ["mixed_settings", "data_held", "base_held"]),

    # `off`
    ("under `off` loads pass no stores", PASSING,
     PASSING.replace("self.d.depend and", f"not {OFF} and self.d.depend and".replace("not self.d.model not in", "self.d.model in")),
     ["off_clears_at_once", "off_violates"]),
    ("under `off` a load waits for the data of each store", WITHOUT_DATA, WITHOUT_DATA.replace("(tainted", f"({OFF} or tainted"),
     ["off_violates"]),
    ("under `off` nothing is forwarded behind a branch that isn't resolved", FORWARDS,
     FORWARDS.replace("if all(sources) and", f"if all(sources) and not ({OFF} and not all(e.settled for e in before)) and"),
     ["off_forwards"]),
    ("under `off` a division waits until it is visible under `spectre`", DIVIDES,
     DIVIDES.replace("(any(", f"({OFF} and not all(e.settled for e in before) or any("),
     ["off_divides"]),
    ("under `off` a load waits until it is visible under `spectre`", LOADS,
     LOADS.replace("(tainted", f"({OFF} and not all(e.settled for e in before) or tainted"),
     ["off_clears_at_once", "off_forwards"]),
    ("under `off` branches and JALRs are resolved in order", ABLE,
     ABLE.replace("not any(tainted[entry.serial])", f"not any(tainted[entry.serial]) and not ({OFF} and not all(e.settled for e in "
     f"self.window[:self.window.index(entry)]))"),
     ["branch_not_held"]),
    ("under `off` nothing is cleared", KNOWN_ADDRESS,
     KNOWN_ADDRESS.replace("]]", f"] and not {OFF}]").replace("not self.d.model not in", "self.d.model in"),
     ["off_clears_at_once", "off_violates"]),
    ("under `off` no load is violated", VIOLATED, VIOLATED.replace("if store", f"if not ({OFF}) and store"), ["off_violates"]),
    ("`off` is as `spectre` with bits of dependence", PASSES, PASSES.replace("else True", "else not self.d.depend or entry.settled"),
     ["off_clears_at_once"]),
    ("`off` is as `spectre` under `hold`", PASSES, PASSES.replace("else True", "else self.d.defence != HOLD or entry.settled"),
     ["off_holds_nothing"]),

    # what is cleared
    ("stores are cleared in order", KNOWN_ADDRESS,
     KNOWN_ADDRESS.replace("is not None\n", "is not None and all(e.cleared for e in self.window[:self.window.index(entry)])\n"),
     ["off_clears_at_once", "older_tainted_address", "violated_behind_a_younger_store"]),
    ("nothing is cleared in a cycle with a squash", PHASES,
     PHASES.replace("self.resolve() + self.clear()", "(lambda told: told if any(text[:2] == 'sq' for text in told) else told + "
     "self.clear())(self.resolve())"),
     ["cleared_at_a_squash"]),
    ("nothing is cleared in a cycle in which a branch or JALR is resolved", PHASES,
     PHASES.replace("self.resolve() + self.clear()", "(self.resolve() or self.clear())"),
     ["cleared_at_a_squash", "bit_asks_for_no_clearing", "tainted_address_not_cleared"]),
    ("a store is cleared only once it is visible", KNOWN_ADDRESS,
     KNOWN_ADDRESS.replace("is not None\n", "is not None and self.is_visible(entry)\n"),
     ["link_is_no_root", "older_tainted_address", "violated_behind_a_younger_store"]),
    ("a store is cleared only once it is Done", KNOWN_ADDRESS,
     KNOWN_ADDRESS.replace("is not None\n", "is not None and entry.state == DONE\n"),
     ["older_tainted_address", "violated_behind_a_younger_store"]),
    ("a store is cleared only as it is the oldest entry", KNOWN_ADDRESS,
     KNOWN_ADDRESS.replace("is not None\n", "is not None and entry is self.window[0]\n"),
     ["off_clears_at_once", "link_is_no_root"]),
    ("a store is cleared only behind resolved branches and JALRs", KNOWN_ADDRESS,
     KNOWN_ADDRESS.replace("is not None\n", "is not None and all(e.resolved for e in self.window[:self.window.index(entry)] if "
     "e.kind in CONTROL)\n"),
     ["mixed_settings", "cleared_with_tainted_data"]),
    ("a store is cleared a cycle later", KNOWN_ADDRESS,
     KNOWN_ADDRESS.replace("is not None\n", "is not None and entry.address_due < self.now\n"),
     ["faulting_load_not_violated", "faulting_store_cleared"]),
    ("a store without a load behind it isn't cleared until it is Done", KNOWN_ADDRESS,
     KNOWN_ADDRESS.replace("is not None\n", "is not None and (entry.state == DONE or any(e.kind == LOAD for e in "
     "self.window[self.window.index(entry):]))\n"),
     ["mixed_settings", "cleared_with_tainted_data"]),
    ("clearing begins only with bits of which one is set", BEGINS_CLEARED, "cleared = item.kind != STORE or not any(self.waits_for_stores)",
     ["faulting_load_not_violated", "faulting_store_cleared"]),

    # what is violated
    ("a load older than the store is violated too", VIOLATED, VIOLATED.replace("self.window[self.window.index(store):]", "self.window"),
     ["mixed_settings"]),
    ("a violation is by words", SHARED,
     SHARED.replace("any(map(self.covers, range(load.address, load.address + load.size)))", "self.fault is None and self.address // "
     "4 == load.address // 4"),
     ["violated_without_data"]),
    ("a violation is by lines", SHARED,
     SHARED.replace("any(map(self.covers, range(load.address, load.address + load.size)))", "self.fault is None and self.address // "
     "16 == load.address // 16"),
     ["older_tainted_address", "violated_without_data"]),
    ("no load is violated whose bytes a younger store covers", VIOLATED,
     VIOLATED.replace("if store.violates(load)", "if store.violates(load) and not any(all(map(e.covers, range(load.address, "
     "load.address + load.size))) "
                      "for e in self.window[self.window.index(store) + 1:self.window.index(load)])"),
     ["violated_behind_a_younger_store"]),
    ("no load is violated that has the right value", SHARED, SHARED + " and load.value != self.stored",
     ["violated_without_data", "off_violates"]),
    ("a load that was forwarded isn't violated", (SHARED, FORWARDED), (SHARED + " and not getattr(load, 'forwarded', False)", MARKED),
     ["violated_behind_a_younger_store"]),
    ("a store without data violates no load", SHARED, SHARED + " and self.data_due is not None", ["violated_without_data"]),
    ("a load that is Done isn't violated", SHARED, SHARED + " and load.state != DONE",
     ["violated_behind_a_younger_store", "checkpoint_of_the_load"]),
    ("a load is violated only as a word", SHARED, SHARED + " and load.size == 4", ["violated_without_data", "off_violates"]),
    ("a violation squashes what is behind the store", DROPS, "        dropped = self.drop_from(self.window.index(store) + 1)\n",
     ["violated_behind_a_younger_store", "bits_stay_set", "checkpoint_of_the_load"]),
    ("a violation frees the divider always", DROPS, DROPS + "        self.free_from, self.user = 0, None\n",
     ["divider_kept_at_a_violation"]),
    ("a violation sets the next bit too", BIT, BIT + "        self.waits_for_stores[(place + 1) % self.d.depend] = True\n",
     ["bits_stay_set"]),
    ("a violation sets all bits", BIT, "        self.waits_for_stores = [True] * self.d.depend\n",
     ["sixteen_bits", "bits_stay_set", "violated_by_one_byte"]),
    ("a violation sets the store's bit too", BIT, BIT + "        self.waits_for_stores[self.bit_of(store)] = True\n", ["bits_stay_set"]),
    ("a violation clears the bits of other loads", BIT, "        self.waits_for_stores = [bit == place for bit in range(self.d.depend)]\n",
     ["bits_stay_set"]),
    ("a bit is set at the second violation alone", BIT,
     "        self.seen = getattr(self, 'seen', 0) + 1\n        self.waits_for_stores[place] = self.seen > 1\n",
     ["bit_asks_for_addresses", "bit_asks_for_no_clearing", "bits_stay_set"]),
    ("bits stand by the word's low digits alone, eight of them", BIT_OF, "return load.item.pc // 4 % min(self.d.depend, 8)",
     ["sixteen_bits"]),
    ("there is one bit for all loads", BIT_OF, "return 0", ["wrong_pass", "violated_behind_a_younger_store"]),
    ("a violation leads to the store's next instruction", AGAIN, "self.fetch_pc = store.item.pc + 4",
     ["violated_behind_a_younger_store", "bits_stay_set", "checkpoint_of_the_load"]),

    # which load passes
    ("a load passes a store only behind resolved branches and JALRs", PASSING,
     PASSING + " and all(e.resolved for e in before if e.kind in CONTROL)",
     ["bit_asks_for_no_clearing", "checkpoint_of_the_load", "mixed_settings"]),
    ("a load passes a store only where it is visible", PASSING, PASSING + " and self.is_visible(load)",
     ["faulting_load_not_violated", "faulting_store_cleared"]),
    ("a load with its bit set waits until stores are Done", UNKNOWN,
     UNKNOWN.replace("store.address_due is None", "(store.address_due is None or self.d.depend and store.state != DONE)"),
     ["bit_asks_for_addresses"]),
    ("a load with its bit set waits until stores are cleared", UNKNOWN,
     UNKNOWN.replace("store.address_due is None", "(store.address_due is None or self.d.depend and not store.cleared)"),
     ["bit_asks_for_no_clearing"]),
    ("a load with its bit set waits for each store's data", UNKNOWN,
     UNKNOWN.replace("store.address_due is None", "(store.address_due is None or self.d.depend and store.data_due is None)"),
     ["bit_asks_for_addresses"]),
    ("a load passes one store at most", PASSING, PASSING + " and sum(e.address_due is None for e in stores) < 2",
     ["older_tainted_address", "sixteen_bits", "bits_stay_set"]),
    ("a load that passes a store isn't forwarded", FORWARDS,
     FORWARDS.replace("all(sources)", "all(sources) and not any(e.kind == STORE and e.address_due is None for e in before)"),
     ["violated_behind_a_younger_store"]),
    ("a load that passes a store has its bytes from memory", SOURCES,
     SOURCES.replace("if e.covers(byte)", "if e.covers(byte) and not any(s.kind == STORE and s.address_due is None for s in before)"),
     ["violated_behind_a_younger_store"]),
    ("of stores without data the youngest's taint alone holds a load", WITHOUT_DATA,
     WITHOUT_DATA.replace("(tainted", "(store is stores[-1] and tainted"),
     ["older_tainted_address"]),
    ("a store without data holds no load where a younger one covers its bytes", WITHOUT_DATA,
     WITHOUT_DATA.replace("None and (", "None and not any(all(map(e.covers, bytes_of_it)) for e in stores[stores.index(store) + 1:]) and ("),
     ["older_store_without_data"]),
    ("a store without data holds no load of untainted address where a younger one covers its bytes", WITHOUT_DATA,
     WITHOUT_DATA.replace("any(map(store.covers, bytes_of_it))", "any(map(store.covers, bytes_of_it)) and not any(all(map(e.covers, "
     "bytes_of_it)) for e in stores[stores.index(store) + 1:])"),
     ["older_store_without_data"]),
]
