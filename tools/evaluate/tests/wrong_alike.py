"""Wrong rules that no run refuses: what is wrong, a text of the model, what stands there then, and why. ALIKE are those that mean the same as
the right rule; PROVED are those that a theorem refuses, by the name of the crate that has it."""

SAFE = "return self.kind not in (CALL, STOP) and self.settled and (self.kind not in CONTROL or self.fault is None)"
KEEPS = "if head is None or head.state != DONE or head.kind in CONTROL"
FLOWS = "set().union(*by_source)"
GIVES = "writer not in self.window or self.gives(writer) for"
HELD = "held = self.d.defence == HOLD and"
CLEARS = "and not tainted[entry.serial][0]]\n        if not able:"
ISSUES_LOAD = "if entry.kind == LOAD and (tainted[entry.serial][0] or"
DIVIDES = "if entry.kind == DIVISION and (any(tainted[entry.serial]) or"
RENAMED = '            events.append(f"ren:{self.next_serial}:{item.pc:08x}")\n'

ALIKE = [
    ("targets predict branches too", "if item.kind == JALR else None", "if item.kind in CONTROL else None",
     "stores don't change code, so where a branch stands no JALR stored a target"),
    ("a load's fault traps as soon as it is found", KEEPS, KEEPS.replace("DONE or", "DONE and not (head.kind == LOAD and head.fault "
     "is not None) or"),
     "it is found at Issue, behind Retire, and the load is Done before the next Retire"),
    ("taint doesn't flow through a load's base", FLOWS, "set().union(*(by_source if entry.kind != LOAD else ()))",
     "where the base's root isn't visible, this younger load isn't either, and is a root itself"),
    ("a line's set is the next one", "return self.cache[line // self.d.line % self.d.sets]", "return self.cache[(line // self.d.line "
     "+ 1) % self.d.sets]",
     "the sets have other names, and nothing tells a set's name"),
    ("a line that is on its way isn't looked for in the cache", "        if self.touch(self.set_of(line), line):\n            return",
     "        if self.due_of(line) is None and self.touch(self.set_of(line), line):\n            return",
     "a register takes only what the cache lacks, and a line enters only as its register lets it go"),
    ("under `off` a store need not be cleared to retire", "(stored or not head.cleared)",
     "(stored or not head.cleared and self.d.model in (SPECTRE, FUTURISTIC))", "a store whose turn it is was the oldest as Clear "
     "looked, so it is cleared"),
    ("a branch or JALR that faults is safe once it is resolved", SAFE, "return self.kind not in (CALL, STOP) and self.settled",
     "as it is resolved all that is younger goes, and nothing more is fetched"),
    ("a call is safe", SAFE, SAFE.replace("self.kind not in (CALL, STOP)", "self.kind != STOP"), "a call is alone in the window"),
    ("a stop is safe", SAFE, SAFE.replace("self.kind not in (CALL, STOP)", "self.kind != CALL"), "nothing is fetched behind a stop"),
    ("Rename ends behind a stop", RENAMED, RENAMED + "            if item.kind == STOP:\n                break\n", "nothing is "
     "fetched behind a stop"),
    ("of history only the digits count that a counter's place has", "(branch.pc // 4 ^ history) % self.d.counters",
     "(branch.pc // 4 ^ history % self.d.counters) % self.d.counters", "the number of counters is a power of two, so higher digits "
     "fall away anyway"),
    ("`hold` leaves out the bases of loads", GIVES, GIVES.replace("self.gives(writer)", "self.gives(writer) or writer.state == DONE "
     "and entry.kind == LOAD"),
     "what is held back is tainted, and a load with a tainted base waits anyway"),
    ("`hold` leaves out divisions", GIVES, GIVES.replace("self.gives(writer)", "self.gives(writer) or writer.state == DONE and "
     "entry.kind == DIVISION"),
     "what is held back is tainted, and a division with a tainted operand waits anyway"),
    ("`delay` holds results back as `hold` does", HELD, HELD.replace("== HOLD", "in (HOLD, DELAY)"),
     "a load issues only once it is visible, and it stays so"),
    ("under `delay` a store is cleared only once it is visible", CLEARS, CLEARS.replace("]\n", " and self.may_show(entry)]\n"),
     "its address issues only once it is visible, and it stays so"),
    ("under `delay` a load may have a tainted base", ISSUES_LOAD, ISSUES_LOAD.replace("tainted", "self.d.defence != DELAY and tainted"),
     "what is visible has no tainted operand, for what is older is visible too"),
    ("under `delay` a division may have a tainted operand", DIVIDES, DIVIDES.replace("(any", "(self.d.defence != DELAY and any"),
     "what is visible has no tainted operand, for what is older is visible too"),
]
PROVED = [
    ("behind the last address nothing follows", "pc, behind = item.pc, item.pc + 4 & WORD", "pc, behind = item.pc, item.pc + 4",
     "committed_state"),
]
