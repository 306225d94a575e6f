"""Wrong rules of sets, of lines that are used, missed, joined, filled and prefetched, and of accesses to two: what is wrong, a text of the
model, what stands there then (or several of each), and runs and facts whose traces it changes."""

SET = "return self.cache[line // self.d.line % self.d.sets]"
SECOND_SET = "return self.second[line // self.d.line % self.d.second_sets] if self.second else []"
TOUCHES = "        lines.remove(line)\n        lines.insert(0, line)\n"
ENTERS = "        lines.insert(0, line)\n        del lines[ways:]\n"
FOUND = "found = self.touch(self.second_set_of(line), line)"
DUE = "due = self.now + (self.d.second_latency if found else self.d.miss_latency)"
TAKE = "self.misses.append(SimpleNamespace(line=line, due=due, from_memory=not found))"
ARRIVED = "for miss in [miss for miss in self.misses if miss.due == self.now]:"
FILLED = "            self.enter(self.set_of(miss.line), miss.line, self.d.ways)\n"
SECOND = "            if miss.from_memory and self.second:\n"
FREE = "        if len(taken) > self.d.mshrs - len(self.misses):\n"
TAKEN = "taken = [line for line in lines if line not in self.set_of(line) and self.due_of(line) is None]"
LOOKS = "found = [self.look(line) for line in lines]"
LATEST = 'values["due"] = max(due for due, _ in found)'
HIT = 'return self.now + self.d.hit_latency, "h"'
JOIN = 'return self.take(line) if due is None else (due, "j")'
TOUCHED = "        if self.touch(self.set_of(line), line):\n"
FORWARDED = '            return [(load, values)], [f"ld:{serial}:f"]\n'
PREFETCHED = "return [f\"pf:{line:08x}:{self.take(line)[1]}\"]"
FOLLOWS = "self.prefetch(lines[-1] + self.d.line) if taken else []"
STORES = "for line in lines]\n\n    def call"
MOVED = "'h' if self.touch(self.set_of(line), line) else 'm'"
PUT = "        self.memory.put(store.address, stored_bytes(store.stored, store.size))\n"
HELD = "held = line in self.set_of(line) or self.due_of(line) is not None"

WRONG = [
    # sets
    ("there are at most two sets", SET, SET.replace("self.d.sets", "min(self.d.sets, 2)"), ["four_sets"]),
    ("there is one set", SET, "return self.cache[0]", ["four_sets", "prefetch_behind_the_lower_line"]),
    ("a set is told by a line's address as it is", SET, SET.replace("line // self.d.line % self.d.sets", "line % self.d.sets"),
     ["four_sets", "prefetch_behind_the_lower_line"]),
    ("there is one set in the second level", SECOND_SET, SECOND_SET.replace("line // self.d.line % self.d.second_sets", "0"),
     ["join_leaves_second", "sets_of_second", "mixed_together_2"]),
    ("a set has one way more", FILLED, FILLED.replace("self.d.ways", "self.d.ways + 1"),
     ["prefetch_behind_the_lower_line", "memory_and_second"]),
    ("a set has one way", FILLED, FILLED.replace("self.d.ways", "1"), ["prefetched_to_the_front", "load_moves_the_line_that_hits"]),
    ("a set of the second level has at most four ways", "miss.line, self.d.second_ways)", "miss.line, min(self.d.second_ways, 4))",
     ["five_ways_in_second"]),
    ("a set of the second level has one way", "miss.line, self.d.second_ways)", "miss.line, 1)",
     ["memory_and_second", "prefetch_from_second"]),
    ("the newest line of a full set goes", ENTERS, "        del lines[:max(len(lines) + 1 - ways, 0)]\n        lines.insert(0, line)\n",
     ["prefetched_to_the_front", "load_moves_the_line_that_hits"]),
    ("a line enters at the back of its set", ENTERS, "        del lines[ways - 1:]\n        lines.append(line)\n",
     ["prefetched_to_the_front", "waiting_load_moves_nothing"]),
    ("a line that is used moves one place forward", TOUCHES,
     "        place = lines.index(line)\n        lines.remove(line)\n        lines.insert(max(place - 1, 0), line)\n",
     ["store_moves_the_lower_line", "store_moves_both_lines", "run_29"]),
    ("a line that is used stays in its place", TOUCHES, "", ["load_moves_the_line_that_hits", "hit_leaves_second"]),
    ("a line that is used goes to the back", TOUCHES, "        lines.remove(line)\n        lines.append(line)\n",
     ["load_moves_the_line_that_hits", "hit_leaves_second"]),

    # misses
    ("a line comes a cycle later", DUE, DUE + " + 1", ["no_prefetch_behind_memory", "no_prefetch_of_address_0"]),
    ("a line comes as late as a miss and a hit together", DUE, DUE + " + self.d.hit_latency",
     ["no_prefetch_behind_memory", "no_prefetch_of_address_0"]),
    ("a line from memory takes the second level's time too", DUE,
     DUE.replace("else self.d.miss_latency", "else self.d.miss_latency + bool(self.second) * self.d.second_latency"),
     ["next_line_fetched", "memory_and_second"]),
    ("a line of which nothing waits doesn't enter", FILLED,
     "            if any(e.kind == LOAD and e.due == self.now for e in self.window):\n    " + FILLED,
     ["violated_without_data", "divider_kept_at_a_violation"]),
    ("one line comes in a cycle", ARRIVED, "for miss in [miss for miss in self.misses if miss.due <= self.now][:1]:",
     ["prefetch_at_the_end_of_memory", "prefetch_behind_x0"]),
    ("lines that come together enter by their addresses", ARRIVED,
     "for miss in sorted((miss for miss in self.misses if miss.due == self.now), key=lambda miss: miss.line):",
     ["fills_as_taken"]),
    ("lines that come together enter the last taken first", ARRIVED,
     "for miss in [miss for miss in reversed(self.misses) if miss.due == self.now]:",
     ["prefetch_at_the_end_of_memory", "prefetch_behind_x0"]),
    ("a line of the second level goes to its front again as it comes", SECOND,
     "            self.touch(self.second_set_of(miss.line), miss.line)\n" + SECOND,
     ["fill_leaves_second"]),
    ("a line that is found in the second level goes to its front as it comes", (FOUND, SECOND),
     ("found = line in self.second_set_of(line)", "            self.touch(self.second_set_of(miss.line), miss.line)\n" + SECOND),
     ["second_moved_at_once"]),
    ("a hit looks into the second level too", TOUCHED, TOUCHED + "            self.touch(self.second_set_of(line), line)\n",
     ["hit_leaves_second"]),
    ("a join looks into the second level too", JOIN,
     "self.touch(self.second_set_of(line), line) if due is not None else None\n        " + JOIN,
     ["join_leaves_second"]),
    ("a miss that the second level has leaves it", FOUND, FOUND + "\n        if found:\n            self.second_set_of(line).remove(line)",
     ["prefetch_moves_second", "second_moved_at_once"]),
    ("a load needs one register more than it takes", FREE, FREE.replace("len(taken) >", "len(taken) >="),
     ["across_two_lines", "no_prefetch_without_register"]),
    ("a load that takes no register waits for one too", FREE, FREE.replace("len(taken) >", "max(len(taken), 1) >"),
     ["next_line_fetched", "clearing_hides_futuristic"]),
    ("a load waits where its registers lack only if both do", FREE,
     FREE.replace("len(taken) > self", "0 < len(taken) and len(lines) * bool(taken) > len(lines) - 1 + self"),
     ["registers_for_both_lines", "waiting_load_moves_nothing", "mixed_memory_2"]),
    ("a line on its way takes a register again", TAKEN, "taken = [line for line in lines if line not in self.set_of(line)]",
     ["next_line_fetched", "joined_line_takes_no_register"]),
    ("a join waits as long as a miss", JOIN, JOIN.replace("(due,", "(self.now + self.d.miss_latency,"), ["next_line_fetched", "two_joins"]),
    ("a join waits a hit longer", JOIN, JOIN.replace("(due,", "(due + self.d.hit_latency,"),
     ["next_line_fetched", "joined_line_takes_no_register"]),
    ("a join is there at once", JOIN, JOIN.replace("(due,", "(self.now + self.d.hit_latency,"), ["next_line_fetched", "two_joins"]),
    ("a hit takes a cycle more", HIT, HIT.replace("hit_latency", "hit_latency + 1"), ["no_prefetch_for_a_hit", "visible_not_held"]),
    ("a hit takes one cycle", HIT, HIT.replace("self.d.hit_latency", "1"), ["no_prefetch_for_a_hit", "visible_not_held"]),

    # two lines
    ("two joined lines are there with the lower", LATEST,
     'values["due"] = found[0][0] if {how for _, how in found} == {"j"} else max(due for due, _ in found)',
     ["two_joins"]),
    ("a line that hits and one that is joined are there with the hit", LATEST,
     'values["due"] = min(due for due, _ in found) if {how for _, how in found} == {"h", "j"} else max(due for due, _ in found)',
     ["hit_and_join"]),
    ("a line that hits and one that misses are there with the hit", LATEST,
     'values["due"] = min(due for due, _ in found) if {how for _, how in found} == {"h", "m"} else max(due for due, _ in found)',
     ["load_moves_the_line_that_hits", "later_of_two_lines", "lower_line_comes_later"]),
    ("two lines that hit take twice as long", LATEST,
     LATEST + '\n        values["due"] += self.d.hit_latency * ([how for _, how in found] == ["h", "h"])',
     ["mixed_together_1", "mixed_any_address_1"]),
    ("a load across two lines looks its upper line up first", LOOKS, "found = [self.look(line) for line in reversed(lines)][::-1]",
     ["across_two_lines", "no_prefetch_without_register"]),
    ("a load across two lines moves the one that hits only where both do", LOOKS,
     "kept = [(self.set_of(line), self.set_of(line)[:]) for line in lines]\n        " + LOOKS
     + "\n        for lines_of_set, before_it in kept * ([how for _, how in found] in (['h', 'm'], ['m', 'h'])):\n            "
     "lines_of_set[:] = before_it",
     ["load_moves_the_line_that_hits"]),
    ("a load is forwarded and moves its line too", FORWARDED,
     "            self.touch(self.set_of(address - address % self.d.line), address - address % self.d.line)\n" + FORWARDED,
     ["forwarded_moves_no_line"]),
    ("a store over two lines moves none where one misses", MOVED,
     "'m' if line not in self.set_of(line) else 'h' if any(l not in self.set_of(l) for l in lines) else 'h' * "
     "self.touch(self.set_of(line), line)",
     ["store_moves_the_line_that_hits"]),
    ("a store moves its upper line first", STORES, STORES.replace("in lines]", "in reversed(lines)][::-1]"), ["store_moves_both_lines"]),
    ("a store that misses brings its line in", MOVED,
     "'h' if self.touch(self.set_of(line), line) else self.enter(self.set_of(line), line, self.d.ways) or 'm'",
     ["one_port_each", "no_pass"]),
    ("a store that misses takes a register", MOVED, "'h' if self.touch(self.set_of(line), line) else self.take(line) and 'm'",
     ["one_port_each", "no_pass"]),
    ("a store that hits throws its line out", MOVED, "'h' if self.touch(self.set_of(line), line) and self.set_of(line).pop(0) else 'm'",
     ["store_behind_load", "late_data"]),
    ("a store doesn't write memory", PUT, "", ["late_address", "one_byte"]),
    ("a store writes a whole word", PUT, PUT.replace("store.size)", "4)"), ["mixed_8"]),

    # what is prefetched
    ("a prefetched line that the cache has moves to its front", HELD,
     HELD.replace("line in self.set_of(line)", "self.touch(self.set_of(line), line)"),
     ["hit_leaves_second", "store_moves_the_lower_line", "levels_drop_apart"]),
    ("a prefetched line enters at the back of its set", (FILLED, PREFETCHED),
     (FILLED + "            if getattr(miss, 'ahead', False):\n                self.set_of(miss.line).append(self.set_of(miss.line).pop(0))\n",
      "told = " + PREFETCHED.removeprefix("return ") + "\n        self.misses[-1].ahead = True\n        return told"),
     ["prefetched_to_the_front"]),
    ("a prefetched line that the second level has keeps its place there", PREFETCHED,
     "kept = self.second_set_of(line)[:]\n        told = " + PREFETCHED.removeprefix("return ")
     + "\n        self.second_set_of(line)[:] = kept\n        return told",
     ["prefetch_moves_second"]),
    ("a prefetched line that the second level has comes as from memory", PREFETCHED,
     "told = " + PREFETCHED.removeprefix("return ") + "\n        self.misses[-1].due = self.now + self.d.miss_latency\n        return told",
     ["prefetch_moves_second", "prefetch_from_second", "mixed_second_level_2"]),
    ("nothing is prefetched behind a load that writes no register", FOLLOWS,
     FOLLOWS.replace("if taken", "if taken and load.item.operation.code.destination"),
     ["prefetch_behind_x0"]),
    ("nothing is prefetched behind a load that isn't visible", FOLLOWS, FOLLOWS.replace("if taken", "if taken and self.is_visible(load)"),
     ["mixed_together_1", "mixed_second_level_1"]),
    ("two lines are prefetched", FOLLOWS,
     "self.prefetch(lines[-1] + self.d.line) + self.prefetch(lines[-1] + 2 * self.d.line) if taken else []",
     ["prefetched_to_the_front", "prefetch_moves_second", "mixed_second_level_1"]),
    ("a prefetch leaves the last register free", "len(self.misses) >= self.d.mshrs", "len(self.misses) + 1 >= self.d.mshrs",
     ["prefetch_behind_x0", "prefetch_at_the_end_of_memory"]),
    ("a load that joins a prefetched line prefetches the next", FOLLOWS,
     FOLLOWS.replace("if taken", "if taken or [how for _, how in found] == ['j']"),
     ["no_prefetch_for_a_join"]),
]
