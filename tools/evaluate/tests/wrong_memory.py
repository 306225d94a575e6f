"""Wrong rules of accesses at any address, of the second level and of the prefetch: what is wrong, a text of the model, what stands
there then, and runs whose traces it changes."""

ENTERS = "if miss.from_memory and self.second:"
TAKE = "self.misses.append(SimpleNamespace(line=line, due=due, from_memory=not found))"
SECOND = "self.enter(self.second_set_of(miss.line), miss.line, self.d.second_ways)"
FILLED = f"            self.enter(self.set_of(miss.line), miss.line, self.d.ways)\n            {ENTERS}\n                {SECOND}\n"
FREE = "        if len(taken) > self.d.mshrs - len(self.misses):\n            return [], []\n"
BEHIND = "line >= self.memory.base + len(self.memory.data)"
HELD = "held = line in self.set_of(line) or self.due_of(line) is not None"
FOLLOWS = "self.prefetch(lines[-1] + self.d.line) if taken else []"
TOUCH = "self.touch(self.set_of(line), line)"
MOVES = TOUCH + " else"

WRONG = [
    # accesses at any address
    ("addresses have to be multiples of the width all the same", "image.memory, numbers.misaligned", "image.memory",
     ["across_two_lines", "store_moves_both_lines"]),
    ("any address is taken without the key", "image.memory, numbers.misaligned", "image.memory, True", ["misaligned_refused"]),
    ("an access may reach behind memory", "Memory(image.base, image.memory,", "Memory(image.base, image.memory + bytes(3),",
     ["load_reaches_behind_memory", "store_reaches_behind_memory"]),
    ("the line of the first byte alone is accessed", "for end in (address, address + size - 1)}", "for end in (address,)}",
     ["across_two_lines", "store_moves_both_lines"]),
    ("an access to the end of its line reaches into the next", "for end in (address, address + size - 1)}",
     "for end in (address, address + size)}", ["byte_at_its_end_covered"]),
    ("the upper line comes first", "for end in (address, address + size - 1)})", "for end in (address, address + size - 1)}, reverse=True)",
     ["across_two_lines", "later_of_two_lines", "store_moves_both_lines"]),
    ("the load has its value with the line that comes first", "max(due for due, _ in found)", "min(due for due, _ in found)",
     ["later_of_two_lines", "lower_line_comes_later", "memory_and_second"]),
    ("the load has its value with the upper line", "max(due for due, _ in found)", "found[-1][0]", ["lower_line_comes_later"]),
    ("the load has its value with the lower line", "max(due for due, _ in found)", "found[0][0]", ["later_of_two_lines", "memory_and_second"]),
    ("one free register is enough for two lines", FREE, FREE.replace("len(taken)", "min(len(taken), 1)"), ["registers_for_both_lines"]),
    ("two lines ask for two registers always", FREE, FREE.replace("len(taken)", "(len(taken) and len(lines))"),
     ["joined_line_takes_no_register"]),
    ("where registers lack, the lower line moves all the same", FREE,
     FREE.replace("            return", "            self.touch(self.set_of(lines[0]), lines[0])\n            return"), ["waiting_load_moves_nothing"]),
    ("a line whose bytes a store covers isn't accessed", "        lines = self.lines(address, load.size)\n",
     "        left = [byte for byte, store in enumerate(sources, address) if store is None] or [address]\n"
     "        lines = self.lines(left[0], left[-1] - left[0] + 1)\n", ["covered_line_is_accessed"]),
    ("a load across two lines is never forwarded", "if all(sources) and", "if len(self.lines(address, load.size)) == 1 and all(sources) and",
     ["forwarded_across_lines"]),
    ("the last byte of a load isn't looked at", "any(map(store.covers, bytes_of_it))", "any(map(store.covers, bytes_of_it[:-1]))",
     ["byte_at_its_end_covered"]),
    ("a store moves its lower line alone", MOVES, f"({TOUCH} if line == lines[0] else line in self.set_of(line)) else",
     ["store_moves_both_lines"]),
    ("a store moves its upper line alone", MOVES, f"({TOUCH} if line == lines[-1] else line in self.set_of(line)) else",
     ["store_moves_the_lower_line"]),

    # the second level
    ("nothing is found in the second level", "found = self.touch(self.second_set_of(line), line)", "found = False", ["found_in_second"]),
    ("what is found there comes as from memory", "self.d.second_latency if found else", "self.d.miss_latency if found else",
     ["found_in_second", "memory_and_second"]),
    ("a line that is found there stays in its place", "found = self.touch(self.second_set_of(line), line)",
     "found = line in self.second_set_of(line)", ["recent_in_second"]),
    ("what comes from the second level enters it anew", ENTERS, "if self.second:", ["found_in_second"]),
    ("a line enters it as a register takes it", TAKE,
     TAKE.replace("not found", "False") + "\n        found or self.second and self.enter(self.second_set_of(line), line, self.d.second_ways)",
     ["second_filled_at_fill"]),
    ("a line that is prefetched doesn't enter it", "{self.take(line)[1]}\"]",
     "{self.take(line)[1]}\"] + (setattr(self.misses[-1], 'from_memory', False) or [])",
     ["prefetch_from_second"]),
    ("it has a way more", "miss.line, self.d.second_ways", "miss.line, self.d.second_ways + 1", ["sets_of_second", "levels_drop_apart"]),
    ("it has as many sets as the cache", "% self.d.second_sets] if", "% min(self.d.sets, self.d.second_sets)] if", ["sets_of_second"]),
    ("what it loses the cache loses too", SECOND, SECOND + """
                for lines in self.cache:
                    lines[:] = [line for line in lines if any(line in kept for kept in self.second)]""", ["levels_drop_apart"]),
    ("what the cache loses enters it", FILLED, f"""            lost = [line for line in self.set_of(miss.line)[self.d.ways - 1:] if self.second]
{FILLED}            for line in lost:
                self.enter(self.second_set_of(line), line, self.d.second_ways)
""", ["levels_drop_apart"]),
    ("a store moves its line there too", MOVES, f"(self.touch(self.second_set_of(line), line), {TOUCH})[1] else", ["store_passes_second"]),

    # the prefetch
    ("nothing is prefetched", FOLLOWS, "[]", ["next_line_fetched", "prefetch_from_second"]),
    ("a line is prefetched without the key", "not self.d.prefetch or behind", "behind", ["later_of_two_lines"]),
    ("behind a join too", FOLLOWS, FOLLOWS.replace("if taken", "if taken or found[-1][1] == 'j'"), ["no_prefetch_for_a_join"]),
    ("behind a hit too", FOLLOWS, FOLLOWS.replace("if taken", "if taken or found[-1][1] == 'h'"), ["no_prefetch_for_a_hit"]),
    ("not behind a line from the second level", FOLLOWS, FOLLOWS.replace("if taken", "if 'm' in [how for _, how in found]"),
     ["prefetch_from_second"]),
    ("where the last line took a register alone", FOLLOWS, FOLLOWS.replace("if taken", "if lines[-1] in taken"),
     ["prefetch_behind_the_lower_line"]),
    ("the line behind the first", FOLLOWS, FOLLOWS.replace("lines[-1]", "lines[0]"), ["prefetch_behind_both_lines"]),
    ("the line before", FOLLOWS, FOLLOWS.replace("lines[-1] + ", "lines[-1] - "), ["next_line_fetched"]),
    ("a line on its way too", HELD, "held = line in self.set_of(line)", ["no_prefetch_on_its_way"]),
    ("a line that the cache has too", HELD, "held = self.due_of(line) is not None", ["no_prefetch_of_a_held_line"]),
    ("a line that the second level has isn't", HELD, HELD + " or line in self.second_set_of(line)", ["prefetch_from_second"]),
    ("a line behind memory too", BEHIND, "False", ["no_prefetch_behind_memory"]),
    ("a line that memory doesn't have whole isn't", BEHIND, BEHIND.replace("line >=", "line + self.d.line >"),
     ["prefetch_at_the_end_of_memory"]),
    ("behind the last address comes address 0", "def prefetch(self, line):\n",
     "def prefetch(self, line):\n        line &= WORD\n", ["no_prefetch_of_address_0"]),
    ("without a free register too", "held or len(self.misses) >= self.d.mshrs", "held", ["no_prefetch_without_register", "no_prefetch_for_a_hit"]),
    ("before the load's own lines", "        found = [self.look(line) for line in lines]\n",
     "        early = self.prefetch(lines[-1] + self.d.line) if taken else []\n        found = [self.look(line) for line in lines]\n",
     ["no_prefetch_without_register"]),
]
