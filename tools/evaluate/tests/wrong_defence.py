"""Wrong rules of the model `off` and of the defences `hold` and `delay`: what is wrong, a text of the model, what stands there then, and facts whose
traces it changes."""

PASSES = "entry.settled if self.d.model == SPECTRE else entry.safe if self.d.model == FUTURISTIC else True"
OFF = "self.d.model not in (SPECTRE, FUTURISTIC)"
RESOLVES = "    def resolve(self):\n"
RESOLVED = "        tainted = self.hidden_roots()\n        able = [entry for entry in self.window if entry.kind in CONTROL"
ISSUES = "        tainted = self.hidden_roots()\n        left = "
AS_SPECTRE = f"""        model, self.d.model = self.d.model, SPECTRE if {OFF} else self.d.model
        tainted = self.hidden_roots()
        self.d.model = model
"""
HELD = "held = self.d.defence == HOLD and writer.kind == LOAD and not self.is_visible(writer)"
GIVES = "writer not in self.window or self.gives(writer) for"
SHOWS = "return self.d.defence != DELAY or self.is_visible(entry)"
RESOLVES_SO = "and not any(tainted[entry.serial]) and self.may_show(entry)]"
WAITS = "        if entry.kind in (LOAD, DIVISION) and not self.may_show(entry):\n"
ADDRESS_WAITS = " and self.known(entry, (0,)) and self.may_show(entry) else []"
OLDER = "self.window[:self.window.index(entry)]"


def leaves_out(which):
    """`hold` that holds nothing back from these."""
    return GIVES.replace("self.gives(writer)", f"self.gives(writer) or writer.state == DONE and ({which})")


def delays(which):
    """`delay` that asks of an entry this instead of whether it is visible."""
    return SHOWS.replace("self.is_visible(entry)", which)


def under(model, other):
    """`delay` that asks what is visible under another model than the description's, where that is this one."""
    permits = {"spectre": "earlier.settled", "futuristic": "earlier.safe", "off": "True"}[other]
    return delays(f"all({permits} if self.d.model == {model!r} else self.permits(earlier) for earlier in {OLDER})")


def resolves(kind):
    """Resolve in which entries of this kind don't wait."""
    return RESOLVES_SO.replace("self.may_show(entry)", f"(entry.kind == {kind} or self.may_show(entry))")


def waits_too(which):
    """Issue in which these wait, too."""
    return WAITS.replace("entry.kind in (LOAD, DIVISION)", f"({which})")


WRONG = [
    # the model `off`
    ("`off` is as `spectre`", PASSES, PASSES.replace("else True", "else entry.settled"), ["bypass_visible", "bypass_visible_other_secret"]),
    ("`off` is as `futuristic`", PASSES, PASSES.replace("else True", "else entry.safe"), ["bypass_visible", "bypass_visible_other_secret"]),
    ("`off` issues as `spectre` does", ISSUES, AS_SPECTRE + ISSUES.split("\n")[1], ["bypass_visible", "bypass_visible_other_secret"]),
    ("`off` resolves nothing", RESOLVES, f"{RESOLVES}        if {OFF}:\n            return []\n",
     ["bypass_visible", "bypass_visible_other_secret"]),
    ("`off` resolves as `spectre` does", RESOLVED, AS_SPECTRE + RESOLVED.split("\n")[1], ["branch_not_held"]),
    ("`spectre` is as `off`", PASSES, "entry.safe if self.d.model == FUTURISTIC else True",
     ["bypass_2", "bypass_2_other_secret", "passed_2", "passed_2_other_secret", "clearing_hides"]),
    ("`futuristic` is as `off`", PASSES, "entry.settled if self.d.model == SPECTRE else True", ["clearing_hides_futuristic"]),

    # the defence `hold`
    ("`hold` is as `stt`", HELD, "held = False", ["bypass_held", "bypass_held_other_secret", "data_held", "base_held"]),
    ("`stt` is as `hold`", HELD, HELD.replace("self.d.defence == HOLD and ", ""), ["bypass_2", "passed_2", "clearing_hides"]),
    ("`hold` leaves out the data of stores", GIVES, leaves_out("entry.kind == STORE and sources == (1,)"), ["data_held"]),
    ("`hold` leaves out the base of stores", GIVES, leaves_out("entry.kind == STORE and sources == (0,)"), ["base_held"]),
    ("`hold` leaves out arithmetic", GIVES, leaves_out("entry.kind not in (*PORTS, STORE, *CONTROL)"),
     ["bypass_held", "bypass_held_other_secret"]),
    ("`hold` leaves out multiplications", GIVES, leaves_out("entry.kind == MULTIPLICATION"), ["each_kind_held"]),
    ("`hold` leaves out branches", GIVES, leaves_out("entry.kind == BRANCH"), ["each_kind_held"]),
    ("`hold` leaves out JALR", GIVES, leaves_out("entry.kind == JALR"), ["each_kind_held"]),
    ("`hold` leaves out all but stores", GIVES, leaves_out("entry.kind != STORE"), ["bypass_held", "bypass_held_other_secret"]),
    ("`hold` leaves out the first source", GIVES, leaves_out("writer is entry.writers[0]"), ["bypass_held", "base_held"]),
    ("`hold` leaves out the second source", GIVES, leaves_out("len(sources) == 2 and writer is entry.writers[1]"), ["each_kind_held"]),
    ("`hold` holds back the result of a load that is visible", HELD, HELD.replace(" and not self.is_visible(writer)", ""), ["visible_given"]),
    ("`hold` holds back what isn't a load's result", HELD, HELD.replace("writer.kind == LOAD and ", ""), ["sums_not_held"]),

    # the defence `delay`
    ("`delay` is as `stt`", SHOWS, "return True", ["delayed_under_spectre", "mixed_delay_1", "mixed_delay_2"]),
    ("`stt` is as `delay`", SHOWS, "return self.is_visible(entry)", ["bypass_2", "passed_2"]),
    ("`hold` delays too", SHOWS, SHOWS.replace("!= DELAY", "not in (DELAY, HOLD)"), ["data_held", "base_held", "mixed_settings"]),
    ("under `delay` a load doesn't wait", WAITS, WAITS.replace("(LOAD, DIVISION)", "(DIVISION,)"),
     ["delayed_under_spectre", "mixed_delay_2"]),
    ("under `delay` a division doesn't wait", WAITS, WAITS.replace("(LOAD, DIVISION)", "(LOAD,)"),
     ["delayed_under_spectre", "mixed_delay_2"]),
    ("under `delay` a branch doesn't wait", RESOLVES_SO, resolves("BRANCH"),
     ["delayed_under_spectre"]),
    ("under `delay` a JALR doesn't wait", RESOLVES_SO, resolves("JALR"),
     ["delayed_under_spectre", "mixed_delay_2"]),
    ("under `delay` the address of a store doesn't wait", ADDRESS_WAITS, ADDRESS_WAITS.replace(" and self.may_show(entry)", ""),
     ["delayed_under_spectre"]),
    ("under `delay` the data of a store waits", "self.known(entry, (1,)) else", "self.known(entry, (1,)) and self.may_show(entry) else",
     ["delayed_under_spectre"]),
    ("under `delay` arithmetic waits", WAITS, waits_too("entry.kind not in (MULTIPLICATION, *CONTROL)"), ["delayed_under_spectre"]),
    ("under `delay` a multiplication waits", WAITS, waits_too("entry.kind in (LOAD, DIVISION, MULTIPLICATION)"), ["delayed_under_spectre"]),
    ("under `delay` a branch waits before it executes", WAITS, waits_too("entry.kind in (LOAD, DIVISION, BRANCH)"), ["delayed_under_spectre"]),
    ("under `delay` a JALR waits before it executes", WAITS, waits_too("entry.kind in (LOAD, DIVISION, JALR)"), ["delayed_under_spectre"]),
    ("under `delay` an entry waits for itself", SHOWS, delays("all(map(self.permits, self.window[:self.window.index(entry) + 1]))"),
     ["delayed_under_spectre", "mixed_delay_2"]),
    ("under `delay` the entry before isn't asked", SHOWS, delays("all(map(self.permits, self.window[:max(self.window.index(entry) - 1, 0)]))"),
     ["delayed_under_spectre", "mixed_delay_2"]),
    ("under `delay` what shows waits until it is the oldest", SHOWS, delays("entry is self.window[0]"), ["delayed_under_spectre"]),
    ("under `delay` what shows waits only behind branches", SHOWS, delays(f"all(map(self.permits, (e for e in {OLDER} if e.kind in CONTROL)))"),
     ["mixed_delay_2"]),
    ("under `spectre` `delay` asks what `futuristic` does", SHOWS, under("spectre", "futuristic"), ["delayed_under_spectre"]),
    ("under `futuristic` `delay` asks what `spectre` does", SHOWS, under("futuristic", "spectre"), ["mixed_delay_2"]),
    ("under `off` `delay` asks what `spectre` does", SHOWS, under("off", "spectre"), ["off_delays_nothing"]),
    ("under `off` `delay` asks what `futuristic` does", SHOWS, under("off", "futuristic"), ["off_delays_nothing"]),
]
