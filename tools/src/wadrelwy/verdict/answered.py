"""What an answer about secret bytes is called, and the status that goes with it: the same for one verdict and for a cell of a table."""
from wadrelwy import statuses

CERTIFIED, PUBLISHED, VACUOUS, EXPOSED = "certified", "certified for what is published", "vacuous", "exposed"
EVERY_CORE, EVERY_CORE_PUBLISHED = "certified on every core that delays", "certified for what is published on every core that delays"
# of a run of the instruction set that doesn't end by an exit
NOTHING_SHOWS = "nothing shows"
OF_ALL = "for every value of these bytes the trace is the one of this run, and that is proved"
OF_PUBLISHED = "every value of these bytes with which as many steps of the instruction set publish the same gives the trace of this run, and that is proved"
CORES = "on each core with this memory, stt.defence = \"delay\" and the model spectre or futuristic, whatever its sizes"
OF_EVERY_CORE = f"every value of these bytes gives one trace {CORES}, and that is proved"
OF_EVERY_CORE_PUBLISHED = ("every value of these bytes with which as many steps of the instruction set publish the same gives one trace "
                           f"{CORES}, and that is proved")
OF_NO_CORE = "in these steps nothing shows that may depend on these bytes; the run doesn't end by an exit, so of cores nothing is claimed"
NOT_LOADED = "; but the path loads none of them as they were before the run, so it says nothing of what the program computes with later"
SHOWN = "something shows that may depend on these bytes, so nothing is proved; `pair` tells of two values whether their traces are equal"
SHOWN_ON_PATH = ("the path shows something that may depend on these bytes, so nothing is proved, of any core; `pair` tells of two values under a "
                 "description whether their traces are equal")


def claims(answer):
    """Whether something is proved where nothing shows: of a core's run always; of the instruction set's where it ends by an exit."""
    return not answer.of_path or answer.end.how.startswith("exit")


def is_vacuous(found):
    return found is not None and not found.loaded


def kind(answer, found):
    """`exposed`, `vacuous` where the path loads none of the bytes, `certified for what is published` where a stream is public, else
    `certified`; of a run of the instruction set that is so on every core that delays, or, where it doesn't end by an exit, `nothing shows`."""
    if answer.shown:
        return EXPOSED
    if is_vacuous(found):
        return VACUOUS
    if not claims(answer):
        return NOTHING_SHOWS
    words = (EVERY_CORE, EVERY_CORE_PUBLISHED) if answer.of_path else (CERTIFIED, PUBLISHED)
    return words[answer.published is not None]


def claim(answer):
    """What is said of a run in which nothing shows."""
    if not claims(answer):
        return OF_NO_CORE
    said = (OF_EVERY_CORE, OF_EVERY_CORE_PUBLISHED) if answer.of_path else (OF_ALL, OF_PUBLISHED)
    return said[answer.published is not None]


def meaning(answer, found):
    """What the word says."""
    if answer.shown:
        return SHOWN_ON_PATH if answer.of_path else SHOWN
    return claim(answer) + (NOT_LOADED if is_vacuous(found) else "")


def how_far(end):
    """How the run ended, where it wasn't by an exit with 0."""
    unit, count = ("step", end.retired) if end.cycles is None else ("cycle", end.cycles)
    # an instruction that traps is the step behind those that retired
    trapped = count + 1 if end.cycles is None else count
    return {"budget": f" in the first {count} {unit}{'' if count == 1 else 's'}", "trap": f", to a trap in {unit} {trapped}"}.get(
        end.how.split()[0], "" if end.how == "exit 0" else f", {end.how}")


def word(answer, found):
    """`certified`, `certified in the first 1000 cycles`, `certified, exit 1`, `vacuous, to a trap in cycle 6`, `exposed`."""
    return kind(answer, found) + ("" if answer.shown else how_far(answer.end))


def status(answer, found):
    """The worst of what is said."""
    if answer.shown:
        return statuses.SHOWS
    best = statuses.EVERY_CORE if answer.of_path else statuses.HOLDS
    by_end = {"budget": statuses.CUT, "trap": statuses.TRAPPED}.get(
        answer.end.how.split()[0], best if answer.end.how == "exit 0" else statuses.EXIT_VALUE)
    published = best if answer.published is None else statuses.PUBLISHED
    return statuses.worst([by_end, published, statuses.VACUOUS if is_vacuous(found) else best])
