"""Cycles and what else is counted of a long run, from short windows of it, in a fraction of its time: an estimate, with what it is worth.

    wadrelwy sample IMAGE DESCRIPTION.. [-o FOLDER] [--windows M] [--length L] [--warm W] [--steps N] [--set KEY=VALUE,..].. [--defences]
    wadrelwy sample IMAGE DESCRIPTION.. [..] --list [--pack] [--tasks N] [--minutes N] [--memory MEGABYTES]
    wadrelwy sample -o FOLDER [--gather [--from FOLDER..]]

`isa` goes over the run, a hundred times as fast as a core does, and leaves images that go on at M places, each made of the one before as
`wadrelwy continue` makes them: one in each of M equal parts of the run, by chance within its part. In a core that begins cold there, a word of
each line of data that isn't zero is loaded, so that the caches aren't empty (--no-touch: they are); W instructions go by, and then L are
measured, by `stt_stats --every`. What comes is the mean in cycles per instruction, and each other number that stt_stats counts for a thousand
instructions, with the 95 % interval of a mean; twenty-five of the windows are measured with four times the warm-up, too, and what that changes is
put to the mean, and told: so much the cold start counts. What stays cold longest is the predictor. Without more M is 150, L 10000, W 20000. Where
the run changes its level, further windows find out where: not in a list, but `wadrelwy sample -o FOLDER` measures them once all others are there.
A run that is hardly longer than M times W is better run as a whole. --steps N takes the first N instructions for the run; without it a run that
doesn't end within 4294967295 is refused. --at names the place of the instructions that come first, as for `continue`; a program that uses their
place is refused.

No theorem ties an estimate to a run. Each image is one of which all promises hold; that they are like the run that was asked for is what the two
numbers are for.

Windows are measured as soon as the image before them is there, as many at once as --jobs says, without it as there are processors. P of --program
is the simulator, and P2 of --stats-program what counts: without them as for `wadrelwy sweep`.

FOLDER, without -o IMAGE's name and `.sample`, gets copies of the images, the descriptions and the programs by names that have their digests, a
file for each window that was measured, and at the end estimates.csv and estimates.json with a row for each description, figures.csv with one for
each figure of each, windows.csv with one for each window, and the file summary. Where it was stopped the same command goes on; so does
`wadrelwy sample -o FOLDER` alone once all images are there, with what was asked then: another M, L or the like is refused. An estimate is of two
windows and more; where some are missing, it is of the others, and says so. --list, --gather and the words with them are those of `wadrelwy sweep`.

The status is 0 where all windows are measured, 3 where some are missing, 16 where a window has two results, which contradicts
what is proved, 2 for a refusal, 130 if interrupted."""
import os
import sys
from argparse import ArgumentParser, BooleanOptionalAction, Namespace
from typing import Optional

from wadrelwy import Fault, built_programs, statuses
from wadrelwy.sampling import estimate, planned, refining
from wadrelwy.sweep import lists, plan, results, settings
from wadrelwy.sweep.kept import write


# what is asked where the words say nothing else
DEFAULTS = {"windows": 150, "length": 10000, "warm": 20000, "seed": 1, "touch": True, "set": [], "defences": False}


def number(text: str) -> int:
    return int(text, 0)


def words(parser: ArgumentParser) -> None:
    parser.add_argument("image", nargs="?", metavar="IMAGE")
    parser.add_argument("descriptions", nargs="*", default=[], metavar="DESCRIPTION")
    parser.add_argument("-o", dest="output", metavar="FOLDER")
    parser.add_argument("--windows", type=number, metavar="M")
    parser.add_argument("--length", type=number, metavar="L", help="in instructions")
    parser.add_argument("--warm", type=number, metavar="W", help="in instructions")
    parser.add_argument("--steps", type=number, metavar="N", help="take the first N instructions for the run")
    parser.add_argument("--seed", type=number, metavar="S", help="of the places within their parts")
    parser.add_argument("--touch", action=BooleanOptionalAction, help="load what may be in the caches before the warm-up; without either it is so")
    parser.add_argument("--at", type=number, metavar="ADDRESS")
    parser.add_argument("--set", action="append", metavar="KEY=VALUE,..")
    parser.add_argument("--defences", action="store_true", default=None, help=settings.TOLD)
    parser.add_argument("--jobs", type=number, default=len(os.sched_getaffinity(0)), metavar="N")
    parser.add_argument("--program", metavar="P")
    parser.add_argument("--stats-program", metavar="P2")
    lists.words(parser)


def checked(asked: Namespace) -> None:
    """Refuses words that don't go together, and gives the folder its name."""
    if asked.image and not asked.descriptions:
        raise Fault("an image and descriptions are asked for")
    if not asked.image and not asked.output:
        raise Fault("an image and descriptions are asked for, or -o and a folder that goes on")
    if asked.jobs < 1 or asked.steps is not None and asked.steps < 1:
        raise Fault("jobs and steps are at least 1")
    lists.checked(asked)
    asked.output = asked.output or os.path.splitext(os.path.basename(asked.image))[0] + ".sample"


def made_of(asked: Namespace) -> tuple[plan.Plan, planned.Question]:
    """The plan of the words, or the one that the folder has."""
    if asked.image:
        vars(asked).update({name: value for name, value in DEFAULTS.items() if getattr(asked, name) is None})
        simulator = built_programs.needed(built_programs.SIMULATOR, asked.program)
        counting = built_programs.counting(asked.program, asked.stats_program)
        if counting is None:
            raise Fault(f"no program {built_programs.STATS} {asked.stats_program or f'beside {simulator}'}: build it (docs/using.md, \"Count a run\"), "
                        f"or name it by --stats-program or {built_programs.STATS.upper()}")
        return planned.make(asked, simulator, counting)
    made, question = planned.read(asked.output)
    for name in planned.KEYS:
        given = getattr(asked, name)
        if given not in (None, question.asked.get(name)):
            raise Fault(f"{asked.output} was asked with {name} {question.asked.get(name)}, and not with {given}: {plan.ANEW}")
    plan.check_sources(made, built_programs.said(built_programs.STATS, asked.stats_program), anew=plan.ANEW)
    return made, question


def write_estimates(made: plan.Plan, question: planned.Question) -> int:
    """Writes what is there, names what is missing, and answers the status."""
    found = estimate.found_in(made, question)
    rows = list(estimate.records(question, found, made.cited))
    lines = [*estimate.summary(question, found), f"by {made.cited}"]
    files = {"estimates.csv": estimate.as_csv(rows), "estimates.json": estimate.as_json(rows),
             "figures.csv": estimate.as_csv(estimate.figure_records(found)),
             "windows.csv": estimate.as_csv(estimate.window_records(found)), "summary": "".join(f"{line}\n" for line in lines)}
    for name, text in files.items():
        write(made.path(name), text.encode())
    print(*lines, *(made.path(name) for name in files), sep="\n")
    lists.tell_missing("wadrelwy sample", made, found.missing)
    return statuses.CUT if found.missing else statuses.HOLDS


def measured(made: plan.Plan, question: planned.Question, jobs: int) -> plan.Plan:
    """Measures what is missing, and then further windows where the run changes its level, as long as there are any."""
    further: Optional[plan.Plan] = made
    while further is not None:
        made = further
        planned.Measurer(made, jobs, planned.asks_of(question)).all()
        further = refining.refined(made, question)
    return made


def main(asked: Namespace) -> int:
    checked(asked)
    made, question = made_of(asked)
    asks = planned.asks_of(question)
    if asked.list:
        print(*lists.written(made, asks, planned.PLAN, asked, asked.output, f"wadrelwy sample -o {asked.output} --gather"), sep="\n")
        return statuses.HOLDS
    try:
        if asked.others:
            print(f"{results.brought(made, asks, asked.others)} results came from {', '.join(asked.others)}")
        if not asked.gather:
            made = measured(made, question, asked.jobs)
        return write_estimates(made, question)
    except results.Refuted as refuted:
        print(f"wadrelwy sample: refuted: {refuted}", file=sys.stderr)
        return statuses.REFUTED
