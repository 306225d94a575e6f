"""Runs programs under descriptions under settings, as many at once as there are processors, and tells what came of it.

    wadrelwy sweep FOLDER --programs IMAGE.. --descriptions DESCRIPTION.. [--set KEY=VALUE,..].. [--defences] [--cycles N] [--jobs N]
    wadrelwy sweep FOLDER --programs .. --descriptions .. [..] --list [--pack] [--tasks N] [--minutes N] [--memory MEGABYTES]
    wadrelwy sweep FOLDER [--gather [--from FOLDER..]] [--copies] [--against BUILD]

Each program is run under each description with each combination of the values that are set: --set core.rob=16,32,64 --set
stt.model=off,spectre makes six runs of each. --defences is the model off, and each defence under both models that protect. Before the
first run each description and image is shown to the simulator: what it refuses is a row `refused K6`, and the others are run. FOLDER gets
copies of the simulator, the images and the descriptions, whose names have their digests; a file for each run that is over; and at the end
results.csv, results.json and the plots: bars.svg, the slowdown of each program under each defence, and curve-KEY.svg, the mean of the
slowdowns over each size that is set. Where it was stopped, the command that began it, or `wadrelwy sweep FOLDER` alone, goes on: only what
is missing is run. FOLDER alone is refused where an image, a description or the simulator isn't what it was; --copies goes on with those
that the folder has. With --cycles it is refused where that isn't the budget that it was planned with.

--against BUILD compares builds: programs of one name, told apart by their folders, as build-O0/sort.elf and build-O2/sort.elf. The column `against` of
the tables, and a line for each build, say how many cycles more each takes than that of the build's folder, under the same description.

With --list nothing is run. FOLDER gets a list of the runs that are missing, in three forms. They need FOLDER under the name that was
given here, and no other file; each goes on where it was stopped:

    parallel < FOLDER/commands         a line of shell for each run; or  parallel --sshlogin HOST,.. --workdir . < FOLDER/commands; or
                                       parallel 'RESULTS=results/task_{%} sh -c {}' < FOLDER/commands  with a file of results a slot
    sbatch FOLDER/array.sh             a job array for Slurm, of --tasks N tasks (1000) that get --minutes and --memory each
    make -k -j N -f FOLDER/rules.mk    a rule for each run
    wadrelwy sweep FOLDER --gather  makes the tables of what is there, and names what is missing; --from takes over the results of copies

--pack makes FOLDER.tar.gz of all that the lists need, to be unpacked on another machine.

Where stt_stats is found, it makes the runs: it tells the same end, and the tables have the columns load_misses_per_thousand,
mispredictions_per_thousand, slots_base and the other slots by reason, and host_seconds. A run that a list made has none of these. P2 of --stats-program is that program: without it the
variable STT_STATS, else one beside the simulator that --program or STT_CLI names, and where neither does the one that is built in this tree. It
has to tell the simulator's end of some cycles under each description.

N of --cycles is 4294967295 without it, and as many --jobs as processors. P of --program is the simulator: without it the variable STT_CLI,
else crates/stt_cli/out/stt_cli. The summary has twenty lines on standard output, and all in FOLDER/summary. The status is 0 where all runs are there; 3 where runs are missing, were refused, or were ended by the budget,
12 where one ended by a trap; 16 where the runs of one program retire unlike numbers, or end otherwise, which contradicts what is
proved; 2 for a refusal; 130 if interrupted."""
import os
import sys

from wadrelwy import Fault, built_programs, statuses
from wadrelwy.machine.words import MOST
from wadrelwy.sweep import lists, plan, plots, results, running, settings
from wadrelwy.sweep.kept import write

MOST_LINES = 20
NONE, SOME, ALL = "none", "some", "all"


def words(parser):
    parser.add_argument("folder", metavar="FOLDER")
    parser.add_argument("--programs", nargs="+", default=[], metavar="IMAGE")
    parser.add_argument("--descriptions", nargs="+", default=[], metavar="DESCRIPTION")
    parser.add_argument("--set", action="append", default=[], metavar="KEY=VALUE,..")
    parser.add_argument("--defences", action="store_true", help=settings.TOLD)
    parser.add_argument("--cycles", type=int, metavar="N")
    parser.add_argument("--jobs", type=int, default=len(os.sched_getaffinity(0)), metavar="N")
    parser.add_argument("--program", metavar="P")
    parser.add_argument("--stats-program", metavar="P2")
    parser.add_argument("--copies", action="store_true", help="go on with the folder's copies, whatever became of the files")
    lists.words(parser)
    parser.add_argument("--against", metavar="BUILD", help="compare builds with this one, as `gcc-O2` of gcc-O2/sort and gcc-O0/sort")
    parser.add_argument("--plots", choices=(NONE, SOME, ALL), default=SOME, help=f"some, without it: all but bars of more than {plots.MOST_PANELS} panels")


def checked(asked):
    """Refuses words that don't go together."""
    if bool(asked.programs) != bool(asked.descriptions) or not asked.programs and (asked.set or asked.defences):
        raise Fault("a sweep has programs and descriptions")
    if asked.jobs < 1 or asked.cycles is not None and asked.cycles < 1:
        raise Fault("jobs and cycles are at least 1")
    lists.checked(asked)


def planned(asked):
    """The plan of the words, or the one that the folder has."""
    program = built_programs.simulator(asked.program)
    counting = built_programs.counting(asked.program, asked.stats_program)
    if asked.stats_program and counting is None:
        raise Fault(f"no program {asked.stats_program}")
    if asked.programs:
        if program is None:
            raise Fault("no simulator: build it (docs/using.md, \"Before you start\"), or name it with --program")
        asked.cycles = asked.cycles or MOST
        made = running.Checked(plan.make(asked.folder, program, asked, counting=counting), asked.jobs).checked()
        if counting:
            running.of_one_machine(made, asked.jobs)
        for note in sorted({f"{run.base}: {run.refused}, {run.description}" for run in made.runs if run.refused}):
            print(f"wadrelwy sweep: {note}", file=sys.stderr)
        return plan.keep(made)
    if asked.program and program is None:
        raise Fault(f"no simulator {asked.program}")
    made = plan.read(asked.folder)
    plan.check_cycles(made, asked.cycles)
    if not asked.copies:
        named = built_programs.said(built_programs.STATS, asked.stats_program) if made.counting or asked.stats_program else None
        plan.check_sources(made, built_programs.said(built_programs.SIMULATOR, asked.program), named)
    return made


def write_results(made, asked):
    """Writes what is there, names what is missing, and answers the status."""
    found, missing = results.rows(made, running.SWEEP)
    found = list(results.with_builds(found, asked.against)) if asked.against else found
    files = {"results.csv": results.as_csv(found, made.keys, made.cited), "results.json": results.as_json(found, made.keys, made.cited)}
    files |= plots.all_of(found, asked.plots == ALL) if asked.plots != NONE else {}
    lines = [*results.builds(found, asked.against), *plots.summary(found)]
    files["summary"] = "".join(f"{line}\n" for line in [*lines, *results.other_ends(found), f"by {made.cited}"])
    for name, text in files.items():
        write(made.path(name), text.encode())
    for name in {name for name in os.listdir(made.folder) if plots.FILES.fullmatch(name)} - files.keys():
        lists.remove(made.path(name))
    print(f"{len(found)} runs in {made.path('results.csv')}" + (f", {len(missing)} are missing" if missing else ""))
    print(*lines[:MOST_LINES], *lists.more(lines, made.path("summary"), MOST_LINES), *results.other_ends(found), f"by {made.cited}", sep="\n")
    print(*(made.path(name) for name in files if name.endswith(".svg")), *left_out(found, files, asked.plots), sep="\n")
    if found and not made.counting:
        print("without misses, mispredictions and host seconds: no program stt_stats was found (docs/using.md, \"Count a run\")")
    lists.tell_missing("wadrelwy sweep", made, missing)
    ends = {row.end.split()[0] for row in found}
    return statuses.CUT if missing or ends & {"budget", "refused"} else statuses.TRAPPED if "trap" in ends else statuses.HOLDS


def left_out(found, files, asked):
    """That bars are left out, where they are."""
    if asked == SOME and "bars.svg" not in files and plots.panels(found) > plots.MOST_PANELS:
        yield f"bars.svg is left out: it would have {plots.panels(found)} panels; --plots {ALL} draws it"


def main(asked):
    checked(asked)
    made = planned(asked)
    try:
        if asked.list:
            print(*lists.written(made, running.SWEEP, plan.PLAN, asked, asked.folder, f"wadrelwy sweep {asked.folder} --gather"), sep="\n")
            return statuses.HOLDS
        if asked.others:
            print(f"{results.brought(made, running.SWEEP, asked.others)} results came from {', '.join(asked.others)}")
        if not asked.gather:
            (running.Counter if made.counting else running.Runner)(made, asked.jobs).all()
        return write_results(made, asked)
    except results.Refuted as refuted:
        print(f"wadrelwy sweep: refuted: {refuted}", file=sys.stderr)
        return statuses.REFUTED
