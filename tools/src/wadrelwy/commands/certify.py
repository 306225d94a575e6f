"""Which programs are certified, and what the others show first: a table of programs, by each compiler and at each level, under descriptions
under settings.

    wadrelwy certify FOLDER --programs IMAGE.. --secret SYMBOL.. --descriptions DESCRIPTION.. [--set KEY=VALUE,..].. [--defences]
                     [--public-stream N]..
    wadrelwy certify FOLDER --build SOURCES [--compilers gcc clang] [--levels 1 2] [--only NAME] --secret .. --descriptions .. [..]
    wadrelwy certify FOLDER (--programs IMAGE.. | --build SOURCES) --secret .. [..]
    wadrelwy certify FOLDER [--together] [--json]

Each program is asked under each description with each combination of the values that are set, as by wadrelwy sweep: --set
stt.model=off,spectre; --defences is the model off, and each defence under both models that protect. A secret is named as for
wadrelwy verdict; of several each image takes those whose symbols it has, and it has to have one. SOURCES is a folder whose Makefile
builds each NAME.c or NAME.cpp of it, as that of examples/crypto does, into FOLDER/build/COMPILER-OLEVEL; a compiler that isn't there is left out, with a
word on standard error. NAME is a part of a program's name.

Without --descriptions each program is asked once, of every core that delays: of its run of the instruction set, with the memory that `wadrelwy isa`
has (docs/secrets.md, "Three promises"). With --descriptions and --every-core the table has both: a column for each description and setting, and
one for every core that delays and has the memory of the description.

With --public-stream 1 or 2 (both where it stands twice) what the programs write there is public from then on (docs/secrets.md, "Make
something public"): all cells are asked so, and one in which nothing shows says `certified for what is published`, and how many bytes these were.
FOLDER/table.csv has the bytes, by a run of the instruction set. Which streams are public belongs to what was asked: no answer is kept or shown
that was asked with others, and `wadrelwy certify FOLDER --public-stream N` is refused where FOLDER has others.

A cell of the table says `certified` where nothing shows and the run exited with 0: proved for every value of the secret. `certified in the
first N cycles` says that the budget ended it, `certified, to a trap in cycle N` and `certified, exit 1` how else it ended; `vacuous` that the
path loads none of the secret's bytes as they were before the run, as where it derives the key first. Else it has what shows first: an
address, a time, where a branch or jump goes, or what a call is asked for; the source's line, or function and offset; the cycle; and, where
the simulator is there (--program, STT_CLI), whether the instruction is on the path, or on a wrong one and behind which branch, return or
load that passed a store. Of every core that delays a cell says `certified on every core that delays`, or what shows first and in which step;
where a trap or the budget ended the run nothing is claimed of cores, and it says `nothing shows, to a trap in step N`. A description that is refused is a cell `refused K6`. The table is written to standard output and to FOLDER/table.md; FOLDER/table.csv has a
row for each run, and so has FOLDER/table.json, with the status of each and the sha256 of its image and description; --json writes that to
standard output in place of the table. With --together all builds of a program that have the same cells are one row of the table. Where it
was stopped, the command that began it, or `wadrelwy certify FOLDER` alone, goes on: only what is missing is asked. FOLDER has copies of all
that was asked of. FOLDER alone is refused where an image, a description or the program isn't what it was; --copies goes on with those that
the folder has. With --cycles it is refused where that isn't the budget that it was asked with. --build builds all images anew.

N of --cycles is 4294967295 without it, of steps where the run is one of the instruction set, and as many --jobs as processors. P of --secrets-program is the program that is asked: without it the
variable STT_SECRETS, else crates/stt_secrets/out/stt_secrets. The status is that of the worst cell: 0 certified, 1 something shows, 3 a
budget ended a run or a description is refused, 12 a trap, 13 vacuous, 11 another exit value, 10 certified for what is published, 15 where all
is certified on every core that delays and no core was asked of; 2 for a refusal, and 130 if interrupted."""
import os
import sys

from wadrelwy import Fault, built_programs, statuses
from wadrelwy.machine import words as asking
from wadrelwy.sweep import plan, results, running, settings
from wadrelwy.sweep.kept import write
from wadrelwy.verdict import certificates, certifying


def words(parser):
    parser.add_argument("folder", metavar="FOLDER")
    programs = parser.add_mutually_exclusive_group()
    programs.add_argument("--programs", nargs="+", default=[], metavar="IMAGE")
    programs.add_argument("--build", metavar="SOURCES")
    parser.add_argument("--compilers", nargs="+", choices=certifying.NEEDS, default=list(certifying.NEEDS))
    parser.add_argument("--levels", nargs="+", choices=list("0123s"), default=["1", "2"])
    parser.add_argument("--only", default="", metavar="NAME")
    parser.add_argument("--secret", nargs="+", action="extend", default=[], metavar="SYMBOL[+OFFSET][:BYTES]")
    asking.public_streams(parser)
    parser.add_argument("--descriptions", nargs="+", default=[], metavar="DESCRIPTION")
    parser.add_argument("--every-core", action="store_true", help="with --descriptions: every core that delays is asked of, too")
    parser.add_argument("--set", action="append", default=[], metavar="KEY=VALUE,..")
    parser.add_argument("--defences", action="store_true", help=settings.TOLD)
    parser.add_argument("--cycles", type=int, metavar="N")
    parser.add_argument("--jobs", type=int, default=len(os.sched_getaffinity(0)), metavar="N")
    parser.add_argument("--secrets-program", metavar="P")
    parser.add_argument("--program", metavar="P")
    parser.add_argument("--together", action="store_true", help="one row for all builds of a program that have the same cells")
    parser.add_argument("--json", action="store_true", help="one object in place of the table")
    parser.add_argument("--copies", action="store_true", help="go on with the folder's copies, whatever became of the files")


def checked(asked):
    """These words, where they go together."""
    if bool(asked.programs or asked.build) != bool(asked.secret) or not asked.secret and (asked.descriptions or asked.every_core):
        raise Fault("a table has programs and secrets, and descriptions where cores are asked of")
    if asked.secret and not asked.descriptions and (asked.set or asked.defences):
        raise Fault(f"{'--set' if asked.set else '--defences'} is of descriptions, and there are none")
    if asked.jobs < 1 or asked.cycles is not None and asked.cycles < 1:
        raise Fault("jobs and cycles are at least 1")


def planned(asked, program):
    """The plan of the words, or the one that the folder has."""
    if not asked.secret:
        made = certifying.read(asked.folder, asked.public_stream)
        plan.check_cycles(made, asked.cycles)
        if not asked.copies:
            plan.check_sources(made, built_programs.said(built_programs.SECRETS, asked.secrets_program))
        return made
    asked.cycles = asked.cycles or asking.MOST
    if asked.build:
        folder = os.path.join(asked.folder, "build")
        asked.programs = certifying.built(asked.build, folder, asked.compilers, asked.levels, asked.only, asked.jobs)
    return certifying.make(asked.folder, program, asked)


def main(asked):
    checked(asked)
    program = built_programs.secrets(asked.secrets_program)
    if program is None and (asked.secret or asked.secrets_program):
        raise Fault("no program stt_secrets: build it (docs/secrets.md, \"Before you ask\"), or name it with --secrets-program")
    if program is not None:
        built_programs.refuse_unproved(program)
    made = planned(asked, program)
    try:
        asks = certifying.Asks(made)
        running.Runner(made, asked.jobs, asks).all()
        found, _ = certificates.rows(made, asks)
        simulator = built_programs.simulator(asked.program)
        if simulator is None and asked.program:
            raise Fault(f"no simulator {asked.program}")
        if simulator is not None:
            found = certificates.with_fates(made, found, simulator, asked.jobs)
    except results.Refuted as refuted:
        print(f"wadrelwy certify: refuted: {refuted}", file=sys.stderr)
        return statuses.REFUTED
    table = f"{certificates.as_markdown(found, asked.together)}\nBy {made.cited}.\n"
    as_object = certificates.as_json(made, found)
    for path, text in zip(certificates.files(asked.folder), (table, certificates.as_csv(found, made.keys, made.cited), as_object)):
        write(path, text.encode())
    print(as_object if asked.json else f"{table}\n{certificates.summary(found)}\n", end="")
    return certificates.status(found)
