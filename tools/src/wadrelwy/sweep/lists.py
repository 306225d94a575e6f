"""The runs that are missing as lists for other machines: a line of shell for each (GNU parallel), a job array (Slurm), rules (make); or all of
it in one archive. They need the plan's folder under the name that the plan was given, POSIX's shell, and sha256sum."""
import heapq
import io
import os
import shlex
import sys
import tarfile

from wadrelwy.view import Fault

from .kept import whole, write
from .results import TASK, Store

# of a Slurm array: its own limit is 1001 without a word of the administrator
MOST_TASKS = 1000
# what a run is given where nobody says so: instructions a second of a slow machine, with a wide margin, and what a core takes
STEPS_A_SECOND, LEAST_MINUTES, MEMORY = 50000, 5, 256
MOST_NAMED = 20

RUN = """#!/bin/sh
# Makes one run of this folder's plan: sh run NAME DESCRIPTION IMAGE{more}, as `commands` has them. The result stands in results/NAME, or as a
# line of the file $RESULTS, which no two runs may have at one time; as a whole or not at all. Where it is there, nothing is run. What is run is
# compared with the digest in its name first.
# {statuses}
name=$1 description=$2 image=$3 program={program}
folder=$(dirname "$0") && cd "$folder" || exit 2
said=
[ -n "$RESULTS" ] && [ -f "$RESULTS" ] && said=$(grep " of $name\\$" "$RESULTS" | tail -n 1)
# a result that was counted has its name on a line of its own
[ -z "$said" ] && [ -f "results/$name" ] && said=$(tail -n 2 "results/$name" | tr '\\n' ' ' | grep " of $name \\$")
if [ -z "$said" ]; then
  sha256sum "$program" "$description" "$image" | {{
    same=0
    while read -r sum file; do
      sum=${{sum%"${{sum#????????????????}}"}}
      case $file in
        *_"$sum" | *_"$sum".toml | *_"$sum".elf) same=$((same + 1)) ;;
        *) echo "run: $file isn't what was planned: its sha256 begins with $sum" >&2 ;;
      esac
    done
    [ $same = 3 ]
  }} || exit 2
  {asked}
  case $status:$said in
    {whole}) ;;
    *) case $status in "" | 0 | *[!0-9]*) status=2 ;; esac
       echo "run: $name has no result: status $status" >&2
       exit "$status" ;;
  esac
  said="$said of $name"
  if [ -n "$RESULTS" ]; then
    [ -s "$RESULTS" ] && [ -n "$(tail -c 1 "$RESULTS")" ] && printf '\\n' >> "$RESULTS"
    printf '%s\\n' "$said" >> "$RESULTS" || exit 7
  else
    part=results/$name.$$.part
    printf '%s\\n' "$said" > "$part" && mv "$part" "results/$name" || exit 7
  fi
fi
case $said in
  "end exit "* | "cycle "*) exit 0 ;;
  "end trap "*) exit 1 ;;
  *) exit 3 ;;
esac
"""

ARRAY = """#!/bin/sh
#SBATCH --job-name=sweep
#SBATCH --array=1-{tasks}
#SBATCH --ntasks=1
#SBATCH --time={minutes}
#SBATCH --mem={memory}M
#SBATCH --output={folder}/said/%a
# {runs} runs, dealt by what they cost to {tasks} tasks. What a run says on standard error stands in said/TASK. A task's results are one file,
# and where it was ended it goes on, by the same command. The folder has to be there under this name, from where the job is submitted.
RESULTS=results/{task}$SLURM_ARRAY_TASK_ID
export RESULTS
failed=0
while read -r line; do
  sh -c "$line" < /dev/null
  status=$?
  case $status in 0 | 1 | 3) ;; *) [ $failed = 0 ] && failed=$status ;; esac
done < {folder}/tasks/$SLURM_ARRAY_TASK_ID
exit $failed
"""

RULES = """# make -k -j N -f this file: a run for each result that isn't there.
all: {results}
.PHONY: all
"""


def words(parser):
    """The words by which a command asks for lists, and for what came of them."""
    only = parser.add_mutually_exclusive_group()
    only.add_argument("--list", action="store_true", help="write the lists, run nothing")
    only.add_argument("--gather", action="store_true", help="run nothing")
    parser.add_argument("--pack", action="store_true", help="with --list: one archive of all that it needs")
    parser.add_argument("--tasks", type=int, metavar="N", help="of a job array")
    parser.add_argument("--minutes", type=int, metavar="N", help="that a task may take")
    parser.add_argument("--memory", type=int, metavar="MEGABYTES", help="that a task gets")
    parser.add_argument("--from", dest="others", nargs="+", default=[], metavar="FOLDER", help="with --gather: copies of the folder")


def checked(asked):
    """Refuses such words that don't go together."""
    if min([1, *(number for number in (asked.tasks, asked.minutes, asked.memory) if number is not None)]) < 1:
        raise Fault("tasks, minutes and memory are at least 1")
    if asked.pack and not asked.list or asked.others and not asked.gather:
        raise Fault("--pack is asked for with --list, and --from with --gather")


def written(plan, asks, file, asked, folder, gather):
    """Writes the lists as these words ask for them, and tells how each is used; `gather` is the command that gathers."""
    options = {"tasks": asked.tasks, "minutes": asked.minutes, "memory": asked.memory}
    listed = Lists(plan, asks, folder, **options)
    listed.write(plan)
    yield (f"{len(listed.runs)} commands in {plan.path('commands')}: parallel < {plan.path('commands')}; or sbatch {plan.path('array.sh')}; "
           f"or make -k -j N -f {plan.path('rules.mk')}; then {gather}")
    if asked.pack:
        yield pack(plan, asks, file, **options)


def more(lines, file, most=MOST_NAMED):
    """That there are more lines than are shown, and where they stand."""
    return [f"and {len(lines) - most} more, in {file}"] if len(lines) > most else []


def tell_missing(command, plan, missing):
    """Names the runs that are missing: the first on standard error, all in a file."""
    lines, file = [f"{run.name}: {why} ({run.result})" for run, why in missing], plan.path("missing")
    if not lines:
        remove(file)
        return
    write(file, "".join(f"{line}\n" for line in lines).encode())
    print(*(f"{command}: missing: {line}" for line in lines[:MOST_NAMED] + more(lines, file)), sep="\n", file=sys.stderr)


def remove(path):
    if os.path.exists(path):
        os.remove(path)


def missing(plan, asks):
    store = Store(plan, asks)
    return list({run.id: run for run in plan.runs if not run.refused and run.id not in store.found}.values())


def command(folder, run):
    """A line of shell that makes a run."""
    return shlex.join([f"{folder}/run", run.id, run.description, run.image, *run.words])


def dealt(runs, tasks):
    """The runs in so many parts of about one cost."""
    parts = [(0, at, []) for at in range(tasks)]
    for run in sorted(runs, key=lambda run: -run.cost):
        cost, at, part = heapq.heappop(parts)
        part.append(run)
        heapq.heappush(parts, (cost + max(run.cost, 1), at, part))
    return [part for _, _, part in sorted(parts, key=lambda each: each[1])]


def minutes_of(part, cycles):
    """How long a task may take, where nobody says so. What never ends costs as many instructions as it has cycles."""
    steps = sum(run.cost if run.end else cycles for run in part)
    return max(LEAST_MINUTES, -(-steps // (60 * STEPS_A_SECOND)))


class Lists:
    """The texts of the lists, by the names of their files in the plan's folder, which the lists name as `folder`."""

    def __init__(self, plan, asks, folder, tasks=None, minutes=None, memory=None):
        self.runs = missing(plan, asks)
        quoted, tasks = shlex.quote(folder), min(tasks or MOST_TASKS, len(self.runs)) or 1
        parts = dealt(self.runs, tasks)
        minutes = minutes or max(minutes_of(part, plan.cycles) for part in parts)
        self.texts = {
            "run": RUN.format(program=shlex.quote(plan.program), asked=asks.script(plan), more=asks.more, whole=asks.whole, statuses=asks.statuses),
            "commands": "".join(f"{command(folder, run)}\n" for run in self.runs),
            "array.sh": ARRAY.format(tasks=tasks, runs=len(self.runs), folder=quoted, task=TASK, minutes=minutes, memory=memory or MEMORY),
            "rules.mk": self.rules(folder),
        }
        for number, part in enumerate(parts, 1):
            self.texts[f"tasks/{number}"] = "".join(f"{command(folder, run)}\n" for run in part)

    def rules(self, folder):
        results = [f"{folder}/{run.result}" for run in self.runs]
        lines = [f"{result}:\n\t@{command(folder, run)} || test -s $@\n" for result, run in zip(results, self.runs)]
        return RULES.format(results=" ".join(results)) + "".join(lines)

    def write(self, plan):
        for name in ("tasks", "said"):
            os.makedirs(plan.path(name), exist_ok=True)
        for name in os.listdir(plan.path("tasks")):
            os.remove(plan.path(os.path.join("tasks", name)))
        for name, text in self.texts.items():
            write(plan.path(name), text.encode(), executable=name in ("run", "array.sh"))


def pack(plan, asks, file, **asked):
    """One archive of all that the missing runs need, under the name of the plan's folder, and the lists as they are asked where it is
    unpacked."""
    folder = os.path.basename(os.path.abspath(plan.folder))
    lists = Lists(plan, asks, folder, **asked)
    names = {file, *plan.programs} | {name for run in lists.runs for name in (run.description, run.image)}
    archive = os.path.join(os.path.dirname(os.path.abspath(plan.folder)), f"{folder}.tar.gz")
    with whole(archive) as part, tarfile.open(part, "w:gz") as packed:
        for name in ("results", "said"):
            packed.addfile(directory(f"{folder}/{name}"))
        for name in sorted(names):
            packed.add(plan.path(name), f"{folder}/{name}")
        for name, text in lists.texts.items():
            made = tarfile.TarInfo(f"{folder}/{name}")
            made.size, made.mode = len(text.encode()), 0o755 if name in ("run", "array.sh") else 0o644
            packed.addfile(made, io.BytesIO(text.encode()))
    return archive


def directory(name):
    made = tarfile.TarInfo(name)
    made.type, made.mode = tarfile.DIRTYPE, 0o755
    return made
