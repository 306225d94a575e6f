"""The runs of a plan, here, as many at once as there are processors. Before the first one all is checked."""
import subprocess
import sys
import time
from concurrent.futures import ThreadPoolExecutor, as_completed

from wadrelwy import built_programs
from wadrelwy.machine import notes
from wadrelwy.view import Fault
from wadrelwy.view.trace import END, read_end

from . import kept, settings
from .results import SECONDS, Store, counts_of, line_of

RAN = (0, 1, 3)
DESCRIPTION, IMAGE = 4, 5
# so many steps of the instruction set, of about a second, tell what a run costs
MOST_STEPS = 100000000
# so many cycles of a run tell whether two programs are of one machine
COMPARED = 10000


SCRIPT = """said=$({{ "$program" run "$description" "$image" --cycles {cycles}; echo "status $?"; }} | tail -n 2)
  status=${{said##*status }}
  said=${{said%%
*}}"""


class Sweep:
    """What is run, and what of it is kept; a table of other runs says otherwise. For lists of commands `script` says it in POSIX's shell, which
    leaves the status in `status` and what is kept in `said`, by a pattern of which a run that is over is told (`whole`); `more` is what a
    command has behind the image."""
    more = ""
    whole = '"0:end exit "*" retired "*" cycles "* | "1:end trap "*" retired "*" cycles "* | "3:end budget retired "*" cycles "*'
    statuses = "The status is that of the run: 0 it exited, 1 it trapped, 3 its budget ended it, each with a result; else there is none."

    def script(self, plan):
        return SCRIPT.format(cycles=plan.cycles)

    def words(self, plan, run):
        return ["run", plan.path(run.description), plan.path(run.image)]

    def kept(self, said):
        """The last line, which tells how the run ended, and where the run was counted all that the program told, behind the seconds; none
        where it isn't whole."""
        if said.startswith(SECONDS):
            return said if counts_of(said) else None
        last = said.splitlines()[-1] if said else ""
        return last if END.fullmatch(last) else None

    def same(self, one, other):
        """Whether two results can be of one run, which takes as long as it takes, and may be counted or not."""
        if one.startswith(SECONDS) and other.startswith(SECONDS):
            return one.splitlines()[1:] == other.splitlines()[1:]
        return one.splitlines()[-1] == other.splitlines()[-1]


SWEEP = Sweep()


def said_of(words):
    """What a command writes, its note, and its status."""
    ran = subprocess.run(words, capture_output=True, text=True, errors="replace", check=False)
    return ran.stdout, built_programs.note_of(ran.stderr), ran.returncode


def refusal(status, note):
    """Why a run is refused, as a table tells it: `refused K6`."""
    words = note.split()
    return "refused " + (words[1] if words[:1] in (["description"], ["image"]) and len(words) > 1 else note or f"status {status}")


def ram_of(plan, description):
    """The memory of a description; where there is none it is that of `isa`."""
    if not description:
        return None
    values = settings.parsed(kept.text(plan.path(description)), description)
    return tuple(values.get(f"ram.{key}") for key in ("base", "size", "misaligned"))


class Checked:
    """A plan of which each description and each image is shown to the program, for one cycle, before the first run: a description that is
    refused, and an image that its memory doesn't hold, are told, and make no runs. Of what is run it is asked, on the instruction set, what
    it costs and how it ends, where `steps` is such a command."""

    def __init__(self, plan, jobs, asks=SWEEP, steps=True, screen=sys.stderr):
        self.plan, self.asks, self.rams, self.notes, self.screen = plan, asks, {}, {}, screen
        self.rams = {name: ram_of(plan, name) for name in {run.description for run in plan.runs}}
        with ThreadPoolExecutor(jobs) as pool:
            self.look(pool, {run.description: run for run in reversed(plan.runs) if run.description}, DESCRIPTION)
            there = [run for run in plan.runs if run.description not in self.notes]
            self.look(pool, {self.key(run): run for run in reversed(there)}, IMAGE)
            there = {self.key(run): run for run in there if self.key(run) not in self.notes}
            self.counts = dict(zip(there, pool.map(self.steps, there.values()))) if steps else {}
        if not there and plan.runs:
            raise Fault(f"{plan.runs[0].name}: {notes.told(next(iter(self.notes.values())), {})} (docs/using.md, \"Refusals\")")

    def key(self, run):
        return run.image, *run.words, run.unit, self.rams[run.description]

    def look(self, pool, runs, refusing):
        """Shows these runs to the program; the notes of those that are refused stand under their keys."""
        what, begun = {DESCRIPTION: "descriptions", IMAGE: "images"}[refusing], time.monotonic()
        notes = pool.map(lambda run: self.refused(run, refusing), runs.values())
        for done, (key, note) in enumerate(zip(runs, notes), 1):
            if note is not None:
                self.notes[key] = note
            tell(self.screen, f"{what} looked at", done, len(runs), time.monotonic() - begun)
        clear(self.screen)

    def refused(self, run, refusing):
        words = [self.plan.path(self.plan.program), *self.asks.words(self.plan, run), f"--{run.unit}", "1"]
        said, note, status = said_of(words)
        if run.of_path and note == "words":
            raise Fault(f"{self.plan.program} doesn't know {' '.join(words[1:])}: it is an older one, which asks of cores alone")
        if status in RAN and self.asks.kept(said) is not None or refusing == DESCRIPTION and status in (IMAGE, 2) and note:
            return None
        if status == refusing or refusing == IMAGE and status == 2 and note:
            return note
        raise Fault(f"{run.name}: status {status}, {notes.told(note, {}) or said[-60:].strip()} (docs/using.md, \"Refusals\")")

    def steps(self, run):
        """How many instructions a program takes and how it ends, on the instruction set."""
        words = [self.plan.path(self.plan.program), "isa", self.plan.path(run.image), "--desc", self.plan.path(run.description),
                 "--steps", str(MOST_STEPS)]
        said, _, status = said_of(words)
        found = END.fullmatch((said.splitlines() or [""])[-1] + " cycles 0")
        return read_end(found[0]) if status in RAN and found else None

    def runs(self):
        """The plan's runs, each with why it is refused, if it is, what it costs, and how it ends."""
        for run in self.plan.runs:
            note = self.notes.get(run.description) or self.notes.get(self.key(run))
            if note is not None:
                yield run._replace(refused=refusal(2, note))
                continue
            end = self.counts.get(self.key(run))
            known = end is not None and end.how != "budget"
            yield run._replace(cost=end.retired if end else 0, end=f"{end.how} retired {end.retired}" if known else None)

    def checked(self):
        return self.plan._replace(runs=list(self.runs()))


def tell(screen, what, done, of, seconds):
    """How far it is, where that is a terminal."""
    if screen.isatty():
        screen.write(f"\r{done} of {of} {what}, about {seconds / done * (of - done):.0f} s left   ")
        screen.flush()


def clear(screen):
    if screen.isatty():
        screen.write(f"\r{'':60}\r")
        screen.flush()


class Runner:
    """Runs what has no result yet. `screen` is where progress is told, if it is a terminal."""

    def __init__(self, plan, jobs, asks=SWEEP, screen=sys.stderr):
        self.plan, self.jobs, self.asks, self.screen = plan, jobs, asks, screen
        self.children, self.stopped = set(), False

    def all(self):
        """Answers how many runs were done now: those that cost most first."""
        store = Store(self.plan, self.asks)
        # runs of one name are one, such as those of two descriptions of one text
        left = {run.id: run for run in self.plan.runs if not run.refused and run.id not in store.found}
        left = sorted(left.values(), key=lambda run: -run.cost)
        for run in left:
            self.plan.check(run)
        begun = time.monotonic()
        with ThreadPoolExecutor(self.jobs) as pool:
            waiting = [pool.submit(self.one, run) for run in left]
            try:
                for done, ended in enumerate(as_completed(waiting), 1):
                    ended.result()
                    tell(self.screen, "runs", done, len(left), time.monotonic() - begun)
            except BaseException:
                self.stop(waiting)
                raise
            finally:
                clear(self.screen)
        return len(left)

    def command(self, run):
        return [self.plan.path(self.plan.program), *self.asks.words(self.plan, run), f"--{run.unit}", str(self.plan.cycles)]

    def kept(self, said, _):
        """What is kept of what a run of so many seconds said."""
        return self.asks.kept(said)

    def one(self, run):
        """Makes a run, of what was planned and of nothing else, and keeps its result."""
        if self.stopped:
            return
        self.plan.check(run)
        begun = time.monotonic()
        child = subprocess.Popen(self.command(run), stdout=subprocess.PIPE, stderr=subprocess.PIPE, text=True, errors="replace", start_new_session=True)
        self.children.add(child)
        if self.stopped:
            child.terminate()
        said, note = child.communicate()
        self.children.discard(child)
        if self.stopped:
            return
        found = self.kept(said, time.monotonic() - begun)
        if child.returncode not in RAN or found is None:
            told = notes.told(built_programs.note_of(note), {}) or said[-60:].strip()
            raise Fault(f"{run.name}: status {child.returncode}, {told} (docs/using.md, \"Refusals\")")
        self.plan.check(run)
        kept.write(self.plan.path(run.result), line_of(run, found).encode())

    def stop(self, waiting):
        """Ends what goes on; what waits doesn't begin."""
        self.stopped = True
        for job in waiting:
            job.cancel()
        for child in list(self.children):
            child.terminate()


class Counter(Runner):
    """Has the program that counts make the runs of cores, which tells the same end."""

    def command(self, run):
        return [self.plan.path(self.plan.counting), *map(self.plan.path, run.files), "--cycles", str(self.plan.cycles)]

    def kept(self, said, seconds):
        return self.asks.kept(f"{SECONDS} {seconds:.3f}\n{said}")


def of_one_machine(plan, jobs):
    """Refuses a program that counts another machine than the simulator's: under each description they tell one end of some cycles."""
    runs = {run.description: run for run in reversed(plan.runs) if not run.refused}.values()
    budget = ["--cycles", str(min(COMPARED, plan.cycles))]

    def ends(run):
        files = list(map(plan.path, run.files))
        said = [said_of(words)[0] for words in ([plan.path(plan.program), "run", *files, *budget], [plan.path(plan.counting), *files, *budget])]
        return [text.splitlines()[-1:] for text in said]

    with ThreadPoolExecutor(jobs) as pool:
        for run, (simulated, counted) in zip(runs, pool.map(ends, runs)):
            if simulated != counted:
                raise Fault(f"{run.name}: {plan.counting} tells another run than {plan.program}: are they of one build? Name one by --stats-program")
