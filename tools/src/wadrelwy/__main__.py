"""The door: reads the first word, hands the others to that command, and tells what went wrong in one line on standard error."""
import argparse
import difflib
import importlib
import os
import sys
import traceback
from typing import NoReturn, Optional, Sequence

from wadrelwy import Fault, Unwritten, built_programs, statuses
from wadrelwy.view import faster

# the commands by what one wants, each in a line
GROUPS = {
    "Run a program": {
        "run": "on a core of a description: what it puts out, how it ends, and in how many cycles",
        "trace": "the same, with all that happens in each cycle",
        "isa": "by the instruction set alone, which is a hundred times as fast",
        "bench": "`run` on an image that is made of a seed",
        "pair": "two images: are their traces equal, and proved to be",
        "secrets": "one image: does something show that may depend on secret bytes",
        "stats": "on a core: how often what happened, by name and over time, without its trace",
    },
    "Does the trace tell the secret?": {
        "verdict": "of two images, or of one and its secret: may the traces differ, and do they",
        "certify": "a table of programs by compilers, levels and defences: certified, or what shows first",
        "draw": "holds each answer of such a table against the machine, value by value",
        "defences": "what attacks show under each defence, and what each defence costs",
    },
    "Many runs": {
        "sweep": "programs under descriptions under settings, as many runs at once as there are processors, with tables and plots",
        "sample": "cycles of a long run from short windows of it, which no theorem ties to the run",
    },
    "Read what is promised": {
        "book": "the definitions and contracts as linked pages: from a promise to each word of it by a click",
    },
    "Look at a run": {
        "view": "a trace made readable: stats, stack, annotate, why, list, diff, konata, o3, svg, html, index",
        "path": "the instruction set's run of an image: a log of its steps, its report, the bytes that it loads",
        "continue": "an image that goes on where the instruction set's run stands after some steps, or at a call",
    },
}
# the module of a command whose name no module may have
MODULES = {"continue": "go_on"}
COMMANDS = {name: text for group in GROUPS.values() for name, text in group.items()}
# those that go over long traces, and those that go on where they stopped
LONG = ("view", "verdict", "certify", "draw")
KEEPS = ("certify", "sweep", "sample")
# shows where an error of the tools itself comes from
TRACEBACK = "WADRELWY_TRACEBACK"


class Parser(argparse.ArgumentParser):
    """A parser whose refusal is one line."""

    def error(self, message: str) -> NoReturn:
        names = [action.metavar for action in self._actions if not action.option_strings and isinstance(action.metavar, str)]
        order = f" of `{' '.join([self.prog, *names])}`" if message.startswith("the following arguments are required") and len(names) > 1 else ""
        raise Fault(f"{message}{order}; `{self.prog} --help` tells the words")


def listed() -> str:
    """All commands, with a line each."""
    return "\n\n".join("\n".join([f"{group}", *(f"  {name:10}{text}" for name, text in commands.items())])
                       for group, commands in GROUPS.items())


def parser_of(name: str) -> argparse.ArgumentParser:
    """The words of a command, of which its module's docstring tells more."""
    module = importlib.import_module(f"wadrelwy.commands.{MODULES.get(name, name)}")
    parser = Parser(prog=f"wadrelwy {name}", description=module.__doc__, formatter_class=argparse.RawDescriptionHelpFormatter)
    module.words(parser)
    parser.set_defaults(main=module.main)
    return parser


def top() -> argparse.ArgumentParser:
    parser = Parser(prog="wadrelwy", usage="wadrelwy [-h] COMMAND ..", description="Asks the machine and its traces.",
                    epilog=f"{listed()}\n\n`wadrelwy COMMAND --help` tells the words of each; docs/using.md has examples.\n"
                    "`wadrelwy --version` tells what to cite: the tools and the built programs that are found.",
                    formatter_class=argparse.RawDescriptionHelpFormatter)
    parser.add_argument("command", metavar="COMMAND", choices=COMMANDS, help=argparse.SUPPRESS)
    return parser


def refuse_command(word: str) -> NoReturn:
    """Refuses a word that is no command, with the commands that it may be meant for."""
    from wadrelwy.commands.view import SUBCOMMANDS
    near = [f"view {word}"] if word in SUBCOMMANDS else difflib.get_close_matches(word, COMMANDS, n=1)
    raise Fault(f"no command {word[:40]}; {f'`wadrelwy {near[0]}` is the nearest, and ' if near else ''}`wadrelwy --help` lists all")


def versions() -> str:
    """What to cite: the tools by their commit or version, and each built program that is found by its sha256."""
    from wadrelwy.sweep import kept
    found = [(name, built_programs.program(name)) for name in built_programs.PROGRAMS]
    programs = [f"{name} {path} sha256 {kept.sha256(kept.content(path))}" if path else f"{name} isn't there" for name, path in found]
    return "\n".join([f"wadrelwy {kept.tools()}", *programs])


def done(words: Sequence[str]) -> int:
    """Does what the words ask for, and answers the status."""
    if not words:
        raise Fault("which command? `wadrelwy --help` lists them")
    if words[0] == "help":
        words = [*words[1:2], "--help"]
    if words[0] == "--version":
        print(versions())
        return statuses.HOLDS
    if not words[0].startswith("-") and words[0] not in COMMANDS:
        refuse_command(words[0])
    name = top().parse_args(words[:1]).command
    if name in LONG and not faster.by_compiled(words[1:]):
        faster.advise(words[1:])
    asked = parser_of(name).parse_args(words[1:])
    return asked.main(asked)


def name_of(words: Sequence[str]) -> str:
    """The command's name, as refusals have it."""
    return f"wadrelwy {words[0]}" if words and words[0] in COMMANDS else "wadrelwy"


def told(name: str, fault: Fault) -> int:
    """Tells a refusal in one line, and answers its status."""
    print(f"{name}: {' '.join(str(fault).split())}", file=sys.stderr)
    return fault.status


def answered(words: Sequence[str]) -> int:
    """The status of these words, whatever they are."""
    name = name_of(words)
    try:
        status = done(words)
        sys.stdout.flush()
        return status
    except SystemExit as ended:
        sys.stdout.flush()
        return int(ended.code or 0)
    except Fault as fault:
        return told(name, fault)
    except BrokenPipeError:
        raise
    except OSError as error:
        if error.filename:
            return told(name, Fault(f"{error.filename}: {error.strerror}"))
        return told(name, Unwritten(f"standard output: {error.strerror}"))


def main(words: Optional[Sequence[str]] = None) -> int:
    """The command: its status. An error of the tools themselves is told in one line, too, and is a refusal."""
    words = sys.argv[1:] if words is None else words
    try:
        return answered(words)
    except KeyboardInterrupt:
        keeps = words[0] in KEEPS or words[0] == "draw" and any(word.startswith("--record") for word in words)
        goes_on = "; the same command goes on where it stopped" if keeps else ""
        print(f"{name_of(words)}: interrupted{goes_on}", file=sys.stderr)
        return statuses.INTERRUPTED
    except BrokenPipeError:
        os.dup2(os.open(os.devnull, os.O_WRONLY), sys.stdout.fileno())
        return statuses.UNWRITTEN
    except Exception as error:  # whatever goes wrong is no answer
        if os.environ.get(TRACEBACK):
            traceback.print_exc()
        place = traceback.extract_tb(error.__traceback__)[-1]
        return told(name_of(words), Fault(f"an error of the tool itself, {type(error).__name__}: {error}, in "
                                          f"{os.path.basename(place.filename)}, line {place.lineno}; please report it, with what "
                                          f"{TRACEBACK}=1 shows"))


if __name__ == "__main__":
    sys.exit(main())
