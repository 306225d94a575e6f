"""Verdicts of what is set: keys of the description, bytes of the images, a second secret; and verdicts as one object. The programs are
stand-ins, of which one says what it was asked of: the description's values and the image's bytes."""
import hashlib
import json
import os
import unittest

from material import BOUND_0, CODE, CORE, SECRET, command, gadget_file, image_file, needs_program, support
from test_secrets import EXITS, HIDDEN, LOADS, SHOWN, WORD, asked_of, needs_secrets, program, traces
from wadrelwy.verdict import given
from wadrelwy.view import Fault

DATA = BOUND_0 + b"\x11"
# the simulator: `pair` is equal and its premises aren't met, `trace` is the worked trace
PAIR = "premise no\\nequal\\nretired 9 cycles 28\\n"
TEXT = "".join(support.worked_trace("Bounds check bypass"))
# what the files that are asked of have: the description's core.rob, and the byte of the secret, by its place in the image
SEEN = """grep -o '^rob = [0-9]*' $DESCRIPTION >> $0.asked
for image in $IMAGES; do od -An -tx1 -j PLACE -N 1 $image >> $0.asked; done
"""


def image():
    return image_file("given.elf", (LOADS, *EXITS), DATA)


def place(path=None):
    """Where the file of an image has the secret."""
    with open(path or image(), "rb") as file:
        return file.read().rindex(DATA) + len(BOUND_0)


def secrets(said=HIDDEN, status=0):
    """What looks for secrets: it notes what it was asked of."""
    seen = "DESCRIPTION=$1 IMAGES=$2\n" + SEEN.replace("PLACE", str(place()))
    return program(said.replace("\n", "\\n"), status, "seeing_secrets", seen)


def victim(secret=0x11):
    """The image of the worked trace, with a secret."""
    return gadget_file("bounds_check", BOUND_0 + bytes([secret]))


def simulator():
    """The simulator of that image: of `pair` it notes what it was asked of."""
    text = support.file_of("given_text", TEXT.encode())
    seen = f'[ "$1" = trace ] && {{ cat {text}; exit 0; }}\nDESCRIPTION=$2 IMAGES="$3 $4"\n' + SEEN.replace("PLACE", str(place(victim())))
    return program(PAIR, 0, "seeing_simulator", seen)


def seen(path):
    """What a stand-in noted, without its own words."""
    return [line.strip() for line in asked_of(path) if not line.startswith("/") and " --" not in line]


def contents(path):
    with open(path, "rb") as file:
        return file.read()


def sha256(path):
    return hashlib.sha256(contents(path)).hexdigest()


class Set(unittest.TestCase):
    def one(self, *words, said=HIDDEN, status=0):
        self.program = secrets(said, status)
        return command("verdict", CORE, image(), "--secret", WORD, *words, "--secrets-program", self.program)

    def test_nothing(self):
        """Where nothing is set the files themselves are asked of."""
        told = self.one()
        self.assertEqual((told.returncode, told.stderr), (0, ""))
        self.assertTrue(asked_of(self.program)[0].startswith(f"{CORE} {image()} --secret "))
        self.assertEqual(seen(self.program), ["rob = 16", "11"])

    def test_keys_and_bytes(self):
        told = self.one("--set", "core.rob=8", "--set", "stt.model=futuristic", "--set", f"0x{SECRET:x}=22")
        self.assertEqual((told.returncode, told.stderr, seen(self.program)), (0, "", ["rob = 8", "22"]))
        self.assertIn(f"\nimage         {image()} with 0x{SECRET:x} 22\n", f"\n{told.stdout}")
        self.assertIn(f"description   {CORE} with core.rob 8, stt.model futuristic, model futuristic\n", told.stdout)
        self.assertNotIn("/description.toml", told.stdout)
        self.assertEqual(sha256(image()), hashlib.sha256(support.elf([(5, CODE, b"".join(word.to_bytes(4, "little") for word in (LOADS, *EXITS)), 12),
                                                                     (6, 0x0001fff0, DATA, len(DATA))])).hexdigest())

    def test_two_images(self):
        """Bytes that are set are set in both."""
        simulating = simulator()
        told = command("verdict", CORE, victim(), victim(0x22), "--set", f"{SECRET}:1=5a", "--program", simulating, "--secrets-program", "/nowhere")
        self.assertEqual((told.returncode, told.stderr), (14, ""))
        self.assertEqual(seen(simulating), ["rob = 16", "5a", "5a"])
        self.assertIn(f"\nB             {victim(0x22)} with {SECRET}:1 5a: end exit 0 ", told.stdout)
        self.assertIn("\nmemory        equal\n", told.stdout)

    def test_refusals(self):
        for words, note in [(["core.rob"], "KEY=VALUE or SYMBOL[+OFFSET][:BYTES]=HEX is asked for"),
                            (["core.rob=8,9"], "one value is asked for"),
                            (["core.robb=8"], "has no symbol `core.robb`"),
                            (["core.robb=8"], "nor has a description such a key"),
                            (["key=00"], "has no symbol `key`"),
                            (["0x1fff8=1"], "two hexadecimal digits each"),
                            (["0x1fff8=0x11"], "two hexadecimal digits each"),
                            (["0x1fff8:2=11"], "2 bytes are asked for, and the value has 1"),
                            (["0x1fffa=11"], "the file has no byte for 0001fffa"),
                            (["core.rob=8", "core.rob=9"], "stands twice")]:
            with self.subTest(words=words):
                told = self.one(*(word for each in words for word in ("--set", each)))
                self.assertEqual((told.returncode, told.stdout, told.stderr.count("\n")), (2, "", 1))
                self.assertIn(note, told.stderr)

    def test_a_refusal_names_the_files_that_were_given(self):
        refusing = program("", 4, "refusing", "echo description K5 cache.line 128 >&2")
        told = command("verdict", CORE, image(), "--secret", WORD, "--set", "core.rob=8", "--set", f"0x{SECRET:x}=22", "--secrets-program", refusing)
        self.assertEqual((told.returncode, told.stdout), (2, ""))
        self.assertIn(f": {CORE} with core.rob 8 {image()} with 0x{SECRET:x} 22 --secret ", told.stderr)
        self.assertIn("status 4, description K5 cache.line 128: cache.line is 4 to 64, and 128 isn't (", told.stderr)


class Written(unittest.TestCase):
    """A file that is written while the verdict is made."""

    def test_it_is_refused(self):
        """Whichever of them it is: parts of the verdict may be of the old file, and parts of the new."""
        for name in ("description", "image", "program"):
            described, imaged = (support.file_of(f"written.{ending}", contents(path)) for ending, path in (("toml", CORE), ("elf", image())))
            place = {"description": described, "image": imaged, "program": "$0"}[name]
            asked = program(HIDDEN.replace("\n", "\\n"), 0, "writing", f"printf '#' >> {place}")
            told = command("verdict", described, imaged, "--secret", WORD, "--secrets-program", asked)
            with self.subTest(name=name):
                self.assertEqual((told.returncode, told.stdout, told.stderr.count("\n")), (2, "", 1))
                self.assertIn(f"{asked if name == 'program' else place} was written while the verdict was made: ask again", told.stderr)


class Value(unittest.TestCase):
    def two(self, value, *words):
        self.simulator, self.secrets = simulator(), secrets(SHOWN, 1)
        return command("verdict", CORE, victim(), "--secret", WORD, "--value", value, *words, "--program", self.simulator, "--secrets-program",
                       self.secrets)

    def test_it_is_compared(self):
        told = self.two("5a")
        self.assertEqual((told.returncode, told.stderr), (1, ""))
        self.assertEqual(seen(self.simulator), ["rob = 16", "11", "5a"])
        self.assertIn(f"\nB             {victim()} with {WORD} 5a: end exit 0 ", told.stdout)
        self.assertRegex(told.stdout, r"\nmemory        1 byte differs: 0001fff8\b")
        self.assertRegex(told.stdout, r"\nverdict       exposed: ")

    def test_with_what_is_set(self):
        self.two("5a", "--set", f"0x{SECRET:x}=22", "--set", "core.rob=8")
        self.assertEqual(seen(self.simulator), ["rob = 8", "22", "5a"])

    def test_refusals(self):
        for value, words, note in [("11", [], "has these very bytes there"), ("1122", [], "1 byte is asked for, and it has 2"),
                                   ("zz", [], "two hexadecimal digits each"), ("22", ["--all"], "--all is of one image and its secret"),
                                   ("22", ["--public-stream", "1"], "--public-stream is of one image and its secret")]:
            with self.subTest(value=value, words=words):
                told = self.two(value, *words)
                self.assertEqual((told.returncode, told.stdout, told.stderr.count("\n")), (2, "", 1))
                self.assertIn(note, told.stderr)
        told = command("verdict", CORE, image(), image(), "--value", "22")
        self.assertEqual((told.returncode, told.stdout), (2, ""))
        self.assertIn("--value is of one image and its secret", told.stderr)

    def test_several_ranges(self):
        """The bytes of several words, one range behind the other."""
        with_other = given.of_words(CORE, [image()], [], [f"0x{SECRET:x}:1", f"0x{SECRET - 2:x}:2"], "aabbcc", support.FOLDER.name)
        with open(with_other.images[1].copy, "rb") as file:
            self.assertEqual(file.read()[place() - 2:place() + 1].hex(), "bbccaa")
        with self.assertRaises(Fault):
            given.of_words(CORE, [image()], [], [f"0x{SECRET:x}:1", f"0x{SECRET - 2:x}:2"], "aabb", support.FOLDER.name)


class Objects(unittest.TestCase):
    """All that the lines say, as an object."""

    def lines(self, *words):
        """The object and the lines of these words; the statuses are one."""
        told, plain = (command("verdict", *words, *more) for more in (["--json"], []))
        self.assertEqual((told.stderr, told.returncode), ("", plain.returncode))
        found = json.loads(told.stdout)
        self.assertEqual((found["text"], found["status"]), (plain.stdout.splitlines(), plain.returncode))
        self.assertIn(f"verdict       {found['verdict']}", plain.stdout)
        return found

    def test_one_image(self):
        asked = secrets()
        found = self.lines(CORE, image(), "--secret", WORD, "--secrets-program", asked)
        self.assertEqual((found["verdict"], found["status"], found["goes_on"], found["cycles"]), ("certified", 0, False, 1000000))
        self.assertEqual(found["description"], {"file": CORE, "sha256": sha256(CORE), "model": "spectre", "defence": "stt"})
        self.assertEqual(found["image"], {"file": image(), "sha256": sha256(image())})
        self.assertEqual(found["programs"][0], {"file": asked, "sha256": sha256(asked)})
        self.assertEqual([(each["first"], each["last"], each["bytes"]) for each in found["secret"]], [("0001fff8", "0001fff8", 1)])
        self.assertEqual((found["path"], found["run"]), ({"size": 1, "loaded": 1, "overwritten": 0}, {"end": "exit 0", "retired": 5, "cycles": 21}))
        self.assertEqual((found["shown"], found["fate"], found["all"], found["published"], found["public_streams"]), (None,) * 4 + ([],))

    def test_what_is_set(self):
        found = self.lines(CORE, image(), "--secret", WORD, "--set", "core.rob=8", "--set", f"0x{SECRET:x}=22", "--secrets-program", secrets())
        self.assertEqual((found["description"]["set"], found["image"]["set"]), ({"core.rob": 8}, {f"0x{SECRET:x}": "22"}))
        other = image_file("given_22.elf", (LOADS, *EXITS), BOUND_0 + b"\x22")
        self.assertEqual((found["image"]["sha256"], found["image"]["asked_sha256"]), (sha256(image()), sha256(other)))

    def test_what_shows(self):
        secrets_of, simulating = program(SHOWN.replace("\n", "\\n"), 1), traces()
        found = self.lines(CORE, image(), "--secret", WORD, "--secrets-program", secrets_of, "--program", simulating)
        self.assertEqual((found["verdict"], found["run"]), ("exposed", None))
        self.assertEqual({key: found["shown"][key] for key in ("kind", "what", "cycle", "entry", "address", "line")},
                         {"kind": "access", "what": "its address", "cycle": 15, "entry": 6, "address": "00010018", "line": None})
        self.assertEqual(found["fate"], {"kind": "path", "told": "on the path: the instruction retires"})
        self.assertEqual([each["file"] for each in found["programs"]], [secrets_of, simulating])

    def test_two_images(self):
        simulating = simulator()
        found = self.lines(CORE, victim(), "--secret", WORD, "--value", "5a", "--program", simulating, "--secrets-program", secrets(SHOWN, 1))
        self.assertEqual((found["verdict"], found["status"], found["first_unequal_cycle"]), ("exposed", 1, None))
        self.assertEqual((found["A"]["sha256"], found["B"]["set"], found["B"]["end"]), (sha256(victim()), {WORD: "5a"}, "exit 0"))
        self.assertEqual([(each["first"], each["bytes"]) for each in found["memory"]], [("0001fff8", 1)])
        self.assertEqual((found["code"], found["premises"]), ({"one_entry": True, "differ": []}, {"met": False, "promised": False}))
        self.assertEqual((found["path"]["end"], found["path"]["differ"]), ("exit 0", []))
        self.assertEqual((found["one_run"]["asked"], found["one_run"]["shown"]["entry"]), (True, 6))

    def test_why_none_was_asked(self):
        """A refusal of what looks for secrets names the files that were given, and not their copies."""
        refusing = program("", 2, "refusing", "echo secret 0 outside >&2")
        told = command("verdict", CORE, victim(), victim(0x22), "--set", "core.rob=16", "--json", "--program", simulator(), "--secrets-program", refusing)
        found = json.loads(told.stdout)
        self.assertEqual((told.returncode, found["one_run"]["asked"]), (14, False))
        self.assertTrue(found["one_run"]["why"].startswith(f"{CORE} with core.rob 16 {victim()} --secret "), found["one_run"]["why"])

    def test_a_refusal_is_no_object(self):
        told = command("verdict", CORE, "/nowhere", "--secret", WORD, "--json", "--secrets-program", secrets())
        self.assertEqual((told.returncode, told.stdout, told.stderr.count("\n")), (2, "", 1))


@needs_program
class WithPrograms(unittest.TestCase):
    """What the built programs say of bounds_check under a core without protection, whose secret the gadget shows."""

    IMAGE, OFF = support.example("bounds_check.elf"), support.example("core_unprotected.toml")

    def test_a_second_secret(self):
        told = command("verdict", self.OFF, self.IMAGE, "--secret", f"0x{SECRET:x}:1", "--value", "22")
        self.assertEqual((told.returncode, told.stderr), (1, ""))
        self.assertIn("\nverdict       leaks: ", told.stdout)
        told = command("verdict", self.OFF, self.IMAGE, "--secret", f"0x{SECRET:x}:1", "--value", "22", "--set", "stt.model=spectre")
        self.assertEqual((told.returncode, told.stderr), (0, ""))
        self.assertIn("\nverdict       hidden: ", told.stdout)

    @needs_secrets
    def test_under_another_model(self):
        words = self.OFF, self.IMAGE, "--secret", f"0x{SECRET:x}:1", "--json"
        found = [json.loads(command("verdict", *words, *more).stdout) for more in ([], ["--set", "stt.model=spectre"])]
        self.assertEqual([(each["verdict"], each["description"]["model"]) for each in found], [("exposed", "off"), ("vacuous", "spectre")])


if __name__ == "__main__":
    unittest.main()
