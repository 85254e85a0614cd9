"""The command line: what each command prints, its status, and the file's bytes after it."""
import contextlib
import io
import os
import subprocess
import sys
import unittest
from pathlib import Path

import chronicle_map
from chronicle_map import Number, Settings, Store, empty_image
from chronicle_map.__main__ import main
from chronicle_map.arguments import COMMANDS, PROGRAM, SIZES
from tests.samples import REPOSITORY, Folder, listed, worked

PAIRS = (REPOSITORY / "examples" / "pairs.store").read_bytes()
HEAD = "segment tier slot chunk chunks key value\n"

# Words behind the file's name for each command, with which it would be done on pairs.store.
WORDS = {
    "list": (),
    "check": (),
    "get": ("0102",),
    "set": ("0102", "00"),
    "remove": ("0102",),
    "delay": ("1", "2"),
    "set-delay": ("1", "2", "3"),
    "delays": (),
    "grow": (),
    "draw": (),
}


def run(*words):
    """Runs a command in this process: its status, and what it prints on standard output and on standard error."""
    out, err = io.TextIOWrapper(io.BytesIO(), encoding="utf-8"), io.StringIO()
    with contextlib.redirect_stdout(out), contextlib.redirect_stderr(err):
        status = main(words)
    return status, out.buffer.getvalue().decode(), err.getvalue()


def process(*words, stdout=subprocess.PIPE, **environment):
    """Runs a command in a process of its own."""
    env = {**os.environ, "PYTHONPATH": os.pathsep.join(sys.path), **environment}
    line = [sys.executable, "-m", "chronicle_map", *words]
    return subprocess.run(line, env=env, stdout=stdout, stderr=subprocess.PIPE, check=False)


def changed(content, **places):
    """A file with other bytes, each by its offset in the image: at108=b"..", or at_69=b".." for that in the block."""
    content = bytearray(content)
    for name, new in places.items():
        at = 71 + int(name[2:].replace("_", "-"))
        content[at:at + len(new)] = new
    return bytes(content)


class Pairs(Folder):
    """A test with a copy of examples/pairs.store."""

    def setUp(self):
        super().setUp()
        self.file = self.written(PAIRS)

    def expect(self, words, text, status=0, after=PAIRS):
        """Runs `COMMAND FILE ..`, where FILE is left out of the words."""
        command, *rest = words.split()
        self.assertEqual(run(command, self.file, *rest), (status, text, ""), words)
        self.assertEqual(self.content(), after, words)


class Reading(Pairs):
    def test_list(self):
        totals = "entries 2 chunks 2 tiers 1 free 1\n"
        self.expect("list", HEAD + "0 1 1 0 1 2 4\n0 1 2 1 1 2 4\n" + totals)
        head = HEAD.rstrip() + " key-bytes record-bytes\n"
        rows = "0 1 1 0 1 2 4 0102 10000000\n0 1 2 1 1 2 4 0201 f0ffffff\n"
        self.expect("list --bytes", head + rows + totals)

    def test_list_of_an_empty_record(self):
        with Store.open(self.file, writable=True) as store:
            store[b"\3\1"] = b""
        status, text, _ = run("list", self.file, "--bytes")
        self.assertEqual((status, text.splitlines()[3]), (0, "0 1 3 2 1 2 0 0301 -"))

    def test_check(self):
        self.expect("check", "entries 2 chunks 2 tiers 1 free 1\n")

    def test_get(self):
        self.expect("get 0102", "10000000\n")
        self.expect("get 0201", "f0ffffff\n")
        self.expect("get 0103", "absent\n", 1)

    def test_get_takes_both_cases_and_prints_one(self):
        with Store.open(self.file, writable=True) as store:
            store[b"\xab"] = b"\xcd\xef"
        self.assertEqual(run("get", self.file, "aB"), (0, "cdef\n", ""))

    def test_get_an_empty_record(self):
        with Store.open(self.file, writable=True) as store:
            store[b"\1\2"] = b""
        self.assertEqual(run("get", self.file, "0102"), (0, "\n", ""))

    def test_delay(self):
        self.expect("delay 1 2", "16\n")
        self.expect("delay 2 1", "-16\n")
        self.expect("delay 1 3", "absent\n", 1)

    def test_delays(self):
        with Store.open(self.file, writable=True) as store:
            del store[b"\2\1"]
            store.set_delay(31, 9, 7)
        self.assertEqual(run("delays", self.file), (0, "1 2 16\n2 1 -16\n9 31 -7\n31 9 7\n", ""))

    def test_delays_where_none_is(self):
        with Store.open(self.file, writable=True) as store:
            store.clear()
        self.assertEqual(run("delays", self.file), (0, "", ""))

    def test_only_reads(self):
        os.chmod(self.file, 0o444)
        before = os.stat(self.file)
        for command in ("list", "check", "get", "delay", "delays", "draw"):
            self.assertEqual(run(command, self.file, *WORDS[command])[0], 0, command)
        after = os.stat(self.file)
        self.assertEqual((before.st_mtime_ns, before.st_mode), (after.st_mtime_ns, after.st_mode))


class Editing(Pairs):
    """Tier 1 has its slots at 96, its free list at 224, its chunks at 232, its counters in the header, at 72 and 76."""

    def test_set_a_new_key(self):
        after = changed(PAIRS, at72=b"\3\0\0\0\3", at108=b"\5", at224=b"\7", at248=b"\2\3\1\4\xaa\xbb\xcc\xdd")
        self.expect("set 0301 AAbbCCdd", "", after=after)

    def test_set_replaces_on_the_spot(self):
        self.expect("set 0102 20000000", "", after=changed(PAIRS, at236=b"\x20"))

    def test_set_an_empty_record(self):
        self.assertEqual(run("set", self.file, "0102", ""), (0, "", ""))
        self.assertEqual(self.content(), changed(PAIRS, at235=b"\0"))

    def test_set_tight(self):
        removed = changed(PAIRS, at72=b"\1\0\0\0\0", at100=b"\3\0\0\0\0", at224=b"\2")
        self.expect("remove 0102", "", after=removed)
        self.expect("set 0201 01000000", "", after=changed(removed, at244=b"\1\0\0\0"))
        tight = changed(self.content(), at76=b"\1", at100=b"\1", at224=b"\1", at232=b"\2\2\1\4\2\0\0\0")
        self.expect("set 0201 02000000 --tight", "", after=tight)

    def test_remove(self):
        self.expect("remove 0103", "absent\n", 1)
        self.expect("remove 0102", "", after=changed(PAIRS, at72=b"\1\0\0\0\0", at100=b"\3\0\0\0\0", at224=b"\2"))
        self.expect("remove 0102", "absent\n", 1, after=self.content())

    def test_set_delay(self):
        after = changed(PAIRS, at72=b"\3\0\0\0\3", at108=b"\5", at224=b"\7", at248=b"\2\3\4\4\x19\0\0\0")
        self.expect("set-delay 4 3 -25", "", after=after)
        self.expect("delay 3 4", "25\n", after=after)

    def test_grow(self):
        """The file is made longer by a bulk of 200 bytes, in which tier 3 has tier 2 as its next, at 560."""
        after = changed(PAIRS + bytes(200), at8=b"\2", at11=b"\3", at25=b"\xb8\2", at560=b"\2")
        self.expect("grow", "", after=after)
        self.expect("check", "entries 2 chunks 2 tiers 1 free 2\n", after=after)


class Creating(Folder):
    def test_defaults(self):
        self.assertEqual(run("create", self.path()), (0, "", ""))
        self.assertEqual(self.content(), Settings().block() + empty_image(Settings()))

    def test_options(self):
        words = "--segments=4 --slots 8 --chunks 21 --chunk-size=7 --most-chunks 9 --bulk-tiers 3 --bulks 2 --room=1"
        settings = Settings(segments=4, slots=8, chunks=21, chunk_size=7, most_chunks=9, bulk_tiers=3)
        self.assertEqual(run("create", self.path(), *words.split()), (0, "", ""))
        self.assertEqual(self.content(), settings.block() + empty_image(settings, 2, 1))

    def test_every_field_has_an_option(self):
        values = [64, 2, 40, 8, 8, 20, 9, 70, 5, 3, 21, 7, 301, 11, 3, 930, 9]
        words = [f"--{name}={value}" for name, value in zip(SIZES, values)]
        self.assertEqual((len(words), list(SIZES)[17:]), (17, ["bulks", "room"]))
        self.assertEqual(run("create", self.path(), *words), (0, "", ""))
        self.assertEqual(Settings.read(self.content()[:71]), Settings(*values))

    def test_a_file_that_is_there(self):
        file = self.written(b"something else")
        self.assertEqual(run("create", file), (2, "", f"chronicle_map: {file}: File exists\n"))
        self.assertEqual(self.content(), b"something else")

    def test_refused(self):
        cases = ((3, "--segments 3"), (3, f"--chunks {2**40}"), (4, "--bulks 1024"), (4, f"--room {10**20}"))
        for number, words in cases:
            self.assertEqual(run("create", self.path(), *words.split()), (1, f"refused {number}\n", ""), words)
        self.assertEqual(os.listdir(self.folder), [])


class Refusals(Pairs):
    def test_numbers_of_the_words(self):
        long = "00" * 1025
        cases = (
            (8, f"get {long}"), (8, f"remove {long}"), (8, f"set {long} 00"), (9, "set 0301 " + "00" * 29),
            (11, "delay 0 1"), (11, "delay 1 33"), (11, "delay 7 7"), (11, "delay -1 2"), (11, f"delay 1 {2**32 + 2}"),
            (11, "set-delay 32 33 5"), (11, f"set-delay 0 1 {-2**31}"), (12, f"set-delay 1 2 {-2**31}"),
            (12, f"set-delay 1 2 {2**31}"), (12, f"set-delay 1 2 {2**64 + 5}"),
        )
        for number, words in cases:
            self.expect(words, f"refused {number}\n", 1)

    def test_an_empty_key(self):
        for words in (("get", self.file, ""), ("remove", self.file, ""), ("set", self.file, "", "00")):
            self.assertEqual(run(*words), (1, "refused 8\n", ""))
        self.assertEqual(self.content(), PAIRS)

    def test_full(self):
        store, image = worked(6)
        full = self.written(store.block + image, "full.store")
        self.assertEqual(run("set", full, "0601", "00000000"), (1, "refused 10\n", ""))
        self.assertEqual(run("set-delay", full, "6", "7", "1"), (1, "refused 10\n", ""))
        self.assertEqual(self.content("full.store"), store.block + image)

    def test_a_record_that_is_no_delay(self):
        with Store.open(self.file, writable=True) as store:
            store[b"\1\2"] = b"\1\2\3"
        after = self.content()
        self.expect("delay 2 1", "refused 12\n", 1, after=after)
        self.expect("delays", "refused 12\n", 1, after=after)

    def test_too_many_tiers(self):
        sizes = "--segments 256 --slots 4 --chunks 1 --bulk-tiers 64 --bulks 12"
        self.assertEqual(run("create", self.path("most.store"), *sizes.split()), (0, "", ""))
        before = self.content("most.store")
        self.assertEqual(run("grow", self.path("most.store")), (1, "refused 13\n", ""))
        self.assertEqual(self.content("most.store"), before)

    def test_every_command_on_damaged_files(self):
        damaged = {
            2: changed(PAIRS, at_69=b"\2"),
            3: changed(PAIRS, at_61=b"\3"),
            4: PAIRS[:-1],
            5: changed(PAIRS, at11=b"\0"),
            6: changed(PAIRS, at232=b"\0"),
            7: changed(PAIRS, at224=b"\7"),
        }
        for number, content in damaged.items():
            self.file = self.written(content)
            for command, words in WORDS.items():
                self.expect(" ".join((command, *words)), f"refused {number}\n", 1, after=content)

    def test_every_command_on_short_files(self):
        for length, number in ((0, 2), (1, 2), (71, 4)):
            self.file = self.written(PAIRS[:length])
            for command, words in WORDS.items():
                self.expect(" ".join((command, *words)), f"refused {number}\n", 1, after=PAIRS[:length])


class Lister(Folder):
    """`list` prints what the lister prints. Its stored inputs have a length between block and image."""

    def cases(self):
        """Each input that is whole, or too short for a block, as a file's content; and what is printed."""
        for path in sorted((REPOSITORY / "tests" / "lister").glob("*.in")):
            given = path.read_bytes()
            length = int.from_bytes(given[71:75], "big")
            if len(given) < 71 or len(given) >= 75 + length and length <= 65536:
                yield path.stem, given[:71] + given[75:75 + length], path.with_suffix(".out").read_text()

    def test_stored_outputs(self):
        seen = set()
        for name, content, text in self.cases():
            refused = text.startswith("refused")
            self.assertEqual(run("list", self.written(content)), (int(refused), text, ""), name)
            self.assertEqual(self.content(), content, name)
            seen.add(text if refused else "accepted")
        self.assertEqual(seen, {"accepted", *(f"refused {number}\n" for number in range(2, 8))})

    def test_the_program(self):
        names = ("0-x-p6", "0-wide", "0-wide-removed", "0-segments-256", "0-lengths-127-128", "0-length-65536")
        refused = ("2-version-2", "3-segments-3-whole", "4-x-p10", "5-loop", "6-key-twice", "7-shared-chunk")
        whole = {name: content for name, content, _ in self.cases()}
        for name in (*names, *refused):
            content = whole[name]
            printed = listed(content)
            self.assertEqual(run("list", self.written(content))[1], printed, name)
            self.assertEqual(printed.startswith("refused"), name in refused)


class Usage(Pairs):
    def test_wrong_arguments(self):
        for words in (
            "", "lost", "list", "get {}", "get {} 1", "get {} 0x01", "get {} 01 02", "set {} 01", "set {} 01 0g",
            "set {} 01 02 --loose", "set {} 01 02 --tigh", "remove {}", "delay {} 1", "delay {} 1 b", "delay {} 1 2.0",
            "delay {} 1 +2", "delay {} 1 1_0", "set-delay {} 1 2", "set-delay {} 1 2 --3", "delays {} 1", "grow {} 2",
            "check {} --bytes", "draw {} b.svg", "create", "create {} --slots", "create {} --slots four",
            "create {} --slots -4", "create {} --bulks=-1", "create {} --colour 3", "--loud", "list {} list",
        ):
            status, text, error = run(*words.format(self.file).split())
            self.assertEqual((status, text), (2, ""), words)
            self.assertRegex(error, r"\Achronicle_map: [^\n]+ \(see python3 -m chronicle_map[^\n]* --help\)\n\Z", words)
            self.assertEqual(self.content(), PAIRS, words)
        self.assertEqual(os.listdir(self.folder), ["a.store"])

    def test_digits_of_other_scripts(self):
        for word in ("\u0661", "\uff11", " 1", "1\n"):
            self.assertEqual(run("delay", self.file, word, "2")[:2], (2, ""), repr(word))
        for word in ("\u0660\u0661", "0 1", "01 02", "01\n"):
            self.assertEqual(run("get", self.file, word)[:2], (2, ""), repr(word))

    def test_files_that_cannot_be_opened(self):
        missing = self.path("missing.store")
        for command, words in WORDS.items():
            expected = (2, "", f"chronicle_map: {missing}: No such file or directory\n")
            self.assertEqual(run(command, missing, *words), expected)
            expected = (2, "", f"chronicle_map: {self.folder}: Is a directory\n")
            self.assertEqual(run(command, self.folder, *words), expected)
        self.assertEqual(os.listdir(self.folder), ["a.store"])

    @unittest.skipIf(os.geteuid() == 0, "root may write to every file")
    def test_a_file_that_must_not_be_written(self):
        os.chmod(self.file, 0o444)
        self.assertEqual(run("grow", self.file), (2, "", f"chronicle_map: {self.file}: Permission denied\n"))

    def test_help(self):
        status, text, error = run("--help")
        self.assertEqual((status, error), (0, ""))
        for name, command in COMMANDS.items():
            self.assertRegex(text, rf"\n  {name} FILE[A-Z ]* {command.about.splitlines()[0]}\n")
        for number in Number:
            self.assertEqual(f"\n  {int(number):2}  {number.sentence}\n" in text, number > 1)

    def test_help_of_each_command(self):
        for name, command in COMMANDS.items():
            status, text, error = run(name, "--help")
            self.assertEqual((status, error), (0, ""))
            self.assertIn(f"usage: {PROGRAM} {name} [-h]", text)
            self.assertIn(command.about, text)
            self.assertTrue(text.endswith(f"example:\n  {PROGRAM} {command.example}\n"), name)
            for argument, rest in command.arguments:
                self.assertRegex(text, rf"\n  {argument if argument[0] == '-' else rest['metavar']}[ \n]", name)

    def test_examples_of_the_help(self):
        for name, command in COMMANDS.items():
            words = command.example.split(" > ")[0].split()
            self.assertEqual(words[0], name)
            self.written(PAIRS, "pairs.store")
            status, _, error = run(*(self.path(word) if word.endswith(".store") else word for word in words))
            self.assertEqual((status, error), (0, ""), name)

    def test_version(self):
        self.assertEqual(run("--version"), (0, f"chronicle_map {chronicle_map.__version__}\n", ""))


class Process(Pairs):
    """What only a process of its own shows."""

    def test_status_and_output(self):
        for words, status, text in (("list", 0, HEAD), ("get 0103", 1, "absent\n"), ("get 01 02", 2, "")):
            command, *rest = words.split()
            done = process(command, self.file, *rest)
            self.assertEqual(done.returncode, status)
            self.assertTrue(done.stdout.decode().startswith(text) and bool(done.stdout) == bool(text))
            self.assertEqual(done.stderr.count(b"\n"), status == 2)

    def test_a_reader_that_closed_the_pipe(self):
        for words in (("list", self.file), ("draw", self.file), ("--help",)):
            for unbuffered in ("", "1"):
                reader, writer = os.pipe()
                os.close(reader)
                done = process(*words, stdout=writer, PYTHONUNBUFFERED=unbuffered)
                os.close(writer)
                self.assertEqual(done.stderr, b"", words)
                if words != ("--help",) or not unbuffered:  # argparse passes over an error at once, in some versions
                    self.assertEqual(done.returncode, 141, words)

    def test_a_reader_that_closes_the_pipe_early(self):
        """As `| head -c 10` does, of more than a pipe holds."""
        settings = Settings(slots=16, chunks=64, chunk_size=1024)
        with Store.create(self.path("long.store"), settings) as store:
            store[b"\1"] = bytes(range(250)) * 240
        for unbuffered in ("", "1"):
            env = {**os.environ, "PYTHONPATH": os.pathsep.join(sys.path), "PYTHONUNBUFFERED": unbuffered}
            line = [sys.executable, "-m", "chronicle_map", "get", self.path("long.store"), "01"]
            whole = subprocess.run(line, env=env, stdout=subprocess.PIPE, check=True).stdout
            self.assertEqual(whole.decode(), (bytes(range(250)) * 240).hex() + "\n")
            with subprocess.Popen(line, env=env, stdout=subprocess.PIPE, stderr=subprocess.PIPE) as done:
                self.assertEqual(done.stdout.read(10), b"0001020304")
                done.stdout.close()
                self.assertEqual((done.stderr.read(), done.wait()), (b"", 141), unbuffered)

    def test_a_full_disk(self):
        with open("/dev/full", "wb") as full:
            done = process("list", self.file, stdout=full)
        expected = b"chronicle_map: standard output: No space left on device\n"
        self.assertEqual((done.returncode, done.stderr), (2, expected))

    def test_no_output_at_all(self):
        shell = f"'{sys.executable}' -m chronicle_map \"$@\" >&-"
        env = {**os.environ, "PYTHONPATH": os.pathsep.join(sys.path)}
        for command, expected in (("check", (2, b"chronicle_map: standard output is closed\n")), ("grow", (0, b""))):
            line = ["sh", "-c", shell, "sh", command, self.file]
            done = subprocess.run(line, env=env, stderr=subprocess.PIPE, check=False)
            self.assertEqual((done.returncode, done.stderr), expected)

    def test_without_the_library(self):
        missing = self.path("libchronicle_map.so.0")
        done = process("list", self.file, CHRONICLE_MAP_LIB=missing)
        self.assertEqual((done.returncode, done.stdout, done.stderr.count(b"\n")), (2, b"", 1))
        self.assertIn(f"chronicle_map: CHRONICLE_MAP_LIB names {missing}".encode(), done.stderr)
        done = process("--help", CHRONICLE_MAP_LIB=missing)
        self.assertEqual((done.returncode, done.stderr), (0, b""))

    def test_a_name_that_is_no_text(self):
        name = os.path.join(os.fsencode(self.folder), b"a\xff\n.store")
        Path(os.fsdecode(name)).write_bytes(PAIRS)
        done = process("draw", os.fsdecode(name), LC_ALL="C.UTF-8")
        self.assertEqual((done.returncode, done.stderr), (0, b""))
        self.assertIn("a\ufffd\ufffd.store", done.stdout.decode())


if __name__ == "__main__":
    unittest.main()
