"""tools.py [NAME..]: tools/ecn and the pages that go with it, held to what they say. The last line is 'N passed, M failed'.

It uses the proved programs of target/bin and, where target/staticlib/libcapi.a and a C compiler are there, the proved library.
"""
import argparse
import contextlib
import csv
import ctypes
import io
import os
import pathlib
import pty
import random
import re
import resource
import shlex
import shutil
import signal
import stat
import subprocess
import sys
import tempfile
import time
import unittest

TOP = pathlib.Path(__file__).resolve().parent.parent
sys.path[:0] = [str(TOP / each) for each in ("tools", "tests", "python")]
import writer  # noqa: E402
from ecnlib import make, plotrows  # noqa: E402
from ecnlib.blocks import FORMS, Record, header, records_in  # noqa: E402
from ecnlib.common import Ended  # noqa: E402
from ecnlib.main import COMMANDS  # noqa: E402

ECN, BIN, SAMPLES = TOP / "tools/ecn", TOP / "target/bin", TOP / "samples"
BUILT = tempfile.TemporaryDirectory()
ARCHIVE, SHARED = TOP / "target/staticlib/libcapi.a", pathlib.Path(BUILT.name) / "libflasknib.so"
ENDINGS = (signal.SIGTERM, signal.SIGHUP, signal.SIGINT, signal.SIGQUIT)
STREAMS = (BIN / "ecnstreams").exists()
# Python's own settings are left out, and what it compiles goes to a folder of ours: the repository may not be ours to write to.
OURS = {name: value for name, value in os.environ.items() if not name.startswith("PYTHON")}
OURS |= {"FLASKNIB_LIBRARY": "", "PYTHONPYCACHEPREFIX": BUILT.name}
LONG = 30  # seconds, for what is to end at once
HEAD = "label,ssrc,highest,ect0,ect1,ce,notect,lost,dup,jumped,restarts\r\n"


def built_library() -> bool:
    """Whether the shared library is there, made from the archive that was proved. One that is not made of it ends the test."""
    if not ARCHIVE.exists() or not shutil.which("cc"):
        return False
    words = ["-Wl,--whole-archive", ARCHIVE, "-Wl,--no-whole-archive", "-Wl,-z,defs"]
    subprocess.run(["cc", "-shared", "-o", SHARED, *words], check=True)
    return True


LIBRARY = built_library()
os.environ["FLASKNIB_LIBRARY"] = str(SHARED) if LIBRARY else ""  # for the parts of ecn that are called here
needs_library = unittest.skipUnless(LIBRARY, "no libcapi.a or no cc")


class Tried(unittest.TestCase):
    """A folder of its own for each test, and a way to call ecn."""

    def setUp(self):
        self.folder = self.new_folder()
        self.out = self.folder / "out.csv"

    def new_folder(self) -> pathlib.Path:
        folder = tempfile.TemporaryDirectory(prefix="a folder ")
        self.addCleanup(folder.cleanup)
        return pathlib.Path(folder.name)

    def ecn(self, *words, status=0, library=False, script=ECN, **kept) -> subprocess.CompletedProcess:
        """A call that must end with this status, with no package but the standard library, and with no traceback whatever happens."""
        environment = OURS | ({"FLASKNIB_LIBRARY": str(SHARED)} if library else {}) | kept.pop("env", {})
        streams = ({} if "input" in kept else {"stdin": subprocess.DEVNULL}) | {"stdout": subprocess.PIPE, "stderr": subprocess.PIPE} | kept
        ran = subprocess.run([sys.executable, "-S", script, *words], env=environment, text=True, timeout=LONG, **streams)
        self.assertEqual((ran.returncode, "Traceback" in (ran.stderr or "")), (status, False), ran.stderr)
        return ran

    def alone(self, *names):
        """Nothing but these files is in the folder: no file that was to be renamed is left."""
        self.assertEqual(sorted(os.listdir(self.folder)), sorted(names))

    def program(self, text: str, name="ecntable") -> pathlib.Path:
        """A folder with a program of our own."""
        folder = self.new_folder()
        (folder / name).write_text(f"#!/bin/sh\n{text}\n")
        (folder / name).chmod(0o755)
        return folder

    def trace(self, *blocks: bytes, name="made.trace") -> pathlib.Path:
        path = self.folder / name
        path.write_bytes(b"".join(blocks))
        return path

    def begun(self, *words, signals=signal.SIG_DFL, **kept) -> subprocess.Popen:
        """A call that goes on, with the signals that end it set in this way, whatever this process itself was started with."""
        set_signals = lambda: [signal.signal(each, signals) for each in ENDINGS]  # noqa: E731
        environment = OURS | {"FLASKNIB_LIBRARY": os.environ["FLASKNIB_LIBRARY"]}
        child = subprocess.Popen([sys.executable, "-S", ECN, *words], env=environment, preexec_fn=set_signals, start_new_session=True, **kept)
        self.addCleanup(child.wait)
        self.addCleanup(child.kill)
        return child

    def until(self, true) -> None:
        end = time.monotonic() + LONG
        while not true():
            self.assertLess(time.monotonic(), end)
            time.sleep(0.01)


def printed(name: str) -> str:
    """The table of a sample, as Python reads it from a pipe."""
    return (SAMPLES / f"{name}.csv").read_text()


def label(text=b"x", ssrc=7, form=1):
    return writer.label(text, ssrc, form)


def arrivals(count=3, ssrc=7, form=1, first=10):
    return writer.arrivals([(20 * n, first + n, n % 4) for n in range(count)], ssrc, form)


class Table(Tried):
    def test_samples_of_both_forms(self):
        for name in ("c1", "long", "reboot", "weeks"):
            ran = self.ecn("table", SAMPLES / f"{name}.trace", "-o", self.out)
            self.assertEqual(self.out.read_bytes(), (SAMPLES / f"{name}.csv").read_bytes())
            self.assertEqual(ran.stderr + ran.stdout, "")
        self.alone("out.csv")

    def test_refused_block(self):
        self.out.write_text("as it was")
        ran = self.ecn("table", SAMPLES / "damaged.trace", "-o", self.out, status=1)
        self.assertRegex(ran.stderr, r"damaged\.trace: block 5 is refused with 13: .*; ecn salvage saves the other blocks\n$")
        self.assertEqual(self.out.read_text(), "as it was")
        self.alone("out.csv")

    def test_no_trace(self):
        for name, number in ((os.devnull, 1), (TOP / "README.md", 13)):
            ran = self.ecn("table", name, "-o", self.out, status=1)
            self.assertRegex(ran.stderr, f"block 0 is refused with {number}.*probably this is no trace")
        self.alone()

    def test_failed_read(self):
        """The program prints a refused line for it, and the status is 2 all the same."""
        self.out.write_text("as it was")
        ran = self.ecn("table", self.folder, "-o", self.out, status=2)
        self.assertIn("block 0: ecntable: reading standard input: Is a directory", ran.stderr)
        ran = self.ecn("table", self.folder / "missing", "-o", self.out, status=2)
        self.assertIn("missing: No such file", ran.stderr)
        self.assertEqual(self.out.read_text(), "as it was")

    def test_failed_write(self):
        ran = self.ecn("table", SAMPLES / "c1.trace", "-o", "/dev/full", status=2)
        self.assertIn("/dev/full: No space left on device", ran.stderr)
        limit = lambda: resource.setrlimit(resource.RLIMIT_FSIZE, (1000, 1000))  # noqa: E731
        ran = self.ecn("table", SAMPLES / "long.trace", "-o", self.out, status=2, preexec_fn=limit)
        self.assertIn("long.trace: ecntable: writing standard output: File too large", ran.stderr)
        ran = self.ecn("table", SAMPLES / "c1.trace", "-o", self.folder / "no" / "out.csv", status=2)
        self.assertIn("out.csv: No such file or directory", ran.stderr)
        self.alone()

    def test_program_that_ends_early(self):
        for text, words in (("kill -9 $$", "ended by signal 9"), ("exit 3", "ended with status 3")):
            self.assertIn(words, self.ecn("table", SAMPLES / "c1.trace", "-o", self.out, "--bin", self.program(text), status=2).stderr)
        half = self.program(f"cat >/dev/null; head -n 3 {shlex.quote(str(SAMPLES / 'reboot.csv'))}")
        self.assertIn("2 rows for 3584 bytes", self.ecn("table", SAMPLES / "reboot.trace", "-o", self.out, "--bin", half, status=2).stderr)
        self.alone()

    def test_several_traces(self):
        out = self.folder / "tables"
        names = ("c1", "long", "reboot", "weeks")
        self.ecn("table", *(SAMPLES / f"{name}.trace" for name in names), "-o", out, "-j", "3")
        for name in names:
            self.assertEqual((out / f"{name}.csv").read_bytes(), (SAMPLES / f"{name}.csv").read_bytes())
        self.assertEqual(len(os.listdir(out)), len(names))

    def test_worst_status_counts_and_others_go_on(self):
        given = [SAMPLES / f"{name}.trace" for name in ("damaged", "c1")]
        self.ecn("table", *given, "-o", self.folder, status=1)
        self.alone("c1.csv")
        self.ecn("table", self.folder / "missing", *given, SAMPLES / "weeks.trace", "-o", f"{self.folder}/", "-j", "2", status=2)
        self.alone("c1.csv", "weeks.csv")

    def test_two_tables_at_one_place(self):
        shutil.copy(SAMPLES / "c1.trace", self.folder)
        ran = self.ecn("table", SAMPLES / "c1.trace", self.folder / "c1.trace", "-o", self.folder / "t", status=2)
        self.assertIn("would both have the table", ran.stderr)
        self.alone("c1.trace")
        (self.folder / "long.csv").symlink_to("c1.csv")
        ran = self.ecn("table", SAMPLES / "c1.trace", SAMPLES / "long.trace", "-o", self.folder, status=2)
        self.assertIn("would both have the table", ran.stderr)

    def test_jobs(self):
        for jobs in ("0", "-3"):
            ran = self.ecn("table", SAMPLES / "c1.trace", "-o", self.out, "-j", jobs, status=2)
            self.assertIn(f"'{jobs}' is no whole number from 1 on", ran.stderr)
        self.alone()

    def test_link_and_rights(self):
        (self.folder / "link").symlink_to("out.csv")
        self.ecn("table", SAMPLES / "c1.trace", "-o", self.folder / "link", preexec_fn=lambda: os.umask(0o027))
        self.assertTrue((self.folder / "link").is_symlink())
        self.assertEqual(stat.S_IMODE(self.out.stat().st_mode), 0o640)

    def test_pipe(self):
        with open(SAMPLES / "long.trace", "rb") as trace, subprocess.Popen(["cat"], stdin=trace, stdout=subprocess.PIPE) as cat:
            self.ecn("table", "/dev/stdin", "-o", self.out, stdin=cat.stdout)
        self.assertEqual(self.out.read_bytes(), (SAMPLES / "long.csv").read_bytes())

    def test_progress_on_a_terminal_alone(self):
        slow = self.program(f"sleep 1.3; exec {shlex.quote(str(BIN / 'ecntable'))}")
        try:
            controller, terminal = pty.openpty()
        except OSError as error:
            self.skipTest(f"no pseudo-terminal: {error}")
        child = subprocess.Popen([ECN, "table", SAMPLES / "long.trace", "-o", self.out, "--bin", slow], stderr=terminal, env=OURS)
        self.assertEqual(child.wait(LONG), 0)
        os.close(terminal)
        shown = b""
        with contextlib.suppress(OSError):
            while piece := os.read(controller, 4096):
                shown += piece
        os.close(controller)
        self.assertIn(b"ecn: 0 of 1 traces, 0 % of 0 MB", shown)
        self.assertTrue(shown.endswith(b"\r\x1b[K"))

    def test_where_the_program_is_looked_for(self):
        self.ecn("table", SAMPLES / "c1.trace", "-o", self.out, env={"ECN_BIN": str(BIN)})
        ran = self.ecn("table", SAMPLES / "c1.trace", "-o", self.out, "--bin", self.folder, status=2)
        self.assertIn("ecntable is not found in", ran.stderr)

    def test_streams(self):
        """Where ecnstreams is not there a program that prints its table stands in for it."""
        path = self.trace(label(), arrivals(ssrc=9), arrivals(ssrc=8), arrivals(ssrc=9, first=13))
        words = ["table", path, "-o", self.out, "--streams", "--bin"]
        self.assertIn("ecnstreams is not found", self.ecn(*words, self.folder, status=2).stderr)
        printed = (HEAD + "x,8,12,1,1,0,1,0,0,0,0\r\nx,9,15,2,2,0,2,0,0,0,0\r\n").replace("\r\n", "\\r\\n")
        self.ecn(*words, BIN if STREAMS else self.program(f"cat >/dev/null; printf '{printed}'", "ecnstreams"))
        self.assertEqual(self.out.read_bytes().decode(), printed.replace("\\r\\n", "\r\n"))
        if STREAMS:
            self.assertIn("4 blocks, 0 refused", self.ecn("look", path, "--streams", "--brief").stdout)

    def test_help(self):
        for command in ([], *([name] for name in COMMANDS)):
            self.assertIn("xit status", self.ecn(*command, "--help").stdout)
        self.ecn("table", SAMPLES / "c1.trace", status=2)
        self.assertEqual(subprocess.run([ECN, "--help"], env=OURS, stdout=subprocess.DEVNULL).returncode, 0)


class Files(Tried):
    """What a file's name may be, in every command."""

    def into(self, out: str, mode="wb", words=("table", SAMPLES / "c1.trace"), **kept) -> bytes:
        """What a file holds that a script writes to before and behind a call."""
        path = self.folder / "written"
        with open(path, mode, buffering=0) as file:
            file.write(b"A")
            self.ecn(*words, "-o", out, stdout=file, **kept)
            file.write(b"B")
        data = path.read_bytes()
        path.unlink()
        return data

    def test_standard_output_is_never_replaced(self):
        wanted, link = b"A" + (SAMPLES / "c1.csv").read_bytes() + b"B", self.folder / "link"
        link.symlink_to("/dev/stdout")
        for out, mode in (("-", "wb"), ("-", "ab"), ("/dev/stdout", "wb"), ("/dev/stdout", "ab"), ("/proc/self/fd/1", "wb"), (link, "ab")):
            self.assertEqual(self.into(out, mode), wanted)
        with open(self.folder / "other", "wb") as other:
            self.assertEqual(self.into(f"/dev/fd/{other.fileno()}", pass_fds=[other.fileno()]), b"AB")
        self.assertEqual((self.folder / "other").read_bytes(), wanted[1:-1])
        self.alone("link", "other")

    @needs_library
    def test_standard_output_of_make(self):
        self.out.write_text("time,number,mark\n0,1,2\n")
        made = self.into("-", words=("make", self.out, "--ssrc", "7"), library=True)
        self.assertEqual(made, b"A" + label(b"") + writer.arrivals([(0, 1, 2)], 7) + b"B")

    def test_standard_output_of_plot(self):
        self.assertRegex(self.into("/dev/stdout", words=("plot", SAMPLES / "c1.csv")), b"(?s)^A<svg .*</svg>\nB$")

    def test_pipes(self):
        for out in ("-", "/dev/stdout"):
            self.assertEqual(self.ecn("table", SAMPLES / "c1.trace", "-o", out).stdout, printed("c1"))
        self.assertEqual(self.ecn("table", SAMPLES / "c1.trace", "-o", "/dev/stderr").stderr, printed("c1"))
        fifo = self.folder / "fifo"
        os.mkfifo(fifo)
        for name, status, wanted in (("c1", 0, printed("c1")), ("damaged", 1, "")):
            cat = subprocess.Popen(["timeout", str(LONG), "cat", fifo], stdout=subprocess.PIPE, text=True)
            self.ecn("table", SAMPLES / f"{name}.trace", "-o", fifo, status=status)
            self.assertEqual((cat.communicate()[0], cat.returncode), (wanted, 0))
        self.assertTrue(fifo.is_fifo())
        self.alone("fifo")

    def test_a_pipe_that_does_not_block(self):
        table, words = HEAD + "x,7,12,1,1,0,1,0,0,0,0\r\n" * 4000, ("table", SAMPLES / "c1.trace", "-o", "-", "--bin")
        self.out.write_bytes(table.encode())
        program = self.program(f"cat >/dev/null; cat {shlex.quote(str(self.out))}", "ecnstreams")
        reader, writer = os.pipe()
        os.set_blocking(writer, False)
        with open(reader, "rb") as pipe:
            child = self.begun(*words, program, "--streams", stdout=writer)
            os.close(writer)
            time.sleep(0.3)
            self.assertEqual(pipe.read().decode(), table)
        self.assertEqual(child.wait(LONG), 0)

    def test_input_from_a_pipe_that_does_not_block(self):
        reader, writer = os.pipe()
        os.set_blocking(reader, False)
        child = self.begun("plot", "-", "-o", self.folder / "out.svg", stdin=reader)
        os.close(reader)
        time.sleep(0.3)
        with open(writer, "wb") as pipe:
            pipe.write((SAMPLES / "c1.csv").read_bytes())
        self.assertEqual(child.wait(LONG), 0)

    @needs_library
    def test_standard_input(self):
        """Through all commands, and from the place where a file stands."""
        text = "time,number,mark\n0,65534,2\n20,65535,2\n40,0,3\n41,0,3\n100,3,1\n"
        with open(self.folder / "made.trace", "w+b", buffering=0) as file:
            file.write(b"before")
            self.ecn("make", "-", "-o", "-", "--ssrc", "1", input=text, stdout=file, library=True)
            file.seek(6)
            self.assertEqual(file.read()[512:], (SAMPLES / "c1.trace").read_bytes()[512:])
            file.seek(6)
            table = self.ecn("table", "-", "-o", "-", stdin=file).stdout
        self.assertEqual(table, HEAD.replace("\r", "") + ",1,65539,2,1,2,0,2,1,0,0\n")
        self.assertTrue(self.ecn("plot", "-", "-o", "-", input=table).stdout.startswith("<svg "))
        self.assertEqual(os.listdir(self.folder), ["made.trace"])

    def test_a_file_of_that_name(self):
        shutil.copy(SAMPLES / "c1.trace", self.folder / "-")
        with open(SAMPLES / "long.trace", "rb") as trace:
            self.assertEqual(self.ecn("table", "-", "-o", "-", cwd=self.folder, stdin=trace).stdout, printed("long"))
        self.assertEqual(self.ecn("table", "./-", "-o", "-", cwd=self.folder).stdout, printed("c1"))
        self.alone("-")

    def test_what_cannot_be(self):
        c1, weeks = SAMPLES / "c1.trace", SAMPLES / "weeks.trace"
        for words, told in (
            (["table", c1, weeks, "-o", "-"], "several traces need a folder for their tables, and standard output is none"),
            (["table", c1, weeks, "-o", "/dev/stdout"], "and /dev/stdout is none"),
            (["table", "-", "-", "-o", self.folder], "standard input has no name for a table in a folder"),
            (["table", c1, "-o", ""], "a file's name is empty"),
            (["table", c1, "-o", "/dev/fd/99"], "/dev/fd/99: Bad file descriptor"),
            (["table", c1, "-o", "/dev/fd/4"], "/dev/fd/4: Bad file descriptor"),
            (["table", c1, "-o", f"/proc/{os.getpid()}/fd/1"], "is an open file of another process"),
            (["look", "-"], "look reads a trace more than once, and standard input can be read only once: give the trace's file"),
            (["plot", SAMPLES / "c1.csv", SAMPLES / "long.csv", "-o", "-"], "several traces need a folder for their pictures, and standard output is none"),
        ):
            self.assertIn(told, self.ecn(*words, status=2).stderr)
        self.alone()

    def test_an_input_is_never_an_output(self):
        """By whatever name: a link, a hard link, standard input or output, or the table of another trace."""
        path = self.trace(label(), arrivals(), name="a.csv")
        os.link(path, self.folder / "hard")
        (self.folder / "soft").symlink_to(path)
        shutil.copy(SAMPLES / "c1.trace", self.folder / "a.trace")
        for words in (["a.csv", "-o", "hard"], ["hard", "-o", "soft"], ["a.trace", "a.csv", "-o", "."], ["-", "-o", "a.csv"], ["a.csv", "-o", "-"]):
            with open(path, "rb") as file, open(path, "ab") as end:
                ran = self.ecn("table", *words, status=2, cwd=self.folder, stdin=file, stdout=end)
            self.assertIn("is given as input and as output", ran.stderr)
        self.assertEqual(path.read_bytes(), label() + arrivals())
        self.assertTrue(path.samefile(self.folder / "hard"))

    def test_closed_streams(self):
        for stream, words, told in (
            (1, ["table", SAMPLES / "c1.trace", "-o", "-"], "standard output: Bad file descriptor"),
            (1, ["look", SAMPLES / "c1.trace"], "standard output: Bad file descriptor"),
            (0, ["table", "-", "-o", self.out], "standard input: Bad file descriptor"),
            (0, ["plot", "-", "-o", self.out], "standard input: Bad file descriptor"),
        ):
            self.assertEqual(self.ecn(*words, status=2, preexec_fn=lambda: os.close(stream)).stderr, f"ecn: {told}\n")
        self.assertEqual(self.ecn("table", SAMPLES / "damaged.trace", "-o", "-", status=1, preexec_fn=lambda: os.close(2)).stdout, "")
        self.alone()

    def test_no_room_for_what_is_printed(self):
        with open("/dev/full", "w") as full:
            for words in (["look", SAMPLES / "c1.trace"], ["--help"], ["table", "--help"], ["plot", SAMPLES / "c1.csv", "-o", "-"]):
                self.assertEqual(self.ecn(*words, status=2, stdout=full).stderr, "ecn: standard output: No space left on device\n")
            self.ecn("table", SAMPLES / "damaged.trace", "-o", self.out, status=1, stderr=full)

    def test_a_pipe_that_nobody_reads(self):
        """Who shows a trace and closes the pipe has seen enough; a table has not come through."""
        for words, told in ((["look", SAMPLES / "c1.trace"], ""), (["table", SAMPLES / "c1.trace", "-o", "-"], "ecn: standard output: Broken pipe\n")):
            reader, writer = os.pipe()
            os.close(reader)
            with open(writer, "wb") as pipe:
                self.assertEqual(self.ecn(*words, status=2, stdout=pipe).stderr, told)

    def test_rights_of_a_file_that_is_replaced(self):
        self.out.write_text("as it was")
        for mode in (0o600, 0o664):
            self.out.chmod(mode)
            self.ecn("table", SAMPLES / "c1.trace", "-o", self.out)
            self.assertEqual(stat.S_IMODE(self.out.stat().st_mode), mode)
        self.out.write_text("as it was")
        self.out.chmod(0o444)
        if os.geteuid() != 0:
            self.assertIn("Permission denied", self.ecn("table", SAMPLES / "c1.trace", "-o", self.out, status=2).stderr)
            self.assertEqual(self.out.read_text(), "as it was")

    def test_a_long_name(self):
        name = os.fsdecode(("\u8a9e" * 80 + ".csv").encode())
        self.ecn("table", SAMPLES / "c1.trace", "-o", self.folder / name)
        self.alone(name)


class Endings(Tried):
    """Signals leave no part of a file and no process, and those that were ignored stay ignored."""

    def ends(self, ending: int, *words, name="ecntable") -> None:
        """The call's program tells its process, and then waits."""
        told = self.folder / "process"
        path = shlex.quote(str(told))
        program = self.program(f"echo $$ >{path}.part; mv {path}.part {path}; exec sleep {2 * LONG}", name)
        child = self.begun(*words, "--bin", program)
        self.until(told.exists)
        child.send_signal(ending)
        self.assertEqual(child.wait(LONG), -ending)
        self.assertRaises(ProcessLookupError, os.kill, int(told.read_text()), 0)
        told.unlink()

    def test_each_command_with_a_program(self):
        (self.folder / "in.csv").write_text("time,number,mark\n0,1,2\n")
        trace, place = self.trace(label(), arrivals()), self.folder / "place"
        place.mkdir()
        made = ["make", self.folder / "in.csv", "--ssrc", "7", "-o", place / "out"]
        for words in (["table", trace, "-o", place / "out"], ["look", trace], *([made] if LIBRARY else [])):
            self.ends(signal.SIGTERM, *words)
        for command in ("label", "salvage"):
            self.ends(signal.SIGTERM, command, trace, "-o", place / "out", name=f"ecn{command}")
        for ending in (signal.SIGINT, signal.SIGHUP):
            self.ends(ending, "table", trace, "-o", place / "out")
        self.assertEqual(os.listdir(place), [])

    def test_at_the_moment_when_the_program_begins(self):
        """It is the program that sends the signal."""
        told = self.folder / "process"
        program = self.program(f"echo $$ >{shlex.quote(str(told))}; kill -TERM $PPID; exec sleep {2 * LONG}")
        for _ in range(3):
            child = self.begun("table", SAMPLES / "c1.trace", "-o", self.out, "--bin", program)
            self.assertEqual(child.wait(LONG), -signal.SIGTERM)
            self.assertRaises(ProcessLookupError, os.kill, int(told.read_text()), 0)
            told.unlink()
            self.alone()

    def test_while_it_waits_for_others(self):
        """For a writer or a reader of a pipe, before any program is run."""
        fifo = self.folder / "fifo"
        os.mkfifo(fifo)
        for command, given, out in (("table", fifo, self.out), ("plot", fifo, self.out), ("plot", SAMPLES / "c1.csv", fifo), ("plot", "-", self.out)):
            child = self.begun(command, given, "-o", out, stdin=subprocess.PIPE)
            time.sleep(0.2)
            child.send_signal(signal.SIGTERM)
            self.assertEqual(child.wait(LONG), -signal.SIGTERM)
            child.stdin.close()
        self.alone("fifo")

    def test_ignored_signals_stay_ignored(self):
        gate = self.folder / "gate"
        os.mkfifo(gate)
        program = self.program(f"read line <{shlex.quote(str(gate))}; exec {shlex.quote(str(BIN / 'ecntable'))}")
        child = self.begun("table", SAMPLES / "c1.trace", "-o", self.out, "--bin", program, signals=signal.SIG_IGN)
        with open(gate, "r+b", buffering=0) as line:
            self.until(lambda: len(os.listdir(self.folder)) == 2)
            for ending in ENDINGS:
                child.send_signal(ending)
            time.sleep(0.1)
            self.assertIsNone(child.poll())
            line.write(b"go on\n")
            self.assertEqual(child.wait(LONG), 0)
        self.assertEqual(self.out.read_bytes(), (SAMPLES / "c1.csv").read_bytes())


class Look(Tried):
    def shown(self, path, *words, **kept) -> list:
        return self.ecn("look", path, *words, **kept).stdout.splitlines()

    def both(self, path, *words, status=0) -> list:
        """The lines by the program alone; with the library they are the same, but for the last and for what is sound by itself."""
        lines = self.shown(path, *words, status=status)
        if LIBRARY:
            others = [line.replace("; by itself it is sound", "") for line in self.shown(path, *words, status=status, library=True)]
            self.assertEqual(lines[:-1], others[:-1])
        return lines

    def test_blocks_and_records(self):
        lines = self.both(SAMPLES / "c1.trace")
        self.assertEqual(lines[0], "block 0: sound: label of 13 bytes, form 1, SSRC 1")
        self.assertEqual(lines[1], '    "probe 2, left"')
        self.assertEqual(lines[3], "    time 0 ms  number 65534  mark 2 ECT(0)")
        self.assertEqual(len(lines), 9)
        self.assertIn("    time 86400000 ms  number 1001  mark 2 ECT(0)", self.both(SAMPLES / "weeks.trace"))
        self.assertEqual(len(self.shown(SAMPLES / "c1.trace", "--brief", "--block", "1-1")), 2)

    def test_damaged(self):
        lines = self.both(SAMPLES / "damaged.trace", "--brief", status=1)
        self.assertEqual([at for at, line in enumerate(lines) if "REFUSED" in line], [5, 9])
        self.assertRegex(lines[5], "REFUSED with 13: .*count 40")
        self.assertRegex(lines[9], "REFUSED with 1: .*300 bytes")

    def test_place(self):
        path = self.trace(label(), arrivals(), arrivals(ssrc=8), label(), arrivals(form=2), arrivals())
        lines = self.both(path, "--brief", status=1)
        self.assertEqual([at for at, line in enumerate(lines) if "REFUSED with 14" in line], [2, 3, 4])

    @needs_library
    def test_behind_a_refused_label(self):
        path = self.trace(b"\0" * 512, arrivals(), b"\1" * 512)
        lines = self.shown(path, "--brief", status=1, library=True)
        self.assertRegex(lines[0], "REFUSED with 13")
        self.assertRegex(lines[1], "sound by itself; its place is not judged: 3 arrivals")
        self.assertRegex(lines[2], "REFUSED with 13")
        self.assertIn("3 blocks, 2 refused, 1 not judged at their place (ecntable refuses block 0, and goes no further); judged", lines[3])
        lines = self.shown(path, "--brief", status=1)
        self.assertRegex(lines[1], "not judged: ecntable refuses block 0, and goes no further, and the library is not there")
        self.assertIn("3 blocks, 1 refused, 2 not judged (ecntable refuses block 0", lines[3])

    @needs_library
    def test_library_alone(self):
        """The tools at another place, with no program to be found."""
        for name in ("tools", "python"):
            shutil.copytree(TOP / name, self.folder / name)
        words = dict(script=self.folder / "tools/ecn", library=True, env={"PATH": ""})
        lines = self.shown(SAMPLES / "damaged.trace", "--brief", status=1, **words)
        self.assertEqual([at for at, line in enumerate(lines) if "REFUSED" in line], [5, 9])
        self.assertIn("10 blocks, 2 refused, 8 not judged at their place (the program ecntable is not there); judged by libflasknib.so", lines[-1])

    @needs_library
    def test_library_in_a_folder_with_brackets(self):
        place = self.folder / "a [1]"
        shutil.copytree(TOP / "tools", place)
        shutil.copytree(TOP / "python/flasknib", place / "flasknib")
        shutil.copy(SHARED, place / "flasknib")
        environment = {name: value for name, value in OURS.items() if name != "FLASKNIB_LIBRARY"}
        words = [sys.executable, "-S", place / "ecn", "look", SAMPLES / "c1.trace", "--bin", BIN]
        ran = subprocess.run(words, env=environment, stdout=subprocess.PIPE, text=True)
        self.assertIn("judged by ecntable and libflasknib.so", ran.stdout)

    def test_many_refused(self):
        path = self.trace(label(), *(arrivals(ssrc=8 + n % 2 * -1) for n in range(60)))
        lines = self.both(path, "--brief", status=1)
        self.assertEqual(sum("REFUSED with 14" in line for line in lines), 30)
        self.assertIn("61 blocks, 30 refused; judged by ecntable", lines[-1])

    def test_more_refused_than_the_program_is_run(self):
        """The refused and those not judged are counted apart, and the limit is said."""
        limit = "ecntable was run 100 times, the limit, and refused a block each time"
        path = self.trace(label(), *(arrivals(ssrc=8) for _ in range(102)), arrivals(), arrivals()[:-1] + b"\0")
        lines = self.shown(path, "--brief", status=1)
        self.assertIn(f"105 blocks, 100 refused, 4 not judged ({limit}); judged by ecntable", lines[-1])
        self.assertIn(f"block 103: not judged: {limit}, and the library is not there", lines[103])
        if LIBRARY:
            last = self.shown(path, "--brief", status=1, library=True)[-1]
            self.assertIn(f"105 blocks, 101 refused, 3 not judged at their place ({limit}); judged by ecntable and libflasknib.so", last)

    def test_blocks_that_are_not_there(self):
        path = self.trace(label(), arrivals(), arrivals(first=13)[:300])
        for asked, told in (("3", "no block 3: it has 3 blocks"), ("99-100", "no block 99"), ("5-3", "ends before it begins"), ("x", "is neither")):
            ran = self.ecn("look", path, "--block", asked, status=2)
            self.assertIn(told, ran.stderr)
            self.assertEqual(ran.stdout, "")
        self.assertEqual(len(self.shown(path, "--brief", "--block", "1-99", status=1)), 3)

    def test_failures(self):
        self.assertIn("REFUSED with 1", self.both(os.devnull, status=1)[0])
        self.assertIn(f"{self.folder}: Is a directory", self.ecn("look", self.folder, status=2).stderr)
        self.assertIn("missing: No such file", self.ecn("look", self.folder / "missing", status=2).stderr)
        self.assertIn("/dev/stdin: look reads a trace more than once", self.ecn("look", "/dev/stdin", input="", status=2).stderr)
        self.assertIn("cannot be used", self.ecn("look", SAMPLES / "c1.trace", status=2, env={"FLASKNIB_LIBRARY": "/dev/null"}).stderr)


@needs_library
class Make(Tried):
    def setUp(self):
        super().setUp()
        self.csv, self.made = self.folder / "in.csv", self.folder / "out.trace"
        self.parser = argparse.ArgumentParser()
        make.add_arguments(self.parser)

    def make(self, text: str, *words, **kept) -> subprocess.CompletedProcess:
        self.csv.write_text(text, encoding="utf-8")
        return self.ecn("make", self.csv, "-o", self.made, *words, **{"library": True, **kept})

    def ecn(self, *words, **kept) -> subprocess.CompletedProcess:
        return super().ecn(*words, **{"library": True, **kept})

    def test_no_library(self):
        ran = self.make("time,number,mark\n0,1,2\n", "--ssrc", "1", status=2, library=False)
        self.assertIn("ecn: the library libflasknib.so is not there: in a clone `make` builds it", ran.stderr)
        self.assertIn("cannot be used", self.make("", "--ssrc", "1", status=2, env={"FLASKNIB_LIBRARY": "/dev/null"}).stderr)
        shutil.copytree(TOP / "tools", self.folder / "tools")
        ran = self.make("", "--ssrc", "1", status=2, script=self.folder / "tools/ecn")
        self.assertIn("the package flasknib is not there, beside ecn or on Python's path", ran.stderr)

    def test_c1_in_both_forms(self):
        text = "Mark, number,time,note\r\nECT(0),65534,0,a\r\n2,65535,20,\r\nce,0,40,\r\n3,0,41,\r\nect(1),3,100,b\r\n"
        with open(SAMPLES / "c1.trace", "rb") as trace:
            second = subprocess.run([BIN / "ecnforms"], stdin=trace, capture_output=True).stdout
        ran = self.make(text, "--label", "probe 2, left", "--ssrc", "1")
        self.assertRegex(ran.stderr, "2 blocks, 5 records, 1 source; written by the proved writer in libflasknib.so, taken by ecntable\n$")
        self.assertEqual(ran.stdout, "")
        self.assertEqual(self.made.read_bytes(), (SAMPLES / "c1.trace").read_bytes())
        self.make(text, "--label", "probe 2, left", "--ssrc", "0x1", "--form", "2")
        self.assertEqual(self.made.read_bytes(), second)

    def test_sizes(self):
        """Blocks are packed full, and the tests' own writer gives the same bytes."""
        draw = random.Random(25)
        for form in FORMS.values():
            for count in (0, form.most, form.most + 1):
                records = [Record(draw.randrange(256**form.time), draw.randrange(65536), draw.randrange(4)) for _ in range(count)]
                text = "time,number,mark\n" + "".join("%d,%d,%d\n" % record for record in records)
                self.make(text, "--ssrc", str(2**32 - 1), "--form", str(form.number))
                parts = [records[at : at + form.most] for at in range(0, count, form.most)]
                wanted = [writer.label(b"", 2**32 - 1, form.number), *(writer.arrivals(part, 2**32 - 1, form.number) for part in parts)]
                made = self.made.read_bytes()
                self.assertEqual(made, b"".join(wanted))
                blocks = [made[at : at + 512] for at in range(0, len(made), 512)]
                self.assertEqual([record for block in blocks[1:] for record in records_in(block, form)], records)

    def test_several_sources(self):
        rows = [(20 * n, n // 3, n % 4, (5, 4000000000, 17)[n % 3]) for n in range(400)]
        ran = self.make("time,number,mark,ssrc\n" + "".join("%d,%d,%d,%d\n" % row for row in rows))
        self.assertIn("3 sources", ran.stderr)
        self.assertIn("taken by ecnstreams" if STREAMS else "taken by ecntable for each source", ran.stderr)
        data = self.made.read_bytes()
        blocks = [data[at : at + 512] for at in range(512, len(data), 512)]
        for ssrc in (5, 17, 4000000000):
            found = [tuple(record) for block in blocks if header(block).ssrc == ssrc for record in records_in(block, FORMS[1])]
            self.assertEqual(found, [row[:3] for row in rows if row[3] == ssrc])

    def test_files_of_other_programs(self):
        """A byte order mark, each line break, and columns without a name."""
        made = set()
        text = "time,number,mark\n0,1,2\n"
        for each in (text, "\ufeff" + text.replace("\n", "\r\n"), text.replace("\n", "\r"), text.replace("\n", ",,\n")):
            self.make(each, "--ssrc", "1")
            made.add(self.made.read_bytes())
        self.assertEqual(len(made), 1)

    def test_outside_the_rules(self):
        head = "time,number,mark\n"
        for text, words, told in (
            (head + "0,1,2\n0,65536,2\n", ["--ssrc", "1"], "line 3: number '65536' is no whole number from 0 to 65535"),
            (head + "4294967296,1,2\n", ["--ssrc", "1"], "line 2: time '4294967296' is 2^32 ms (49 days) or more and has no place in form 1: add --form 2"),
            (head + "0,-1,2\n", ["--ssrc", "1"], "number '-1'"),
            (head + "0,1,4\n", ["--ssrc", "1"], "line 2: mark '4' is not 0 to 3"),
            (head + "0,1\n", ["--ssrc", "1"], "mark ''"),
            ("time,number\n", ["--ssrc", "1"], "no column mark"),
            ("", ["--ssrc", "1"], "no column time and no column number"),
            ("time:number:mark\n", ["--ssrc", "1"], "no column mark; commas, semicolons or tabs separate the columns"),
            ("SSRC,ssrc,Time," + head + "1,2,0,0,1,2\n", [], "line 1: more than one column time and more than one column ssrc"),
            (head + "0,5,1,2\n", ["--ssrc", "1"], "line 2: 1 more than the 3 fields of the head line"),
            ('time,number,mark,note\n0,1,2,"a\n1,2,2,b\n', ["--ssrc", "1"], "line 3: unexpected end of data"),
            (head + "0,1,2\n\udcff\n", ["--ssrc", "1"], "in.csv: this is no text in UTF-8"),
            (head, [], "give the source once"),
            ("ssrc," + head + "1,0,1,2\n", ["--ssrc", "1"], "give the source once"),
            ("ssrc," + head, [], "there are no arrivals"),
            (head, ["--ssrc", "1", "--label", "x" * 503], "the label has to be"),
            (head, ["--ssrc", "1", "--label", "sör"], "the label has to be"),
        ):
            self.csv.write_text(text, encoding="utf-8", errors="surrogateescape")
            options = self.parser.parse_args([str(self.csv), "-o", str(self.made), *words])
            with self.assertRaisesRegex(Ended, re.escape(told)) as ended:
                make.run(options)
            self.assertEqual(ended.exception.status, 1)
        self.assertIn(told, self.ecn("make", self.csv, "-o", self.made, *words, status=1).stderr)
        self.alone("in.csv")

    def test_retired_bytes(self):
        """One sentence says which byte of the label is retired; a byte outside the rules comes first."""
        for text, told in (
            ("ward 3\nbed 12", "its byte 7 is 10 (LF), and line breaks are retired; put a space there"),
            ("ward 3\r\nbed 12", "its byte 7 is 13 (CR), and"),
            ("\n", "its byte 1 is 10 (LF), and"),
            ("x" * 501 + "\r", "its byte 502 is 13 (CR), and"),
        ):
            ran = self.make("time,number,mark\n0,1,2\n", "--ssrc", "1", "--label", text, status=1)
            self.assertIn(f"ecn: the label is refused with 19: {told}", ran.stderr)
            self.assertEqual(ran.stderr.count("\n"), 1)
        for text in ("a\nb\tc", "\n" * 503):
            self.assertIn("the label has to be", self.make("time,number,mark\n", "--ssrc", "1", "--label", text, status=1).stderr)
        self.alone("in.csv")

    def test_labels_of_one_byte(self):
        """Printable ASCII is written, line breaks are retired, and any other byte is outside the rules."""
        for byte in range(1, 256):
            given = make.Writer(FORMS[1], os.fsdecode(bytes([byte])))
            if 32 <= byte <= 126:
                self.assertEqual(given.zeroth(7), label(bytes([byte])))
            else:
                told = "refused with 19: its byte 1 is" if byte in (10, 13) else "has to be 0 to 502 bytes"
                self.assertRaisesRegex(Ended, told, given.zeroth, 7)

    def test_failures(self):
        self.assertIn("missing: No such file", self.ecn("make", self.folder / "missing", "-o", self.made, "--ssrc", "1", status=2).stderr)
        self.csv.write_text("time,number,mark\n0,1,2\n")
        self.assertIn("No space left", self.ecn("make", self.csv, "-o", "/dev/full", "--ssrc", "1", status=2).stderr)
        self.assertIn("ecn: /proc/self/mem: ", self.ecn("make", "/proc/self/mem", "-o", self.made, "--ssrc", "1", status=2).stderr)
        limit = lambda: resource.setrlimit(resource.RLIMIT_FSIZE, (600, 600))  # noqa: E731
        self.assertIn("out.trace: File too large", self.ecn("make", self.csv, "-o", self.made, "--ssrc", "1", status=2, preexec_fn=limit).stderr)
        self.alone("in.csv")
        wrong = self.program("cat >/dev/null; printf 'refused 14 block 1\\r\\n'")
        self.assertIn("block 1 is refused with 14", self.ecn("make", self.csv, "-o", self.made, "--ssrc", "1", "--bin", wrong, status=1).stderr)
        self.alone("in.csv")


class Label(Tried):
    """ecn label: the copies are the program's, in place only when they are whole."""

    RETURNS, SPACED = SAMPLES / "returns.trace", SAMPLES / "spaced.trace"

    def test_copies(self):
        for form in FORMS:
            for text, spaced, told in (
                (b"a\r\nb", b"a  b", "2 bytes"), (b"\n", b" ", "1 byte"), (b"plain", b"plain", "0 bytes"), (b"", b"", "0 bytes"),
                (b"\r" * 502, b" " * 502, "502 bytes"),
            ):
                rest = [arrivals(form=form), arrivals(form=form, first=13)]
                ran = self.ecn("label", self.trace(label(text, form=form), *rest), "-o", self.out)
                self.assertEqual(self.out.read_bytes(), b"".join([label(spaced, form=form), *rest]))
                self.assertEqual((ran.stdout, ran.stderr), ("", f"ecn: {self.folder}/made.trace: {told} of the label replaced by spaces\n"))
        self.alone("made.trace", "out.csv")

    def test_samples(self):
        self.ecn("label", self.RETURNS, "-o", self.out)
        self.assertEqual(self.out.read_bytes(), self.SPACED.read_bytes())
        shutil.copy(self.out, self.folder / "again")
        self.assertIn("again: 0 bytes of the label", self.ecn("label", self.folder / "again", "-o", self.out).stderr)
        self.assertEqual(self.out.read_bytes(), self.SPACED.read_bytes())

    def test_refused_block(self):
        self.out.write_text("as it was")
        for given, told in (
            (SAMPLES / "damaged.trace", r"damaged\.trace: block 5 is refused with 13"),
            (self.trace(label(b"\n"), arrivals(ssrc=8)), r"made\.trace: block 1 is refused with 14"),
            (TOP / "README.md", "block 0 is refused with 13.*probably this is no trace"),
            (os.devnull, "block 0 is refused with 1:"),
        ):
            ran = self.ecn("label", given, "-o", self.out, status=1)
            self.assertRegex(ran.stderr, told)
            self.assertEqual((self.out.read_text(), ran.stderr.count("\n")), ("as it was", 1))
        self.alone("made.trace", "out.csv")

    def test_failed_read_and_write(self):
        self.out.write_text("as it was")
        ran = self.ecn("label", self.folder, "-o", self.out, status=2)
        self.assertIn("block 0: ecnlabel: reading standard input: Is a directory", ran.stderr)
        self.assertIn("missing: No such file", self.ecn("label", self.folder / "missing", "-o", self.out, status=2).stderr)
        limit = lambda: resource.setrlimit(resource.RLIMIT_FSIZE, (1000, 1000))  # noqa: E731
        ran = self.ecn("label", SAMPLES / "long.trace", "-o", self.out, status=2, preexec_fn=limit)
        self.assertIn("long.trace: ecnlabel: writing standard output: File too large", ran.stderr)
        self.assertIn("/dev/full: No space left", self.ecn("label", self.RETURNS, "-o", "/dev/full", status=2).stderr)
        self.assertEqual(self.out.read_text(), "as it was")
        self.alone("out.csv")

    def test_a_copy_that_is_not_whole(self):
        """A program that ends early, says nothing, copies too little, or is not there."""
        sample = shlex.quote(str(self.SPACED))
        for text, told in (
            ("kill -9 $$", "ended by signal 9"),
            ("exit 3", "ended with status 3"),
            (f"cat >/dev/null; cat {sample}", "ecnlabel reported no number of bytes"),
            (f"cat >/dev/null; head -c 1024 {sample}; printf '3\\r\\n' >&2", "1024 of 1536 bytes; the copy is not whole"),
            (f"cat >/dev/null; cat {sample}; printf '3\\r\\nx\\n' >&2", "returns.trace: 3"),
        ):
            ran = self.ecn("label", self.RETURNS, "-o", self.out, "--bin", self.program(text, "ecnlabel"), status=2)
            self.assertIn(told, ran.stderr)
        self.assertIn("ecnlabel is not found in", self.ecn("label", self.RETURNS, "-o", self.out, "--bin", self.folder, status=2).stderr)
        self.alone()

    def test_several_traces(self):
        given = [self.RETURNS, SAMPLES / "c1.trace", SAMPLES / "weeks.trace"]
        ran = self.ecn("label", *given, "-o", self.folder / "copies", "-j", "3")
        for each, wanted in zip(given, [self.SPACED, *given[1:]]):
            self.assertEqual((self.folder / "copies" / each.name).read_bytes(), wanted.read_bytes())
        self.assertEqual((len(os.listdir(self.folder / "copies")), ran.stderr.count("of the label")), (3, 3))
        self.ecn("label", SAMPLES / "damaged.trace", *given, "-o", self.folder / "others/", status=1)
        self.assertEqual(sorted(os.listdir(self.folder / "others")), sorted(each.name for each in given))

    def test_an_input_is_never_an_output(self):
        path = self.trace(label(b"\n"), arrivals())
        for words in ([path, "-o", path], [path, SAMPLES / "c1.trace", "-o", self.folder]):
            self.assertIn("made.trace is given as input and as output", self.ecn("label", *words, status=2).stderr)
        self.assertEqual(path.read_bytes(), label(b"\n") + arrivals())
        ran = self.ecn("label", self.RETURNS, self.RETURNS, "-o", self.folder / "t", status=2)
        self.assertIn("would both have the copy", ran.stderr)
        ran = self.ecn("label", self.RETURNS, self.SPACED, "-o", "-", status=2)
        self.assertIn("several traces need a folder for their copies, and standard output is none", ran.stderr)

    def test_pipes(self):
        for out in ("-", "/dev/stdout"):
            with open(self.RETURNS, "rb") as trace:
                words = [sys.executable, "-S", ECN, "label", "-", "-o", out]
                ran = subprocess.run(words, env=OURS, stdin=trace, capture_output=True, timeout=LONG)
            self.assertEqual((ran.returncode, ran.stdout), (0, self.SPACED.read_bytes()))
            self.assertEqual(ran.stderr, b"ecn: standard input: 3 bytes of the label replaced by spaces\n")


class Salvage(Tried):
    """ecn salvage: what is left is put in place, and what was left out is listed."""

    DAMAGED, SALVAGED = SAMPLES / "damaged.trace", SAMPLES / "salvaged.trace"
    LISTED = """    block  refused with
    5      13  the block's checksum does not fit
    9      1   the input is empty, or ends in the middle of a block or a header
"""

    def salvaged(self, path, status, counts, out=None, **kept) -> str:
        """What is listed behind the counts."""
        ran = self.ecn("salvage", path, "-o", out or self.out, status=status, **kept)
        first, _, listed = ran.stderr.partition("\n")
        self.assertEqual((first, ran.stdout), (f"ecn: {path}: {counts}", ""))
        return listed

    def test_sound_traces(self):
        """They come out byte for byte, of either form and with retired bytes in the label."""
        for name in ("c1", "long", "reboot", "returns", "weeks"):
            path = SAMPLES / f"{name}.trace"
            count = path.stat().st_size // 512
            self.assertEqual(self.salvaged(path, 0, f"{count} blocks copied, 0 left out"), "")
            self.assertEqual(self.out.read_bytes(), path.read_bytes())
        self.assertEqual(self.salvaged(self.trace(label()), 0, "1 block copied, 0 left out"), "")
        self.alone("made.trace", "out.csv")

    def test_sample(self):
        self.assertEqual(self.salvaged(self.DAMAGED, 1, "8 blocks copied, 2 left out"), self.LISTED)
        self.assertEqual(self.out.read_bytes(), self.SALVAGED.read_bytes())
        self.ecn("table", self.out, "-o", self.folder / "table.csv")
        self.assertEqual((self.folder / "table.csv").read_bytes(), (SAMPLES / "salvaged.csv").read_bytes())

    def test_stretches(self):
        """Blocks that follow each other with one refusal have one line; each number stands in the list once, in order."""
        kinds = {" ": arrivals(), "3": arrivals()[:-1] + b"\0", "4": arrivals(ssrc=8), "2": arrivals(form=2), "l": label(), "z": b"\0" * 512}
        for places, listed in (
            (" 3 ", ["2", "13"]),
            ("33 334 l2z", ["1 to 2", "13", "4 to 5", "13", "6", "14", "8 to 9", "14", "10", "13"]),
            ("z" * 120 + " ", ["1 to 120", "13"]),
            ("3" + " " * 999 + "34", ["1", "13", "1001", "13", "1002", "14"]),
        ):
            path, sound = self.trace(label(), *(kinds[each] for each in places)), places.count(" ")
            lines = self.salvaged(path, 1, f"{1 + sound:,} blocks copied, {len(places) - sound:,} left out").splitlines()
            self.assertEqual([word for line in lines[1:] for word in re.split("  +", line.strip())[:2]], listed)
            self.assertEqual(self.out.read_bytes(), b"".join([label(), *[kinds[" "]] * sound]))

    def test_wrong_label(self):
        """There is no copy, and what stood there stays."""
        self.out.write_text("as it was")
        for blocks, number in (([b"\0" * 512, arrivals()], 13), ([arrivals(), arrivals()], 14), ([label()[:300]], 1), ([], 1)):
            ran = self.ecn("salvage", self.trace(*blocks), "-o", self.out, status=1)
            self.assertRegex(ran.stderr, rf"^ecn: .*made\.trace: block 0 is refused with {number}: .*; without a sound label block nothing is copied\n$")
        self.assertEqual(self.out.read_text(), "as it was")
        self.alone("made.trace", "out.csv")

    @needs_library
    def test_a_new_label(self):
        """README's way if the label block itself is damaged: one that ecn make wrote, in front of the rest."""
        rest = [arrivals(), arrivals(first=13)[:-1] + b"\0", arrivals(first=16)]
        path, new = self.trace(b"\0" * 512, *rest), self.folder / "label.trace"
        self.ecn("make", "-", "--ssrc", "7", "--label", "ward 3", "-o", new, input="time,number,mark\n", library=True)
        joined = self.trace(new.read_bytes(), path.read_bytes()[512:], name="joined.trace")
        self.assertIn("    2      13", self.salvaged(joined, 1, "3 blocks copied, 1 left out"))
        self.assertEqual(self.out.read_bytes(), b"".join([label(b"ward 3"), rest[0], rest[2]]))

    def test_failed_read_and_write(self):
        self.out.write_text("as it was")
        ran = self.ecn("salvage", self.folder, "-o", self.out, status=2)
        self.assertIn("block 0: ecnsalvage: reading standard input: Is a directory", ran.stderr)
        self.assertNotIn("dd bs=512", ran.stderr)
        self.assertIn("missing: No such file", self.ecn("salvage", self.folder / "missing", "-o", self.out, status=2).stderr)
        limit = lambda: resource.setrlimit(resource.RLIMIT_FSIZE, (1000, 1000))  # noqa: E731
        ran = self.ecn("salvage", SAMPLES / "long.trace", "-o", self.out, status=2, preexec_fn=limit)
        self.assertIn("long.trace: ecnsalvage: writing standard output: File too large", ran.stderr)
        self.assertIn("/dev/full: No space left", self.ecn("salvage", self.DAMAGED, "-o", "/dev/full", status=2).stderr)
        self.assertEqual(self.out.read_text(), "as it was")
        self.alone("out.csv")

    def test_a_stick_with_read_errors(self):
        """Nothing is put in place, and the way out is said. A program stands in for one whose read fails."""
        lines = "refused 13 block 4\\r\\nrefused 1 block 9\\r\\necnsalvage: reading standard input: Input/output error\\n"
        failing = self.program(f"cat; printf '{lines}' >&2", "ecnsalvage")
        ran = self.ecn("salvage", self.SALVAGED, "-o", self.out, "--bin", failing, status=2)
        self.assertIn("salvaged.trace, block 9: ecnsalvage: reading standard input: Input/output error; copy it first with dd bs=512", ran.stderr)
        self.alone()

    def test_a_copy_that_is_not_whole(self):
        sample = shlex.quote(str(self.SALVAGED))
        for text, told in (
            ("kill -9 $$", "ended by signal 9"),
            ("exit 3", "ended with status 3"),
            (f"cat >/dev/null; cat {sample}", "4096 bytes copied and 0 blocks listed for 4908 bytes; the copy is not whole"),
            (f"cat >/dev/null; cat {sample}; printf 'refused 13 block 5\\r\\n' >&2", "4096 bytes copied and 1 block listed"),
            (f"cat >/dev/null; head -c 1000 {sample}; printf 'refused 13 block 5\\r\\n' >&2", "1000 bytes copied"),
        ):
            ran = self.ecn("salvage", self.DAMAGED, "-o", self.out, "--bin", self.program(text, "ecnsalvage"), status=2)
            self.assertIn(told, ran.stderr)
        self.assertIn("ecnsalvage is not found in", self.ecn("salvage", self.DAMAGED, "-o", self.out, "--bin", self.folder, status=2).stderr)
        self.alone()

    def test_several_traces(self):
        """Those with something left out are in place too; the highest status counts."""
        given, out = [self.DAMAGED, SAMPLES / "c1.trace", SAMPLES / "weeks.trace"], self.folder / "saved"
        ran = self.ecn("salvage", *given, "-o", out, "-j", "3", status=1)
        for each, wanted in zip(given, [self.SALVAGED, *given[1:]]):
            self.assertEqual((out / each.name).read_bytes(), wanted.read_bytes())
        self.assertIn(self.LISTED, ran.stderr)
        self.ecn("salvage", *given[1:], "-o", self.folder / "others/")
        ran = self.ecn("salvage", TOP / "README.md", self.folder / "missing", *given, "-o", self.folder / "more/", status=2)
        self.assertEqual(sorted(os.listdir(self.folder / "more")), sorted(each.name for each in given))

    def test_pipes(self):
        with open(self.DAMAGED, "rb") as trace, subprocess.Popen(["cat"], stdin=trace, stdout=subprocess.PIPE) as cat:
            words = [sys.executable, "-S", ECN, "salvage", "-", "-o", "-"]
            ran = subprocess.run(words, env=OURS, stdin=cat.stdout, capture_output=True, timeout=LONG)
        self.assertEqual((ran.returncode, ran.stdout), (1, self.SALVAGED.read_bytes()))
        self.assertEqual(ran.stderr.decode(), "ecn: standard input: 8 blocks copied, 2 left out\n" + self.LISTED)

    def test_an_input_is_never_an_output(self):
        path = self.trace(label(), arrivals(), b"\0" * 512)
        before = path.read_bytes()
        self.assertIn("made.trace is given as input and as output", self.ecn("salvage", path, "-o", path, status=2).stderr)
        self.assertEqual(path.read_bytes(), before)


OFFER = """v=0\r
o=jdoe 3502844782 3502844782 IN IP4 10.0.1.4\r
s=VoIP call\r
i=SDP offer for VoIP call with ICE and ECN for RTP\r
t=0 0\r
m=audio 45664 RTP/AVPF 97\r
a=rtpmap:97 AMR/8000\r
{line}\r
a=rtcp-fb:* nack ecn\r
"""


@needs_library
class Answers(Tried):
    OURS = "a=ecn-capable-rtp: ice,rtp mode=setread; ect=0"

    def answered(self, text, *words, ours=OURS, status=0, told="") -> bytes:
        """What is printed for an offer on standard input, and what is told."""
        words = [sys.executable, "-S", ECN, "answer", "--ours", ours, *words]
        data = text if isinstance(text, bytes) else text.encode()
        ran = subprocess.run(words, env=OURS | {"FLASKNIB_LIBRARY": str(SHARED)}, input=data, capture_output=True, timeout=LONG)
        self.assertEqual((ran.returncode, ran.stderr.decode()), (status, told))
        return ran.stdout

    def test_one_line(self):
        answer = b"a=ecn-capable-rtp: ice mode=setread; ect=0\r\n"
        for end in ("", "\n", "\r\n"):
            self.assertEqual(self.answered(f"a=ecn-capable-rtp: leap,rtp,ice{end}"), answer)
        self.assertEqual(self.answered("A=ECN-Capable-RTP: X,RTP x=1\n"), b"a=ecn-capable-rtp: rtp mode=setread; ect=0\r\n")
        self.assertEqual(self.answered("a=ecn-capable-rtp: ice", ours="a=ecn-capable-rtp: ICE"), b"a=ecn-capable-rtp: ice\r\n")

    def test_offers_of_the_rfc(self):
        """RFC 6679's offers: 12.2's line is answered, 12.1's breaks the grammar. From a file, and from standard input."""
        sound = OFFER.format(line="a=ecn-capable-rtp: ice,rtp ect=0; mode=setread")
        self.assertEqual(self.answered(sound, ours="a=ecn-capable-rtp: rtp mode=readonly"), b"a=ecn-capable-rtp: rtp mode=readonly\r\n")
        offer = self.folder / "offer.sdp"
        offer.write_text(sound.replace("\r", ""))
        self.assertEqual(self.answered("", offer), b"a=ecn-capable-rtp: ice mode=setread; ect=0\r\n")
        for line in ("a=ecn-capable-rtp: ice rtp ect=0 mode=setread", "a=ecn-capable-rtp: ice ect=0 mode=readonly"):
            self.assertEqual(self.answered(OFFER.format(line=line), status=1, told="refused 18 line 8\n"), b"")

    def test_left_out(self):
        self.assertEqual(self.answered("\na=ecn-capable-rtp: leap\n", told="left out line 2\n"), b"")
        one_way = "a=ecn-capable-rtp: ice mode=setonly"
        self.assertEqual(self.answered(one_way, ours=one_way, told="left out line 1\n"), b"")
        self.assertEqual(self.answered(one_way, ours="a=ecn-capable-rtp: x", told="left out line 1\n"), b"")

    def test_several_lines(self):
        """Each is answered by itself; lines of other names are passed over, the name without its colon is not."""
        lines = ("a=ecn-capable-rtp: rtp", "a=ecn-capable-rtpx: rtp", "a=ecn-capable-rtp", " a=ecn-capable-rtp: ice", "a=ecn-capable-rtp: " + "x" * 240,
                 "a=ecn-capable-rtp: leap", "a=ecn-capable-rtp: rtp,ice")
        told = "refused 18 line 3\nrefused 10 line 5\nleft out line 6\n"
        printed = b"a=ecn-capable-rtp: rtp mode=setread; ect=0\r\na=ecn-capable-rtp: ice mode=setread; ect=0\r\n"
        self.assertEqual(self.answered("\r\n".join(lines), status=1, told=told), printed)

    def test_bytes(self):
        """What is no text is handed on as it is: NUL, CR and damaged UTF-8 are refused, and sound UTF-8 in a string is passed over."""
        for middle, number in ((b"\0", 18), (b"\r", 18), (b"\xed\xa0\x80", 18), ("é".encode(), 0)):
            line = b'a=ecn-capable-rtp: ice x="' + middle + b'"\n'
            told = f"refused {number} line 1\n" if number else ""
            self.assertEqual(self.answered(line, status=int(number > 0), told=told) == b"", number > 0)

    def test_utf8(self):
        """In a string just those bytes are taken that Python's decoder takes."""
        import flasknib

        behind, words = (b"", b"\x80", b"\xbf\xbf", b"\x80\x80\x80", b"\xc0"), (ctypes.c_uint64 * 11)()
        for first in range(0x80, 0x100):
            for second in range(0x70, 0xD0):
                for more in behind:
                    text = bytes((first, second)) + more
                    try:
                        sound = "\x7f" not in text.decode()
                    except UnicodeDecodeError:
                        sound = False
                    line = b'a=ecn-capable-rtp: rtp x="' + text + b'"'
                    found = flasknib.header.read_attribute(line, words)
                    self.assertEqual(found, 0 if sound else 18, text)

    def test_refused(self):
        self.assertEqual(self.answered("a=ecn-capable-rtp: ice", ours="ice,rtp", status=1, told="ecn: --ours is refused with 18\n"), b"")
        many = "a=ecn-capable-rtp: " + ",".join(["ice"] * 9)
        self.assertEqual(self.answered("a=ecn-capable-rtp: ice", ours=many, status=1, told="ecn: --ours is refused with 10\n"), b"")
        self.assertEqual(self.answered("v=0\r\n", status=1, told="ecn: standard input has no line a=ecn-capable-rtp\n"), b"")

    def test_failures(self):
        self.assertIn("missing: No such file", self.ecn("answer", "--ours", self.OURS, self.folder / "missing", status=2, library=True).stderr)
        self.assertIn("the library libflasknib.so is not there", self.ecn("answer", "--ours", self.OURS, input="", status=2).stderr)
        self.assertIn("cannot be used", self.ecn("answer", "--ours", self.OURS, input="", status=2, env={"FLASKNIB_LIBRARY": "/dev/null"}).stderr)
        self.assertIn("--ours", self.ecn("answer", input="", status=2, library=True).stderr)


class Pages(Tried):
    def code(self, page: str, heading: str) -> list:
        """The indented parts below a heading of a page."""
        part = re.split(r"^#+ ", (TOP / "docs" / page).read_text().partition(f"# {heading}\n")[2], maxsplit=1, flags=re.M)[0]
        return [re.sub(r"^    ", "", each, flags=re.M) for each in re.findall(r"(?:^(?:    .*)?\n)+", part, flags=re.M) if each.strip()]

    def test_worked_trace(self):
        """The bytes of TRACE.md are the sample, in both forms, and the table beside them is the program's."""
        first, second, table = self.code("TRACE.md", "A trace worked through")
        for dump, wanted in ((first, 1), (second, 2)):
            data = bytearray(1024)
            for line in dump.split("\n"):
                if at := re.match(r"([0-9a-f]{8}): ((?:[0-9a-f]{4} ){8})", line):
                    data[int(at[1], 16) : int(at[1], 16) + 16] = bytes.fromhex(at[2])
            self.assertEqual(header(data).kind, 2 * wanted - 1)
            printed = subprocess.run([BIN / "ecntable"], input=data, capture_output=True).stdout
            self.assertEqual(printed.decode().replace("\r\n", "\n"), table.strip() + "\n")
            if wanted == 1:
                self.assertEqual(data, (SAMPLES / "c1.trace").read_bytes())

    def test_worked_check(self):
        names: dict = {}
        exec(self.code("TRACE.md", "The check")[0], names)
        data = (SAMPLES / "c1.trace").read_bytes()[512:]
        self.assertEqual(names["block"](2, 5, 1, data[8:48]), data)
        page = (TOP / "docs/TRACE.md").read_text()
        words, total = re.search(r"add up to\s+`([0-9a-f +]+)` = `([0-9a-f]+)`", page).groups()
        self.assertEqual(sum(int(word, 16) for word in words.split(" + ")), int(total, 16))
        self.assertEqual(words.split(" + "), [data[at : at + 2].hex() for at in range(0, 510, 2) if any(data[at : at + 2])])

    def test_what_a_block_brought(self):
        (code,) = self.code("TABLE.md", "What one block brought")
        with open(SAMPLES / "reboot.csv", newline="") as table:
            names: dict = {"rows": list(csv.DictReader(table)), "found": []}
        exec(code.replace("    before = row", "    before = row\n    found.append(brought | {'jumped': jumps})"), names)
        drawn = plotrows.read(str(SAMPLES / "reboot.csv")).bars(9, False)
        self.assertEqual(len(names["found"]), len(drawn))
        for found, bar in zip(names["found"], drawn):
            self.assertEqual(found | bar.counts, found | {"restarts": bar.counts["restarts"]})


def main(names: list, module: str = __name__, what: str = "tools/ecn and its pages") -> int:
    while os.open(os.devnull, os.O_RDWR) < 2:
        pass  # where a standard stream is closed, no other file takes its number
    loader, own = unittest.defaultTestLoader, sys.modules[module]
    suite = loader.loadTestsFromNames(names, own) if names else loader.loadTestsFromModule(own)
    result = unittest.TextTestRunner(stream=io.StringIO()).run(suite)
    wrong = result.failures + result.errors
    for test, why in wrong:
        print(f"tools: FAILED, {test.id()}: {why}")
    for test, why in result.skipped:
        print(f"tools: {test.id()} skipped: {why}")
    library, streams = "with and without the library" if LIBRARY else "without the library", "ecnstreams" if STREAMS else "no ecnstreams"
    print(f"tools: {result.testsRun} tests of {what}, {library}, {streams}")
    print(f"{result.testsRun - len(wrong) - len(result.skipped)} passed, {len(wrong)} failed")
    return 1 if wrong else 0


if __name__ == "__main__":
    sys.exit(main(sys.argv[1:]))
