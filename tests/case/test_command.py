"""The command line: help, version, standard input, files written whole or not at all, outputs that cannot be written,
files that cannot be read, an older Python."""

import ast
import fcntl
import io
import os
import pty
import resource
import runpy
import signal
import stat
import subprocess
import sys
import termios
import time
from contextlib import redirect_stderr
from unittest import mock

from tool import CASE_7, CASES, PRICES, SOURCE, SOURCE_LIST, TOOL, ToolTest, giqapsun, list_text, unit

MAKE = ("make", str(CASES / "case7.toml"), str(CASES / "case7.csv"))

# a row of prices of the source's day
ROW = CASES / "source.csv"

# each command, with a file to follow
READING = (
    ("show",), ("best",), ("make", "u.toml"), ("check", "d.case"), ("better", "d.case", "l.csv"),
    ("best", "d.case", "--first", "0", "--calendar"), ("best", "d.case", "--curve"), ("curve",),
    ("forecast", "d.case", "p.csv"), ("forecast", "d.case", "p.csv", "p.csv", "--curve"),
)


class Words(ToolTest):
    """What the command line may say."""

    def test_by_itself(self):
        """The tool is a program, from any folder."""
        self.assertEqual(self.run_alone(*MAKE), (0, CASE_7, ""))
        fault = "case: none.toml: No such file or directory\n"
        self.assertEqual(self.run_alone("make", "none.toml", MAKE[2]), (2, b"", fault))

    def test_mistakes(self):
        for words in (
            [], ["make"], ["make", "u.toml"], ["best"], ["draw", "d.case"], ["check", "d.case"], ["check", "-", "-"],
            ["make", "-", "-"], ["show", "d.case", "--json", "--csv"], ["show", "d.case", "--json", "--toml", "u.toml"],
            ["better"], ["better", "d.case", "a.csv"], ["better", "d.case", "-", "-"], ["better", "-", "a.csv", "-"],
            ["better", "d.case", "a.csv", "b.csv", "c.csv"], ["better", "d.case", "a.csv", "b.csv", "--json", "--csv"],
            ["best", "-", "--calendar", "-", "--first", "0"], ["curve"], ["best", "-", "--curve", "-"],
            ["check", "d.case", "-", "--curve", "-"], ["best", "d.case", "--calendar", "y.csv", "--curve", "c.toml"],
            ["forecast"], ["forecast", "d.case", "f.csv"], ["forecast", "d.case", "f.csv", "a.csv", "b.csv"],
            ["forecast", "-", "f.csv", "-"], ["forecast", "d.case", "f.csv", "a.csv", "--json", "--csv"],
            ["forecast", "d.case", "f.csv", "a.csv", "--calendar", "y.csv"],
        ):
            status, printed, message = self.run_tool(*words)
            self.assertEqual((status, printed), (2, b""))
            self.assertIn("usage: case", message)

    def test_version(self):
        self.assertEqual(self.run_tool("--version"), (0, f"case {giqapsun.__version__}\n".encode(), ""))

    def test_help(self):
        for words in ((), ("make",), ("show",), ("best",), ("check",), ("better",), ("forecast",), ("curve",)):
            text = " ".join(self.answered(*words, "--help").decode().split())
            self.assertIn("Exit status: 0 done, and for check and better: a list passes; 1 no list passes", text)
            self.assertIn("2 refused, bad input", text)

    def test_standard_input(self):
        self.file("u.toml", unit())
        self.file("p.csv", PRICES)
        for words, given in [(("make", "-", "p.csv"), unit()), (("make", "u.toml", "-"), PRICES)]:
            self.assertEqual(self.run_tool(*words, given=given.encode()), (0, CASE_7, ""))
        answer = self.run_tool("make", "u.toml", "-", given=b"hour,price_mills\n2,5\n")
        self.assertEqual(answer, (2, b"", "case: standard input:2: hour: '2' where hour 1 was expected\n"))
        done = subprocess.run(
            ["bash", "-c", f"{TOOL} show - <&-"], cwd=self.folder, capture_output=True, check=False
        )
        self.assertEqual((done.returncode, done.stderr), (2, b"case: standard input: it is closed\n"))


class Inputs(ToolTest):
    """Files that cannot be read, or are none of the kind."""

    def test_each(self):
        (self.folder / "folder").mkdir()
        self.file("d.case", CASE_7)
        os.symlink("nowhere", self.folder / "dangling")
        self.file("u.toml", unit())
        self.file("p.csv", PRICES)
        self.file("l.csv", list_text([2, 1, 0]))
        for words in READING:
            self.at_fault("folder: Is a directory", *words, "folder")
            self.at_fault("dangling: No such file or directory", *words, "dangling")
            self.at_fault("/dev/zero: more than 1,048,576 bytes, too long for an input", *words, "/dev/zero")
            self.at_fault("a\0b: embedded null byte", *words, "a\0b")
        self.at_fault("/proc/self/mem: Input/output error", "show", "/proc/self/mem")

    def test_garbage(self):
        garbage = bytes((37 * i * i + 11) % 256 for i in range(500))
        self.file("d.case", CASE_7)
        self.file("u.toml", unit())
        self.file("p.csv", PRICES)
        self.file("l.csv", list_text([2, 1, 0]))
        for words in READING:
            for data in (garbage, b"\0" * 100, b"\n\n\n", b"", SOURCE):
                status, printed, message = self.run_tool(*words, self.file("garbage", data))
                if words in (("show",), ("best",)) and data is SOURCE:
                    continue
                self.assertEqual((status, printed), (2, b""))
                self.assertRegex(message, r"\A(case: .*\n)+\Z")


class Outputs(ToolTest):
    """Files that are written whole or not at all."""

    def test_file(self):
        self.assertEqual(self.run_tool(*MAKE, "-o", "d.case"), (0, b"", ""))
        self.assertEqual((self.folder / "d.case").read_bytes(), CASE_7)
        self.assertEqual(os.listdir(self.folder), ["d.case"])

    def test_mode(self):
        """A new file is as any new file; one that stood there keeps its mode."""
        before = os.umask(0o027)
        try:
            self.answered(*MAKE, "-o", "d.case")
            self.assertEqual(stat.S_IMODE(os.stat(self.folder / "d.case").st_mode), 0o640)
            os.chmod(self.folder / "d.case", 0o606)
            self.answered(*MAKE, "-o", "d.case")
            self.assertEqual(stat.S_IMODE(os.stat(self.folder / "d.case").st_mode), 0o606)
        finally:
            os.umask(before)

    def test_link(self):
        """A link stays one, and what it names is written."""
        (self.folder / "folder").mkdir()
        self.file("folder/old.case", b"old")
        os.symlink("folder/old.case", self.folder / "d.case")
        self.answered(*MAKE, "-o", "d.case")
        self.assertTrue((self.folder / "d.case").is_symlink())
        self.assertEqual((self.folder / "folder/old.case").read_bytes(), CASE_7)

    def test_places_that_are_none(self):
        (self.folder / "folder").mkdir()
        self.at_fault("folder: Is a directory", *MAKE, "-o", "folder")
        self.at_fault("none/d.case: No such file or directory", *MAKE, "-o", "none/d.case")
        self.at_fault("output: '-' is no file to write; name one", *MAKE, "-o", "-")
        self.at_fault("'': No such file or directory", *MAKE, "-o", "")
        self.at_fault("none/: No such file or directory", *MAKE, "-o", "none/")
        os.symlink("loop", self.folder / "loop")
        self.at_fault("loop: Too many levels of symbolic links", *MAKE, "-o", "loop")
        self.assertEqual(sorted(os.listdir(self.folder)), ["folder", "loop"])

    def test_terminal(self):
        """Bytes are not printed to a terminal."""
        terminal, end = pty.openpty()
        done = subprocess.run([TOOL, *MAKE], stdout=end, stderr=subprocess.PIPE, check=False)
        os.close(end)
        os.close(terminal)
        message = b"case: standard output: a case is bytes, not text for a terminal; name a file with -o\n"
        self.assertEqual((done.returncode, done.stderr), (2, message))

    def test_pipe_and_device(self):
        """A pipe or a device is written as it is, and stays one. The pipe goes first: a tool that puts a file in its
        stead never gets to the device."""
        pipe = self.folder / "pipe"
        os.mkfifo(pipe)
        read = os.open(pipe, os.O_RDONLY | os.O_NONBLOCK)
        self.answered(*MAKE, "-o", "pipe")
        self.assertEqual(os.read(read, 1000), CASE_7)
        os.close(read)
        self.assertTrue(pipe.is_fifo())
        self.at_fault("/dev/full: No space left on device", *MAKE, "-o", "/dev/full")

    def test_refused(self):
        """A case that is refused leaves what stood there."""
        self.file("d.case", b"old")
        self.file("u.toml", unit(rampup="0"))
        status, _, _ = self.run_tool("make", "u.toml", MAKE[2], "-o", "d.case")
        self.assertEqual((status, (self.folder / "d.case").read_bytes()), (2, b"old"))

    def test_full_disk(self):
        """A file that does not fit leaves what stood there, and no part of itself."""

        def short():
            resource.setrlimit(resource.RLIMIT_FSIZE, (40, 40))

        self.file("d.case", b"old")
        answer = self.run_alone(*MAKE, "-o", "d.case", preexec_fn=short)
        self.assertEqual(answer, (2, b"", "case: d.case: File too large\n"))
        self.assertEqual((self.folder / "d.case").read_bytes(), b"old")
        self.assertEqual(os.listdir(self.folder), ["d.case"])


class StandardOutput(ToolTest):
    """A reader that has gone, a full disk, no output at all: no more than a line is said."""

    def shell(self, command):
        """Status and standard error of a shell's command line; CASE is the tool."""
        words = ["bash", "-c", command.replace("CASE", str(TOOL))]
        done = subprocess.run(words, cwd=self.folder, stdout=subprocess.PIPE, stderr=subprocess.PIPE, check=False)
        return done.returncode, done.stderr.decode()

    def test_closed_pipe(self):
        self.file("d.case", SOURCE)
        self.file("l.csv", list_text(SOURCE_LIST))
        for words in (
            "show d.case", "show d.case --json", "best d.case", f"make {MAKE[1]} {MAKE[2]}", "check d.case l.csv",
            "better d.case l.csv l.csv", "better d.case l.csv l.csv --json", f"forecast d.case {ROW} {ROW}",
        ):
            command = f"(sleep 0.1; CASE {words}; echo $? >status) | true"
            self.assertEqual(self.shell(command), (0, ""))
            self.assertEqual((self.folder / "status").read_text(), "141\n")
        self.assertEqual(self.shell("CASE show d.case | head -1"), (0, ""))

    def test_full_disk(self):
        self.file("d.case", SOURCE)
        self.file("l.csv", list_text(SOURCE_LIST))
        full = (2, "case: standard output: No space left on device\n")
        for words in (
            "show d.case", "best d.case --csv", f"make {MAKE[1]} {MAKE[2]}", "better d.case l.csv l.csv",
            f"forecast d.case {ROW} {ROW} --json", "--help", "--version",
        ):
            self.assertEqual(self.shell(f"CASE {words} >/dev/full"), full)
        self.assertEqual(self.shell("CASE show none 2>/dev/full"), (2, ""))

    def test_none(self):
        """Outputs that are closed."""
        self.file("d.case", SOURCE)
        self.file("l.csv", list_text(SOURCE_LIST))
        for words in ("show d.case", "better d.case l.csv l.csv --csv"):
            self.assertEqual(self.shell(f"CASE {words} >&-"), (2, "case: standard output: it is closed\n"))
        self.assertEqual(self.shell("CASE show none 2>&-"), (2, ""))

    def test_interrupted(self):
        """An interrupt while standard input is waited for ends the tool quietly."""
        read, write = os.pipe()
        os.write(write, CASE_7[:10])
        started = subprocess.Popen(
            [TOOL, "show", "-"],
            stdin=read,
            stdout=subprocess.PIPE,
            stderr=subprocess.PIPE,
            cwd=self.folder,
            # a shell has what it runs in the background ignore interrupts
            preexec_fn=lambda: signal.signal(signal.SIGINT, signal.SIG_DFL),
        )
        while _unread(read) and started.poll() is None:
            time.sleep(0.01)
        started.send_signal(signal.SIGINT)
        printed, message = started.communicate(timeout=60)
        os.close(read)
        os.close(write)
        self.assertEqual((started.returncode, printed, message), (130, b"", b""))


def _unread(pipe):
    """The bytes of a pipe that are still to be read."""
    return int.from_bytes(fcntl.ioctl(pipe, termios.FIONREAD, bytes(4)), sys.byteorder)


class OlderPython(ToolTest):
    """The entry says which Python is needed."""

    def test_said(self):
        message = io.StringIO()
        with mock.patch.object(sys, "version_info", (3, 8, 0)), redirect_stderr(message):
            with self.assertRaises(SystemExit) as caught:
                runpy.run_path(str(TOOL), run_name="__main__")
        self.assertEqual(caught.exception.code, 2)
        self.assertEqual(message.getvalue(), "case: Python 3.11 or later is needed; this is 3.8\n")

    def test_parsed(self):
        """The entry has no form that an old Python cannot read."""
        ast.parse(TOOL.read_text(), feature_version=(3, 4))
        self.assertNotIn('f"', TOOL.read_text())
