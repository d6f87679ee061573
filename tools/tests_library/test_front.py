"""What a new user stumbled over, each a test: these are in the gate. More of the command is in test_command.py.

`fit no` with its reasons is in test_fit.py, events with their offers in test_run.py, the README's calls in C in
tools/test_package.py, both editions of Rust in tools/tests_install.
"""

from common import ROOT, SHEET, WORKED, CommandTest, call

from wisavulome.cli import COMMANDS


class FirstTry(CommandTest):
    def test_sheet_alone(self):
        """A sheet alone can be judged; as a plan it is refused with the reason."""
        self.assertEqual(call("fit", self.file("s", SHEET))[0], 0)
        status, out, err = call("run", self.file("s", SHEET))
        self.assertEqual((status, out), (2, ""))
        self.assertTrue(err.startswith(f"wisavulome: {self.folder / 's'}: refused 9: this is a sheet alone"), err)

    def test_help(self):
        for words in [["--help"], *([name, "--help"] for name in COMMANDS)]:
            status, out, err = call(*words)
            self.assertEqual((status, err), (0, ""), words)
            self.assertIn("usage: wisavulome", out)
            self.assertTrue(len(words) == 1 or "Exit status: 0" in out, words)

    def test_not_readable(self):
        """A file name, a directory, a closed input: each is said, and none is a refused plan."""
        for name in ["run", "audit", "sweep", "write", "draw", "capture", "wave"]:
            for path, why in [(self.folder, "Is a directory"), (self.folder / "none", "No such file or directory")]:
                more = ["--as", "text"] if name == "write" else []
                status, out, err = call(name, path, *more)
                self.assertEqual((status, out, err), (2, "", f"wisavulome: {path} cannot be read: {why}\n"), name)
        status, out, err = self.shell('"$W" run - <&-')
        self.assertEqual(
            (status, out, err), (2, "", "wisavulome: standard input cannot be read: Bad file descriptor\n")
        )

    def test_full_disk(self):
        for words in [
            "run",
            "audit",
            "fit",
            "write --as text",
            "sweep --sets 3",
            "--help",
            "run --help",
            "draw",
            "capture",
            "wave",
        ]:
            status, _out, err = self.shell(f'"$W" {words} {"" if "help" in words else WORKED} >/dev/full')
            self.assertEqual(
                (status, err), (3, "wisavulome: standard output could not be written: No space left on device\n"), words
            )

    def test_closed_pipe(self):
        """Nobody reads: no traceback, status 3."""
        for words in [f"run {WORKED}", f"fit {WORKED}", f"draw {WORKED}", "--help"]:
            script = f'{{ sleep 0.3; "$W" {words}; echo $? >status; }} | true; '
            script += "while [ ! -s status ]; do sleep 0.1; done; cat status"
            _status, out, err = self.shell(script)
            self.assertEqual((out, err), ("3\n", ""), words)

    def test_runinput(self):
        """The older script: a closed pipe, a full disk and a closed output end in no traceback either."""
        old = ROOT / "tools" / "runinput"
        _status, out, err = self.shell(
            f"{{ sleep 0.3; {old} write <{WORKED}; echo $? >status; }} | true; sleep 0.3; cat status"
        )
        self.assertEqual((out, err), ("3\n", ""))
        for way, why in [
            ("/dev/full", "could not be written: No space left on device"),
            ("&-", "is closed: the output was not written"),
        ]:
            status, _out, err = self.shell(f"{old} write <{WORKED} >{way}")
            self.assertEqual((status, err), (3, f"runinput: standard output {why}\n"))
