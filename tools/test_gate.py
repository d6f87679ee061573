"""Tests of .ci/run, over stand-ins for `rt`, `cargo` and `python3`: what it ends in, and that a failure of any part is its own."""

import os
import shutil
import subprocess
import tempfile
import unittest
from pathlib import Path

ROOT = Path(__file__).resolve().parent.parent

# Each stand-in writes what it was asked and fails where that begins with $FAILS, with status 3. `rt ci` says $SAYS on its line "rt: ok".
STAND_IN = """#!/bin/sh
asked="$(basename "$0") $*"
echo "$asked"
echo "$asked" >>"$ASKED"
case $asked in
"${FAILS:-none}"*) exit 3 ;;
esac
case $asked in
"rt ci") echo "rt: ok; handles allowed: none; $SAYS; every proof was done in this run"; echo '7 passed, 0 failed' ;;
esac
"""

REFUSED = "must-fail edits: 56 refused"


class Gate(unittest.TestCase):
    def run_gate(self, fails="none", kit="rt version", says=REFUSED):
        with tempfile.TemporaryDirectory() as folder:
            root = Path(folder)
            programs = [f"bin/{name}" for name in ("rt", "cargo", "python3", "make")]
            scripts = [f"tools/{name}" for name in ("check-index", "staticlib", "check-interface", "check-formats")]
            for name in [".ci/run", *programs, *scripts]:
                (root / name).parent.mkdir(parents=True, exist_ok=True)
                (root / name).write_text(STAND_IN)
                (root / name).chmod(0o755)
            shutil.copy(ROOT / ".ci" / "run", root / ".ci" / "run")
            (root / ".ci" / "kit-version").write_text(kit + "\n")
            path = str(root / "bin") + os.pathsep + os.environ["PATH"]
            env = dict(os.environ, PATH=path, TMPDIR=folder, FAILS=fails, SAYS=says, ASKED=str(root / "asked"))
            done = subprocess.run([str(root / ".ci" / "run")], env=env, stdout=subprocess.PIPE, stderr=subprocess.STDOUT, text=True)
            left = [p.name for p in root.iterdir() if p.name.startswith("tmp")]
            self.asked = (root / "asked").read_text().splitlines()
            return done.returncode, done.stdout.splitlines(), left

    def test_last_line(self):
        status, lines, left = self.run_gate()
        self.assertEqual((status, lines[-1], left), (0, "7 passed, 0 failed", []))
        self.assertEqual(lines.count("7 passed, 0 failed"), 2)
        self.assertLess(self.asked.index("rt ci"), self.asked.index("staticlib "))

    def test_rt_asked(self):
        """`rt ci` is asked once, with no names, and only its version before it."""
        self.run_gate()
        self.assertEqual([asked for asked in self.asked if asked.startswith("rt ")], ["rt version", "rt ci"])

    def test_failures(self):
        parts = ["cargo fmt", "python3", "check-index", "rt ci", "staticlib", "cargo test", "make --silent library"]
        parts += ["check-interface", "python3 -B -m unittest discover -s tools/tests_library", "make --silent check-install"]
        parts += ["python3 -B -m unittest discover -s tools/tests_library -p test_d", "check-formats --installed"]
        for part in parts:
            with self.subTest(part):
                status, lines, left = self.run_gate(fails=part)
                self.assertNotEqual(status, 0)
                self.assertTrue(lines[-1].startswith(part), lines)
                self.assertEqual(left, [])
                if part == "rt ci":
                    self.assertEqual(status, 3)
                    self.assertNotIn("staticlib ", self.asked)
                if part == "staticlib":
                    self.assertNotIn("make --silent library", self.asked)

    def test_bad_edits(self):
        """A must-fail edit that was not tried fails the gate, though `rt ci` passes."""
        for says in [", 1 bad", ", 12 bad", ", 2 of them only by a limit, 3 bad"]:
            with self.subTest(says):
                status, lines, left = self.run_gate(says=REFUSED + says)
                self.assertEqual((status, left), (1, []))
                self.assertIn("bad must-fail edits", lines[-1])
        for says in ["", ", 0 bad", ", 2 of them only by a limit"]:
            with self.subTest(says):
                self.assertEqual(self.run_gate(says=REFUSED + says)[0], 0)

    def test_another_kit(self):
        status, lines, _ = self.run_gate(kit="another")
        self.assertEqual((status, lines[-1]), (0, "7 passed, 0 failed"))
        self.assertTrue(any("rt version >.ci/kit-version" in line for line in lines), lines)


if __name__ == "__main__":
    unittest.main()
