"""Tests of tools/more-edits, over a stand-in for `rt`."""

import os
import shutil
import subprocess
import tempfile
import unittest
from pathlib import Path

TOOL = Path(__file__).resolve().parent / "more-edits"

# The stand-in says what it was asked, which edits it sees and what else of the crates, and then what rt says of each edit.
STAND_IN = """#!/bin/sh
echo "rt $*"
find crates HANDLES -type f 2>/dev/null | sort
for edit in crates/*/must-fail/*.edit; do
    crate=$(basename "$(dirname "$(dirname "$edit")")")
    echo "rt: must-fail $crate/$(basename "$edit"): ${SAYS:-refused, as it must be: of $edit}"
    echo "more of $edit"
done
echo "rt: a note on none of them"
exit "${ENDS:-0}"
"""

FILES = {
    "crates.txt": "one:\ntwo: one\nthree:\n",
    "crates/one/must-fail/first.edit": "",
    "crates/one/more-edits/second.edit": "",
    "crates/one/src/lib.rt": "",
    "crates/one/specs/Laws.antt": "",
    "crates/one/proofs/f/Answers.antt": "",
    "crates/one/out/rlib/stamp": "",
    "crates/two/more-edits/third.edit": "",
    "crates/three/must-fail/fourth.edit": "",
}

# What of these rt sees beside the edits: the texts, and nothing that checks left.
TEXTS = ["crates/one/proofs/f/Answers.antt", "crates/one/specs/Laws.antt", "crates/one/src/lib.rt"]


class MoreEdits(unittest.TestCase):
    def run_tool(self, *names, ends="0", says="", files=FILES):
        """Status, standard output, what is left in the temporary folder, and the logs that were kept."""
        with tempfile.TemporaryDirectory() as folder:
            root = Path(folder)
            for name, text in dict(files, **{"bin/rt": STAND_IN}).items():
                (root / name).parent.mkdir(parents=True, exist_ok=True)
                (root / name).write_text(text)
            (root / "bin" / "rt").chmod(0o755)
            (root / "tools").mkdir()
            (root / "temporary").mkdir()
            shutil.copy(TOOL, root / "tools" / "more-edits")
            path = str(root / "bin") + os.pathsep + os.environ["PATH"]
            env = dict(os.environ, PATH=path, TMPDIR=str(root / "temporary"), ENDS=ends, SAYS=says)
            tool = str(root / "tools" / "more-edits")
            done = subprocess.run([tool, *names], env=env, capture_output=True, text=True, check=False)
            kept = root / "target" / "more-edits"
            logs = {str(path.relative_to(kept)): path.read_text() for path in kept.glob("*/*")}
            return done.returncode, done.stdout.splitlines(), os.listdir(root / "temporary"), logs

    def test_all(self):
        status, lines, left, logs = self.run_tool()
        seen = sorted(["crates/one/must-fail/second.edit", "crates/two/must-fail/third.edit", *TEXTS])
        self.assertEqual((status, lines[: len(seen) + 1], left), (0, ["rt must-fail one two", *seen], []))
        self.assertEqual(lines[-1], "more-edits: 2 tried, 2 refused because a fact fails")
        self.assertEqual(set(logs), {"one/second.log", "two/third.log"})
        said = "refused, as it must be: of crates/two/must-fail/third.edit\nmore of crates/two/must-fail/third.edit\n"
        self.assertEqual(logs["two/third.log"], "rt: must-fail two/third.edit: " + said)

    def test_named(self):
        files = {**FILES, "target/more-edits/two/old.log": "", "HANDLES": "Handles allowed: none.\n"}
        status, lines, _left, logs = self.run_tool("two", files=files)
        seen = ["HANDLES", *TEXTS, "crates/two/must-fail/third.edit"]
        self.assertEqual((status, lines[:6]), (0, ["rt must-fail two", *seen]))
        self.assertEqual(set(logs), {"two/third.log"})

    def test_not_refused(self):
        for says in ["NOT REFUSED: the crate is still proved with this edit", "BAD EDIT: it changes nothing"]:
            with self.subTest(says):
                status, lines, left, logs = self.run_tool(ends="1", says=says)
                self.assertEqual((status, left, len(logs)), (1, [], 2))
                self.assertEqual(lines[-1], "more-edits: 2 tried, 0 refused because a fact fails")

    def test_says_little(self):
        status, lines, _left, _logs = self.run_tool(says="refused, as it must be (only by a limit of the prover, ..): x")
        self.assertEqual(status, 0)
        self.assertEqual(lines[-2], "more-edits: 2 tried, 0 refused because a fact fails")
        self.assertTrue(lines[-1].endswith(" one/second two/third"), lines[-1])

    def test_none(self):
        self.assertEqual(self.run_tool("three")[:2], (2, []))
        bare = {name: text for name, text in FILES.items() if "/more-edits/" not in name}
        self.assertEqual(self.run_tool(files=bare)[:2], (0, ["more-edits: there is none"]))


if __name__ == "__main__":
    unittest.main()
