"""Each must-fail edit can be applied: those of the gate, and those that only tools/more-edits tries."""

import unittest
from pathlib import Path

CRATES = Path(__file__).resolve().parent.parent / "crates"


def fault(edit):
    """What keeps an edit from being applied, or None: each old text stands once in what the pairs before it made."""
    crate, path, old, texts = edit.parent.parent, None, None, {}
    was = {}
    for line in edit.read_text().split("\n"):
        word, _, rest = line.partition(" ")
        if word == "file:":
            path = rest.strip()
            if not (crate / path).is_file():
                return f"there is no file {path}"
            was.setdefault(path, (crate / path).read_text())
            texts.setdefault(path, was[path])
        elif word == "old:":
            old = rest
        elif word == "new:":
            if path is None or not old:
                return "a new text without a file or an old text"
            if texts[path].count(old) != 1:
                return f"an old text stands {texts[path].count(old)} times in {path}: {old}"
            texts[path], old = texts[path].replace(old, rest), None
    return "it changes nothing" if texts == was else None


class Edits(unittest.TestCase):
    def test_all(self):
        edits = sorted(path for folder in ("must-fail", "more-edits") for path in CRATES.glob(f"*/{folder}/*.edit"))
        self.assertGreater(len(edits), 100)
        for edit in edits:
            with self.subTest(str(edit.relative_to(CRATES))):
                self.assertIsNone(fault(edit))

    def test_place(self):
        """`rt` takes whatever else lies below must-fail/ for a bad edit."""
        others = [path for path in CRATES.glob("*/must-fail/**/*") if path.suffix not in (".edit", ".md") or path.parent.name != "must-fail"]
        self.assertEqual(others, [])


if __name__ == "__main__":
    unittest.main()
