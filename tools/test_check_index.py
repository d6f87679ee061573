"""Tests of tools/check-index."""

import tempfile
import unittest
from importlib.machinery import SourceFileLoader
from importlib.util import module_from_spec, spec_from_loader
from pathlib import Path

TOOL = Path(__file__).resolve().parent / "check-index"

FILES = {
    "crates.txt": "# the crates: two\none:\ntwo staticlib: one\n",
    "crates/one/specs/Laws.antt": """pub record Pair (n : ℕ) : Type 0 where
  pub first second : ℕ

pub data Row : Type 0 where
  build : (value size : ℕ) → Row

unfoldable pub doubled : ℕ → ℕ
doubled n = n + n
module _ (n : ℕ) where
  pub doubled_even : doubled n ≡ 2 * n
""",
    "crates/one/src/lib.rt": """pub const TOP: u32 = 7;
pub enum Ended {
    All,
    Late(u32),
}
pub(crate) fn double(n: u32) -> u32
""",
    "crates/one/must-fail/wrong.edit": "file: src/lib.rt\n",
    "crates/one/more-edits/wrong_too.edit": "file: src/lib.rt\n",
}

PAGE = """# Index

`not/Read` above the first section.

## 1. Crates

| crate | what |
|---|---|
| `one` | |
| `two` | |

## 2. Sentences

%s
"""


def load_tool():
    spec = spec_from_loader("check_index", SourceFileLoader("check_index", str(TOOL)))
    module = module_from_spec(spec)
    spec.loader.exec_module(module)
    return module


class CheckIndex(unittest.TestCase):
    def faults(self, sentences, page=PAGE):
        with tempfile.TemporaryDirectory() as folder:
            root = Path(folder)
            for name, text in dict(FILES, **{"docs/INDEX.md": page % sentences}).items():
                (root / name).parent.mkdir(parents=True, exist_ok=True)
                (root / name).write_text(text)
            return [word for _, word in load_tool().missing(root)[0]]

    def test_what_is_there(self):
        rows = [
            "| a | `one/Laws`: `doubled`, `doubled_even`, `Pair.second`, `Row.build`, `Row`, `two` | `one/wrong.edit` |",
            "| b | `one/wrong_too.edit` |",
            "- `one/lib.rt`: `TOP`, `Ended::Late`, `double`, then `crates/one/src/lib.rt` and code, `&x[0..2]`",
            "- `Rattle.one.specs.Laws`, `Rattle.one.specs.Laws.doubled_even`, `Rattle.one.specs.Laws.Pair.second`",
        ]
        self.assertEqual(self.faults("\n".join(rows)), [])

    def test_what_is_not_there(self):
        for cited in [
            "`one/Gone`",
            "`one/gone.rt`",
            "`one/gone.edit`",
            "`two/wrong_too.edit`",
            "`docs/GONE.md`",
            "`one/Laws`: `double`",
            "`one/Laws`: `Pair.third`",
            "`one/lib.rt`: `doubled`",
            "`one/lib.rt`: `Ended::Early`",
            "`one::double`",
            "`gone`",
            "`Rattle.one.specs.Gone`",
            "`Rattle.one.specs.Laws.double`",
            "`Rattle.one.specs.Laws.Pair.third`",
            "`Rattle.one`",
        ]:
            with self.subTest(cited):
                self.assertEqual(self.faults("| a | %s |" % cited), [cited.split("`")[-2]])

    def test_a_name_belongs_to_the_file_before_it(self):
        self.assertEqual(self.faults("- `one/Laws`: `doubled`; `one/lib.rt`: `doubled`"), ["doubled"])

    def test_a_cell_begins_without_a_file(self):
        self.assertEqual(self.faults("| `one/Laws` | `doubled` |"), ["doubled"])

    def test_each_crate_has_a_row(self):
        self.assertEqual(self.faults("", PAGE.replace("| `two` | |\n", "")), ["no row for crate two"])


if __name__ == "__main__":
    unittest.main()
