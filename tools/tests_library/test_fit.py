"""`wisavulome fit`."""

import csv
import io

from common import SHEET, STORED, WORKED, CommandTest, call, stored_cases

from wisavulome.library import Refused


def rows(text):
    """The rows of CSV, by name."""
    return list(csv.DictReader(io.StringIO(text)))


class Fit(CommandTest):
    def sheet(self, figures="", last=10):
        return self.file("sheet.txt", figures + SHEET.replace("at 10", f"at {last}"))

    def test_report(self):
        status, out, _err = call("fit", self.sheet("jam 40\n", 200))
        self.assertEqual(status, 0)
        lines = out.splitlines()
        self.assertTrue(lines[0].endswith("sheet.txt: fit yes"))
        self.assertIn("  jam              40  given", lines)
        self.assertIn("  slot            512  default", lines)
        self.assertIn("  span S          200", lines)
        self.assertIn("  gap G            96", lines)
        self.assertIn("  2 x S + G <= slot: 496 <= 512, margin 16, yes", lines)
        self.assertIn("  G <= 64 + jam: 96 <= 104, margin 8, yes", lines)
        self.assertIn("  longest span: 208 (last tap at 208; it may move outward by 8)", lines)

    def test_why_and_by_how_much(self):
        status, out, _err = call("fit", self.sheet(last=226))
        self.assertEqual(status, 1)
        self.assertIn("  2 x S + G <= slot: 548 > 512, margin -36, no", out)
        self.assertIn("longest span: 208 (last tap at 208; it must move inward by 18)", out)
        status, out, _err = call("fit", self.sheet("jam 31\n"))
        self.assertEqual(status, 1)
        self.assertIn("  G <= 64 + jam: 96 > 95, margin -1, no", out)
        self.assertIn("longest span: none", out)

    def test_end_of_the_sheet(self):
        out = call("fit", self.sheet("gap1 0\ngap2 1\n", 200))[1]
        self.assertIn(
            "longest span: 255 (last tap at 255, the last position that a sheet can hold; it may move outward by 55)",
            out,
        )

    def test_longest_span_is_the_library_s(self):
        """It fits exactly up to there, on every stored sheet."""
        seen = 0
        for name, octets, _printed in stored_cases():
            try:
                layout = self.library.read_sheet(octets)
            except Refused:
                continue
            sheet = octets[: layout.used]
            farthest = self.library.farthest_last_tap(sheet)
            for last in range(layout.taps[-2].position + 1, 256):
                moved = sheet[:-7] + bytes([last]) + sheet[-6:]
                self.assertEqual(self.library.fits(moved), farthest is not None and last <= farthest, (name, last))
            seen += 1
        self.assertGreater(seen, 40)

    def test_margin(self):
        """The library's margin: with the last tap moved outward the sheet fits exactly up to there; None: nowhere."""
        seen = set()
        for name, octets, _printed in stored_cases():
            try:
                layout = self.library.read_sheet(octets)
            except Refused as refusal:
                with self.assertRaises(Refused) as again:
                    self.library.margin(octets)
                self.assertEqual(again.exception.number, refusal.number, name)
                continue
            sheet = octets[: layout.used]
            margin = self.library.margin(sheet)
            last = layout.taps[-1].position
            fitting = [
                moved for moved in range(256 - last) if self.library.fits(sheet[:-7] + bytes([last + moved]) + sheet[-6:])
            ]
            self.assertEqual(fitting, [] if margin is None else list(range(margin + 1)), name)
            self.assertEqual(margin is None, not layout.fits, name)
            seen.add(margin if margin is None else min(margin, 1))
        self.assertEqual(seen, {None, 0, 1})

    def test_margins_and_verdict(self):
        """Both margins are 0 or more just where the library says yes, on every stored sheet."""
        found = rows(call("fit", STORED, "--pattern", "*.in", "--csv")[1])
        verdicts = {row["fit"] for row in found}
        self.assertEqual(verdicts, {"yes", "no", "refused"})
        for row in found:
            if row["fit"] == "refused":
                self.assertTrue(row["why"].startswith("refused "), row)
                continue
            margins = int(row["slot-margin"]), int(row["jam-margin"])
            self.assertEqual(row["fit"] == "yes", min(margins) >= 0, row)
            self.assertEqual(row["why"] == "", row["fit"] == "yes")
            self.assertEqual(int(row["slot-margin"]), int(row["slot"]) - 2 * int(row["S"]) - int(row["G"]))

    def test_collection(self):
        status, out, _err = call("fit", STORED, "--pattern", "*.in", "--csv")
        self.assertEqual(status, 2)
        self.assertEqual(len(rows(out)), len(list(STORED.glob("*.in"))))
        printed = {name: text for name, _octets, text in stored_cases()}
        for row in rows(out):
            name = f"{STORED.name}/{row['sheet'].rpartition('/')[2].removesuffix('.in')}"
            if not printed[name].startswith("refused"):
                self.assertIn(f"fit {row['fit']}\n", printed[name], name)
        table = call("fit", WORKED, self.sheet(last=226))
        self.assertEqual((table[0], len(table[1].splitlines())), (1, 3))
        self.assertIn("(512)", table[1])

    def test_empty_folder(self):
        status, _out, err = call("fit", self.folder)
        self.assertEqual((status, err), (2, f"wisavulome: {self.folder} has no file of the name *\n"))

    def test_difference(self):
        one = self.file("one.txt", SHEET)
        other = self.file("other.txt", "jam 31\n" + SHEET.replace("at 10", "at 11"))
        status, out, _err = call("fit", "--difference", one, other, "--csv")
        self.assertEqual(status, 1)
        table = [row[0] for row in csv.reader(io.StringIO(out))]
        self.assertEqual(
            table, ["what", "jam", "02:00:00:00:00:02", "S", "slot-margin", "jam-margin", "longest-span", "fit"]
        )
        self.assertIn("jam,32 default,31 given\n", out)
        self.assertEqual(call("fit", "--difference", one, one)[:2], (0, f"{one} and {one} say the same\n"))
        self.assertEqual(call("fit", "--difference", one)[0], 2)

    def test_difference_of_defaults(self):
        """Sheets that differ only in spelled-out defaults say the same."""
        one, other = self.file("one.txt", SHEET), self.file("other.txt", "slot 512\nlate-end 0\n" + SHEET)
        self.assertEqual(call("fit", "--difference", one, other)[:2], (0, f"{one} and {other} say the same\n"))
