"""The command as a whole: forms of input, refusals, exit statuses, and that nothing ends in a traceback.

From the repository's root, with the shared library built: python3 -B -m unittest discover -s tools/tests_library -p
'test_*.py'
"""

import random
import unittest

from common import ROOT, SHEET, TWO, WORKED, CommandTest, call, stored, stored_cases

from wisavulome import refusals
from wisavulome.cli import COMMANDS, perform
from wisavulome.failure import Failure
from wisavulome.library import Refused
from wisavulome.output import Standard

PLAN = TWO + "offer at 0 station 0 to station 1 value length data 0102\nrun 900\n"


class Statuses(CommandTest):
    """Exit status 0 good, 1 no, 2 refused or usage, 3 output not written."""

    def test_version(self):
        self.assertEqual(call("--version")[:2], (0, "wisavulome 0.1.0\n"))

    def test_usage(self):
        for words in [
            [],
            ["fly"],
            ["run"],
            ["fit"],
            ["run", "--format", "xml", WORKED],
            ["sweep", WORKED, "--sets", "x"],
        ]:
            status, out, err = call(*words)
            self.assertEqual((status, out), (2, ""), words)
            self.assertTrue(err.startswith("wisavulome"), err)

    def test_good_and_no(self):
        self.assertEqual(call("fit", WORKED)[0], 0)
        self.assertEqual(call("run", WORKED)[0], 0)
        self.assertEqual(call("audit", WORKED)[0], 0)
        self.assertEqual(call("fit", self.file("s", SHEET.replace("at 10", "at 209")))[0], 1)
        self.assertEqual(call("run", self.file("p", stored("slot-one-over")))[0], 1)
        self.assertEqual(call("audit", self.file("p", stored("slot-one-over")))[0], 1)
        self.assertEqual(call("audit", self.file("p", stored("gap-one-over")))[0], 1)

    def test_endless_input(self):
        status, out, err = call("run", "/dev/zero")
        self.assertEqual((status, out), (2, ""))
        self.assertIn("/dev/zero has over 16777216 octets", err)

    def test_closed_output(self):
        status, _out, err = self.shell(f'"$W" run {WORKED} >&-')
        self.assertEqual((status, err), (3, "wisavulome: standard output is closed: the output was not written\n"))

    def test_output_file(self):
        """A file that cannot be written is said, and no half file stays."""
        before = sorted(self.folder.iterdir())
        for path in [self.folder / "no" / "file", self.folder, "/dev/full"]:
            for name in ["draw", "capture", "wave"]:
                status, out, err = call(name, WORKED, "-o", path)
                self.assertEqual((status, out), (3, ""), (name, path))
                self.assertTrue(err.startswith(f"wisavulome: {path} could not be written: "), err)
        self.assertEqual(sorted(self.folder.iterdir()), before)

    def test_quota(self):
        """A limit on the size of files stands for a disk that fills up: the old file stays, nothing lies beside it."""
        target = self.file("kept.svg", "before")
        status, _out, err = self.shell(f'trap "" XFSZ; ulimit -f 1; "$W" draw {WORKED} -o {target}')
        self.assertEqual(status, 3, err)
        self.assertEqual([path.name for path in self.folder.iterdir()], ["kept.svg"])
        self.assertEqual(target.read_text(), "before")

    def test_terminated(self):
        """Asked to end in the middle of writing: it ends by the signal, and no half file stays."""
        offer = "offer at {} station 0 to station 1 value length data 1500 of 5a\n"
        plan = self.file("p", TWO + "".join(offer.format(13000 * i) for i in range(9)) + "run 120000\n")
        script = f"""timeout -s TERM 0.7 "$W" wave {plan} --vectors -o w.vcd; echo $?; ls -A"""
        _status, out, err = self.shell(script)
        self.assertEqual((out, err), ("124\np\n", ""))

    def test_missing_library(self):
        status, out, err = self.shell(f'WISAVULOME_LIBRARY=none "$W" run {WORKED}')
        self.assertEqual((status, out), (2, ""))
        self.assertIn("the shared library cannot be loaded", err)


class Forms(CommandTest):
    """Text, octets, drawings; colons and dashes; standard input."""

    def test_same_answer(self):
        octets = self.file("plan.in", (ROOT / "crates" / "simulate" / "stdin").read_bytes())
        expected = call("run", WORKED)[1]
        self.assertEqual(call("run", octets)[1], expected)
        self.assertEqual(call("run", "-", given=octets.read_bytes())[1], expected)
        self.assertEqual(call("run", "-", given=WORKED.read_bytes())[1], expected)

    def test_dashes(self):
        dashed = self.file("d.txt", PLAN.replace("02:00:00:00:00:0", "02-00-00-00-00-0"))
        self.assertEqual(call("run", dashed), call("run", self.file("c.txt", PLAN)))
        mixed = self.file("m.txt", PLAN.replace("02:00:00:00:00:01", "02:00-00:00:00:01"))
        self.assertIn("line 1: '02:00-00:00:00:01' is no address", call("run", mixed)[2])

    def test_line_ends_and_mark(self):
        windows = self.file("w.txt", b"\xef\xbb\xbf" + PLAN.replace("\n", "\r\n").encode())
        self.assertEqual(call("run", windows), call("run", self.file("c.txt", PLAN)))

    def test_sheet_of_printable_octets(self):
        """A sheet whose octets could all be text is still read."""
        taps = b"".join(bytes([33 + i]) + b"@@@@@" + bytes([65 + i]) for i in range(9))
        sheet = self.file("s", b" \x09\x09" + taps)
        status, out, _err = call("fit", sheet)
        self.assertEqual(status, 0, out)
        self.assertIn("station 8        41  40:40:40:40:40:49", out)

    def test_write(self):
        octets = stored("case003")
        as_text = call("write", "--as", "text", self.file("p", octets))[1]
        back = self.folder / "back.in"
        self.assertEqual(call("write", "--as", "octets", self.file("p.txt", as_text), "-o", back)[0], 0)
        self.assertEqual(back.read_bytes(), octets)
        sheet = call("write", "--as", "text", self.file("s.txt", SHEET))[1]
        self.assertEqual(
            sheet, "station at 0   02:00:00:00:00:01  # station 0\nstation at 10  02:00:00:00:00:02  # station 1\n"
        )

    def test_shortest_sheet(self):
        """Figures that are their defaults are left out; what follows the sheet stays."""
        spelled = "slot 512\ngap1 64\ngap2 32\njam 32\nattempt-limit 16\nbackoff-limit 10\nlate-end 0\n" + SHEET
        short = self.folder / "short"
        self.assertEqual(call("write", self.file("s.txt", spelled), "-o", short)[0], 0)
        self.assertEqual(short.read_bytes(), bytes.fromhex("0002000200000000010a020000000002"))
        as_text = ["write", "--as", "text"]
        self.assertEqual(call(*as_text, short)[1], call(*as_text, self.file("t", SHEET))[1])
        plan = self.file("p.txt", "gap2 32\n" + TWO + "run 9\n")
        self.assertEqual(call("write", plan, "-o", short)[0], 0)
        self.assertEqual(call("run", short)[1], call("run", plan)[1])


class Refusals(CommandTest):
    """Refusals in words with their number, and where."""

    def refused(self, content, command="run"):
        status, out, err = call(command, self.file("x", content))
        self.assertEqual((status, out), (2, ""), err)
        return err.removeprefix(f"wisavulome: {self.folder / 'x'}: ").rstrip("\n")

    def test_places(self):
        worked = (ROOT / "crates" / "simulate" / "stdin").read_bytes()
        for octets, expected in [
            (worked[:9], "refused 3: the sheet is too short (ends before station 1 (N is 2), at octet 9)"),
            (b"\x80" + worked[1:], "refused 4: map bit 7 stands (map bit 7 stands, at octet 0)"),
            (b"\xc0\x01" + worked[1:], "refused 4: map bit 7 stands (map bit 7 stands, at octet 0)"),
            (
                b"\x40\x02" + worked[1:],
                "refused 5: a field is out of its range (late-end is 2, outside 0..1, at octet 1)",
            ),
            (
                b"\x01\x00\x3f" + worked[1:],
                "refused 5: a field is out of its range (slot is 63, outside 64..512, at octet 1)",
            ),
            (
                b"\x04\x1f" + worked[1:],
                "refused 5: a field is out of its range (gap1 64 is over 2 x gap2 = 62, at octet 1)",
            ),
            (b"\x00\x01" + worked[2:], "refused 6: the number of stations is outside 2..16 (N is 1, at octet 1)"),
            (
                worked[:9] + b"\x00" + worked[10:],
                "refused 7: positions do not strictly rise (station 1 is at 0, not above 0, at octet 9)",
            ),
            (
                worked[:10] + b"\x03" + worked[11:],
                "refused 8: an address is a group's or repeats (the address of station 1 is a group's, at octet 10)",
            ),
            (
                worked[:15] + b"\x01" + worked[16:],
                "refused 8: an address is a group's or repeats (station 1 has the address of station 0, at octet 10)",
            ),
            (
                worked[:16] + b"\x11" + worked[17:],
                "refused 9: D is outside 1..16, or the draws are not N x D numbers (D is 17, at octet 16)",
            ),
            (
                worked[:20],
                "refused 9: D is outside 1..16, or the draws are not N x D numbers "
                "(ends in the draws of station 1 (D is 1), at octet 20)",
            ),
            (
                worked[:-4] + b"\xff" * 4,
                "refused 13: the clock would pass 16777216 (the bit times are 4294967295, at octet 145)",
            ),
        ]:
            with self.subTest(expected):
                self.assertEqual(self.refused(octets), expected)

    def test_plan_places(self):
        worked = (ROOT / "crates" / "simulate" / "stdin").read_bytes()
        for octets, expected in [
            (worked[:102], "(ends in offer 2 of 2, at octet 102)"),
            (worked + b"\x00", "(octets left over: 1, at octet 149)"),
            (worked[:26] + b"\x05" + worked[27:], "(offer 2 is at time 0, below 5, at octet 84)"),
            (worked[:21] + b"\x00\x41" + worked[23:], "(the offer count is 65, at octet 21)"),
        ]:
            with self.subTest(expected):
                found = self.refused(octets)
                self.assertTrue(found.startswith("refused 16: ") and found.endswith(expected), found)

    def test_every_refusal_has_a_place(self):
        """Whatever octets the library refuses, the place is found, and it is the same number."""
        rng = random.Random(5)
        inputs = [octets for _name, octets, _printed in stored_cases()]
        worked = (ROOT / "crates" / "simulate" / "stdin").read_bytes()
        for _ in range(3000):
            octets = bytearray(worked)
            for _ in range(rng.randrange(1, 4)):
                octets[rng.randrange(24)] = rng.choice([0, 1, 2, 17, 64, 128, 255])
            inputs.append(bytes(octets[: rng.choice([len(octets), rng.randrange(len(octets))])]))
        seen = set()
        for octets in inputs:
            try:
                self.library.read_plan(octets)
            except Refused as refusal:
                seen.add(refusal.number)
                self.assertTrue(refusals.place(octets, refusal.number), (refusal.number, octets.hex()))
        self.assertTrue(seen >= {3, 4, 5, 6, 7, 8, 9, 16}, seen)

    def test_text_lines(self):
        self.assertEqual(
            self.refused("slot 70000\n" + PLAN), "line 1: slot 70000 is too wide for its field (at most 65535)"
        )
        self.assertEqual(
            self.refused("hello\n"),
            "line 1: 'hello' is no word that begins a line (slot, gap1, gap2, jam, "
            "attempt-limit, backoff-limit, late-end, D, station, offer, run)",
        )
        self.assertEqual(self.refused(TWO), "it has draws or offers but no 'run' line")


class NoTraceback(CommandTest):
    """Made-up octets and texts, all commands."""

    def test_made_up(self):
        rng = random.Random(7)
        words = PLAN.split()
        for at in range(400):
            if at % 2:
                content = bytes(rng.randrange(256) for _ in range(rng.randrange(200)))
            else:
                content = " ".join(
                    rng.choice([*words, "\n", "<svg>", "99999999999"]) for _ in range(rng.randrange(60))
                ).encode()
            path = self.file("x", content)
            for name in COMMANDS:
                self.assertIn(self.status(name, path), (0, 1, 2), (name, content))

    def status(self, name, path):
        """The status of a command, here in this process: what is no failure of ours is raised."""
        more = {
            "windows": ["--entries", "/dev/null"],
            "sweep": ["--sets", "2", "--jobs", "1"],
            "write": ["--as", "text"],
        }.get(name, [])
        with open("/dev/null", "wb") as nothing:
            output = Standard(nothing.fileno())
            try:
                return perform([name, str(path), *more], output)
            except (Failure, Refused) as why:
                return getattr(why, "status", 2)


if __name__ == "__main__":
    unittest.main()
