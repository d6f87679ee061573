"""Tests of tools/runinput. From the repository's root: python3 -m unittest discover -s tools -p 'test_*.py'"""

import importlib.util
import random
import subprocess
import sys
import unittest
from importlib.machinery import SourceFileLoader
from pathlib import Path

ROOT = Path(__file__).resolve().parent.parent
TOOL = ROOT / "tools" / "runinput"
WORKED_TEXT = ROOT / "docs" / "worked.txt"
WORKED_OCTETS = ROOT / "crates" / "simulate" / "stdin"
STORED = ROOT / "stored"

# The whole case, part by part.
WHOLE_CASE = bytes.fromhex(
    "00 02  00 020000000001  0A 020000000002  01  0000 0001  0002"
    + "00000000 00 020000000002 0800 002E" + "00" * 46
    + "00000000 01 020000000001 0800 002E" + "00" * 46
    + "000005DC"
)

TWO = """station at 0 02:00:00:00:00:01 draws 0
station at 10 02:00:00:00:00:02 draws 1
"""


def load_tool():
    """The tool as a module, without leaving compiled code beside it."""
    keep, sys.dont_write_bytecode = sys.dont_write_bytecode, True
    try:
        loader = SourceFileLoader("runinput", str(TOOL))
        module = importlib.util.module_from_spec(importlib.util.spec_from_loader("runinput", loader))
        sys.modules["runinput"] = module
        loader.exec_module(module)
        return module
    finally:
        sys.dont_write_bytecode = keep


runinput = load_tool()


def call(arguments, given=b""):
    """The tool as a program: status, standard output, standard error."""
    done = subprocess.run([str(TOOL), *arguments], input=given, stdout=subprocess.PIPE, stderr=subprocess.PIPE, check=False)
    return done.returncode, done.stdout, done.stderr.decode()


def comments(text):
    """The comment lines of a text, without their mark."""
    return [line[2:] for line in text.splitlines() if line.startswith("# ")]


class WholeCase(unittest.TestCase):
    """The whole case."""

    def test_octets_as_listed(self):
        self.assertEqual(len(WHOLE_CASE), 149)
        self.assertEqual(WORKED_OCTETS.read_bytes(), WHOLE_CASE)

    def test_write(self):
        self.assertEqual(runinput.write(WORKED_TEXT.read_text()), WHOLE_CASE)

    def test_short_form_without_at(self):
        text = """slot 512 # comment
            station 0  02:00:00:00:00:01  draws 0
            station 10 02:00:00:00:00:02  draws 1

            offer 0 station 0 to 02:00:00:00:00:02 value 0x0800 data 46 zeros
            offer 0 station 1 to 02:00:00:00:00:01 value 2048 data 46 of 00
            run 1500"""
        self.assertEqual(runinput.write(text), b"\x01\x02\x00" + WHOLE_CASE[1:])

    def test_read(self):
        text, whole = runinput.read(WHOLE_CASE)
        self.assertTrue(whole)
        self.assertEqual(
            text,
            "station at 0   02:00:00:00:00:01 draws 0  # station 0\n"
            "station at 10  02:00:00:00:00:02 draws 1  # station 1\n"
            "offer at 0 station 0 to station 1 value 0x0800 data 46 zeros\n"
            "offer at 0 station 1 to station 0 value 0x0800 data 46 zeros\n"
            "run 1500\n",
        )
        self.assertEqual(runinput.write(text), WHOLE_CASE)


class Stored(unittest.TestCase):
    """The stored run inputs."""

    def test_round_trip(self):
        files = [file for file in sorted(STORED.glob("level*/*.in")) if not file.name.startswith(("sheet", "owner"))]
        self.assertTrue(files)
        wholes = 0
        for file in files:
            with self.subTest(file=file):
                octets = file.read_bytes()
                text, whole = runinput.read(octets)
                wholes += whole
                if whole:
                    self.assertEqual(runinput.write(text), octets)
                else:
                    self.assertTrue(file.with_suffix(".out").read_text().startswith("refused "))
        self.assertGreater(2 * wholes, len(files))


class Forms(unittest.TestCase):
    """What each word writes."""

    def offer(self, words):
        """The octets of an offer's value, size and data, written with these words."""
        octets = runinput.write(f"{TWO}offer at 0 station 0 to broadcast {words}\nrun 0\n")
        return octets[34:-4]

    def test_figures_in_the_sheets_order(self):
        text = "late-end 7\nbackoff-limit 6\nattempt-limit 5\njam 4\ngap2 3\ngap1 2\nslot 0x0101\nrun 0\n"
        self.assertEqual(runinput.write(text), bytes.fromhex("7f 0101 02 03 04 05 06 07 00 00 0000 00000000"))

    def test_each_figure_sets_its_bit(self):
        for bit, name in enumerate(["slot", "gap1", "gap2", "jam", "attempt-limit", "backoff-limit", "late-end"]):
            with self.subTest(name=name):
                octets = runinput.write(f"{name} 7\nrun 0\n")
                self.assertEqual(octets[0], 1 << bit)
                self.assertEqual(runinput.write(runinput.read(octets)[0]), octets)

    def test_destinations(self):
        for words, expected in [
            ("broadcast", "ffffffffffff"),
            ("station 1", "020000000002"),
            ("aB:cd:EF:00:01:02", "abcdef000102"),
        ]:
            octets = runinput.write(f"{TWO}offer 1 station 0 to {words} value 0 data empty\nrun 0\n")
            self.assertEqual(octets[28:34].hex(), expected)

    def test_values_and_data(self):
        for words, expected in [
            ("value length data empty", "0000 0000"),
            ("value length data 00ff10", "0003 0003 00ff10"),
            ("value 0xFFFF data 00 FF 10", "ffff 0003 00ff10"),
            ("value 1501 data 46", "05dd 0001 46"),
            ("value 0x600 data 3 zeros", "0600 0003 000000"),
            ("value length data 3 of aa", "0003 0003 aaaaaa"),
            ("value length data 01 2 of aa 02 0x3 zeros 03", "0008 0008 01 aaaa 02 000000 03"),
            ("value length data 0 zeros", "0000 0000"),
        ]:
            with self.subTest(words=words):
                self.assertEqual(self.offer(words), bytes.fromhex(expected))

    def test_widest_data(self):
        self.assertEqual(self.offer("value length data 65535 of 7e"), b"\xff\xff\xff\xff" + b"\x7e" * 65535)

    def test_refused_plans_can_be_written(self):
        for name, text in {
            "positions that fall": "station 9 00:00:00:00:00:00 draws 1\nstation 8 00:00:00:00:00:00 draws 1\nrun 1\n",
            "one station": "station 0 02:00:00:00:00:01 draws 1\nrun 1\n",
            "twenty stations": "station 0 02:00:00:00:00:01 draws 1\n" * 20 + "run 1\n",
            "255 stations": "station 255 ff:00:00:00:00:01\n" * 255 + "run 1\n",
            "no draws": "station 0 02:00:00:00:00:01\nstation 1 02:00:00:00:00:02\nrun 1\n",
            "255 draws": f"station 0 02:00:00:00:00:01 draws {'65535 ' * 255}\nrun 1\n",
            "nothing at all": "run 0\n",
            "D of no station": "D 5\nrun 1\n",
            "an unknown station offers": TWO + "offer 0 station 99 to broadcast value 3 data empty\nrun 1\n",
            "gap1 too large": "gap1 255\n" + TWO + "run 1\n",
            "slot 0": "slot 0\n" + TWO + "run 1\n",
            "times that fall": TWO + "".join(f"offer {t} station 0 to station 1 value length data 01\n" for t in (5, 4)) + "run 1\n",
            "sixty-five offers": TWO + "offer 0 station 0 to station 1 value length data 01\n" * 65 + "run 1\n",
            "too many bit times": TWO + "run 4294967295\n",
        }.items():
            with self.subTest(name=name):
                octets = runinput.write(text)
                again, whole = runinput.read(octets)
                self.assertTrue(whole)
                self.assertEqual(runinput.write(again), octets)

    def test_line_ends_and_byte_order_mark(self):
        text = b"\xef\xbb\xbf" + WORKED_TEXT.read_bytes().replace(b"\n", b"\r\n")
        self.assertEqual(call(["write"], text), (0, WHOLE_CASE, ""))


class Random(unittest.TestCase):
    """Made-up texts and octets."""

    def some_number(self, rng, width):
        """A number for a field of that width, in one of its two forms."""
        number = rng.choice([0, 1, 256 ** width - 1, rng.randrange(256 ** width)])
        return rng.choice([str(number), hex(number), f"0x{number:010X}"])

    def some_address(self, rng):
        return ":".join(f"{rng.randrange(256):02x}" for _ in range(6))

    def some_data(self, rng):
        """Data in up to five pieces."""
        pieces = []
        for _ in range(rng.randrange(6)):
            pieces.append(rng.choice([
                rng.randbytes(rng.randrange(1, 20)).hex(),
                f"{rng.randrange(40)} zeros",
                f"{rng.randrange(40)} of {rng.randrange(256):02x}",
            ]))
        return " ".join(pieces) or "empty"

    def some_offer(self, rng, stations):
        targets = ["broadcast", self.some_address(rng)]
        if stations:
            targets.append(f"station {rng.randrange(stations)}")
        value = rng.choice(["length", self.some_number(rng, 2)])
        return (f"offer{rng.choice([' at ', ' '])}{self.some_number(rng, 4)} station {self.some_number(rng, 1)} "
                f"to {rng.choice(targets)} value {value} data {self.some_data(rng)}")

    def some_text(self, rng):
        """A text of every kind of line."""
        widths = {"slot": 2, "gap1": 1, "gap2": 1, "jam": 1, "attempt-limit": 1, "backoff-limit": 1, "late-end": 1}
        names = rng.sample(sorted(widths), rng.randrange(len(widths) + 1))
        lines = [f"{name} {self.some_number(rng, widths[name])}" for name in names]
        stations, depth = rng.randrange(6), rng.randrange(5)
        for _ in range(stations):
            draws = "".join(" " + self.some_number(rng, 2) for _ in range(depth))
            lines.append(f"station {self.some_number(rng, 1)} {self.some_address(rng)}" + (" draws" + draws if depth else ""))
        if rng.random() < 0.3:
            lines.append(f"D {depth}")
        lines += [self.some_offer(rng, stations) for _ in range(rng.randrange(6))]
        lines.append(f"run {self.some_number(rng, 4)}")
        return "".join(line + rng.choice(["\n", "  # why\n", "\n\n", "\n# so\n"]) for line in lines)

    def test_texts(self):
        rng = random.Random(1)
        for _ in range(500):
            text = self.some_text(rng)
            octets = runinput.write(text)
            again, whole = runinput.read(octets)
            self.assertTrue(whole, text)
            self.assertEqual(runinput.write(again), octets, text)

    def test_changed_octets(self):
        """Whatever is read as whole writes the same octets; whatever is not ends in a comment."""
        rng = random.Random(2)
        for _ in range(1000):
            octets = bytearray(runinput.write(self.some_text(rng)))
            for _ in range(rng.randrange(1, 4)):
                octets[rng.randrange(len(octets))] = rng.randrange(256)
            octets = bytes(octets[:rng.choice([len(octets), rng.randrange(len(octets))])])
            text, whole = runinput.read(octets)
            if whole:
                self.assertEqual(runinput.write(text), octets)
            else:
                self.assertTrue(text.splitlines()[-1].startswith("# "))


class Parts(unittest.TestCase):
    """Octets that are no whole run input."""

    def stops(self, octets):
        """The comments at the text's end."""
        text, whole = runinput.read(octets)
        self.assertFalse(whole)
        return comments(text)

    def test_every_place_of_the_whole_case(self):
        places = [
            (0, "before the map"), (1, "before N"), (2, "before station 0 (N is 2)"), (3, "in station 0 (N is 2)"),
            (9, "before station 1 (N is 2)"), (15, "in station 1 (N is 2)"), (16, "before D"),
            (17, "before the draws of station 0 (D is 1)"), (18, "in the draws of station 0 (D is 1)"),
            (19, "before the draws of station 1 (D is 1)"), (21, "before the offer count"), (22, "in the offer count"),
            (23, "before offer 1 of 2"), (24, "in offer 1 of 2"), (83, "in offer 1 of 2"), (84, "before offer 2 of 2"),
            (144, "in offer 2 of 2"), (145, "before the bit times"), (148, "in the bit times"),
        ]
        for place, where in places:
            with self.subTest(place=place):
                self.assertEqual(self.stops(WHOLE_CASE[:place])[-1], f"ends {where}, at octet {place}")

    def test_every_prefix_stops_at_its_end(self):
        for place in range(len(WHOLE_CASE)):
            self.assertTrue(self.stops(WHOLE_CASE[:place])[-1].endswith(f", at octet {place}"))

    def test_optional_field_cut(self):
        self.assertEqual(self.stops(b"\x03\x02\x00"), ["ends before gap1, at octet 3"])
        self.assertEqual(self.stops(b"\x01\x02"), ["ends in slot, at octet 2"])

    def test_what_is_there_is_printed(self):
        text, whole = runinput.read(WHOLE_CASE[:102])
        self.assertFalse(whole)
        self.assertEqual(
            text.splitlines()[2:],
            [
                "offer at 0 station 0 to station 1 value 0x0800 data 46 zeros",
                "# offer at 0 station 1 to station 0 value 0x0800 data 000000 (size 46)",
                "# ends in offer 2 of 2, at octet 102",
            ],
        )
        self.assertEqual(self.stops(WHOLE_CASE[:95])[0], "offer at 0 station 1 to station 0")
        self.assertEqual(runinput.read(WHOLE_CASE[:20])[0].splitlines()[:2], [
            "station at 0   02:00:00:00:00:01 draws 0  # station 0",
            "station at 10  02:00:00:00:00:02  # station 1",
        ])

    def test_octets_left_over(self):
        text, whole = runinput.read(WHOLE_CASE + b"\x00\x01\x02")
        self.assertFalse(whole)
        self.assertEqual(text, runinput.read(WHOLE_CASE)[0] + "# octets left over: 3, at octet 149\n")

    def test_unknown_map_bits(self):
        for head in [b"\x80", b"\xc0\x01"]:
            found = self.stops(head + WHOLE_CASE[1:])
            self.assertEqual([comment.partition(",")[0] for comment in found], ["map bit 7 stands"])

    def test_status(self):
        self.assertEqual(call(["read"], b""), (1, b"# ends before the map, at octet 0\n", ""))


class Errors(unittest.TestCase):
    """Texts that cannot be written."""

    CASES = [
        ("sttion 0 02:00:00:00:00:01", "'sttion' is no word that begins a line"),
        ("Slot 512", "'Slot' is no word"),
        ("offer 0 station 0 to broadcast valu 1 data empty", "'valu' stands where 'value' should"),
        ("offer 0 statio 0 to broadcast value 1 data empty", "'statio' stands where 'station' should"),
        ("offer 0 station 0 for broadcast value 1 data empty", "'for' stands where 'to' should"),
        ("offer 0 station 0 to broadcast value 1 dat empty", "'dat' stands where 'data' should"),
        ("offer 0 station 0 to broadcast value 1", "ends where 'data' should stand"),
        ("offer 0 station 0 to broadcast value 1 data", "ends where data should stand"),
        ("offer 0 station 0 to broadcast value 1 data 4 of", "ends where an octet should stand"),
        ("offer 0 station 0 to broadcast value 1 data 4 of 1234", "'1234' is not one octet"),
        ("offer 0 station 0 to broadcast value 1 data 4 of xy", "'xy' is no data"),
        ("offer 0 station 0 to broadcast value 1 data 123", "'123' is no data"),
        ("offer 0 station 0 to broadcast value 1 data 46 zeroes", "'zeroes' is no data"),
        ("offer 0 station 0 to broadcast value 1 data ff zeros", "'ff' is no number for size"),
        ("offer 0 station 0 to broadcast value 1 data empty 00", "'00' stands after the line's last word"),
        ("offer 0 station 0 to broadcast value 1 data 65536 zeros", "size 65536 is too wide"),
        ("offer 0 station 0 to broadcast value 1 data 65535 zeros 00", "size 65536 is too wide"),
        ("offer 0 station 0 to station 2 value 1 data 00", "no station 2 stands above"),
        ("offer 0 station 0 to everyone value 1 data 00", "'everyone' is no address"),
        ("offer 0 station 256 to broadcast value 1 data 00", "station 256 is too wide"),
        ("offer 4294967296 station 0 to broadcast value 1 data 00", "time 4294967296 is too wide"),
        ("offer 0 station 0 to broadcast value 0x10000 data 00", "value 65536 is too wide"),
        ("offer soon station 0 to broadcast value 1 data 00", "'soon' is no number for time"),
        ("slot 65536", "slot 65536 is too wide"),
        ("slot", "ends where slot should stand"),
        ("slot -1", "'-1' is no number for slot"),
        ("slot 5 6", "'6' stands after the line's last word"),
        ("gap1 256", "gap1 256 is too wide"),
        ("gap2 256", "gap2 256 is too wide"),
        ("jam 256", "jam 256 is too wide"),
        ("attempt-limit 256", "attempt-limit 256 is too wide"),
        ("backoff-limit 256", "backoff-limit 256 is too wide"),
        ("D 256", "D 256 is too wide"),
        ("D 2", "2 draws, where the lines above have 1"),
        ("station 256 02:00:00:00:00:03 draws 1", "position 256 is too wide"),
        ("station 20 02:00:00:00:00 draws 1", "'02:00:00:00:00' is no address"),
        ("station 20 02:00:00:00:00:03:04 draws 1", "'02:00:00:00:00:03:04' is no address"),
        ("station 20 020000000003 draws 1", "'020000000003' is no address"),
        ("station 20 02:00:00:00:00:03 draws 65536", "draw 65536 is too wide"),
        ("station 20 02:00:00:00:00:03 draws 1 x", "'x' is no number for draw"),
        ("station 20 02:00:00:00:00:03 draws", "ends where draw should stand"),
        ("station 20 02:00:00:00:00:03 draw 1", "'draw' stands where 'draws' should"),
        ("station 20 02:00:00:00:00:03 draws 1 2", "2 draws, where the lines above have 1"),
        ("station 20 02:00:00:00:00:03", "0 draws, where the lines above have 1"),
        ("run 4294967296", "bit times 4294967296 is too wide"),
        ("run 1\nrun 1", "'run' stands for the second time"),
    ]

    def refusal(self, text):
        """The message for a text that cannot be written."""
        with self.assertRaises(runinput.Unwritable) as caught:
            runinput.write(text)
        return str(caught.exception)

    def test_messages(self):
        for line, message in self.CASES:
            with self.subTest(line=line):
                number = 5 + line.count("\n")
                found = self.refusal(f"# two stations\n\n{TWO}{line}\n# more\nrun 1\n")
                self.assertTrue(found.startswith(f"line {number}: "), found)
                self.assertIn(message, found)

    def test_second_figure(self):
        self.assertEqual(self.refusal("jam 4\nslot 64\njam 4\nrun 1\n"), "line 3: 'jam' stands for the second time")

    def test_too_many(self):
        station = "station 0 02:00:00:00:00:01\n"
        self.assertEqual(self.refusal(station * 256 + "run 1"), "line 256: N 256 is too wide for its field (at most 255)")
        draws = station.strip() + " draws" + " 1" * 256
        self.assertEqual(self.refusal(draws + "\nrun 1"), "line 1: D 256 is too wide for its field (at most 255)")
        offer = "offer 0 station 0 to broadcast value 0 data empty\n"
        self.assertIn("line 65536: offer count 65536 is too wide", self.refusal(offer * 65536 + "run 1"))

    def test_no_run(self):
        self.assertEqual(self.refusal(TWO), "line 2: ends without a 'run' line")
        self.assertEqual(self.refusal(""), "line 1: ends without a 'run' line")

    def test_program_writes_nothing(self):
        self.assertEqual(call(["write"], b"slot 1\nrun 1\nslto 2\n")[:2], (1, b""))
        self.assertEqual(call(["write"], b"slot 65536\nrun 1\n"),
                         (1, b"", "runinput: line 1: slot 65536 is too wide for its field (at most 65535)\n"))


class Program(unittest.TestCase):
    """The tool as it is called."""

    def test_usage(self):
        for arguments in [], ["print"], ["write", "plan.txt"], ["read", "read"], ["--help"]:
            with self.subTest(arguments=arguments):
                status, printed, message = call(arguments, WHOLE_CASE)
                self.assertEqual((status, printed), (2, b""))
                self.assertTrue(message.startswith("usage: tools/runinput write"))

    def test_write_and_read(self):
        self.assertEqual(call(["write"], WORKED_TEXT.read_bytes()), (0, WHOLE_CASE, ""))
        status, text, message = call(["read"], WHOLE_CASE)
        self.assertEqual((status, message), (0, ""))
        self.assertEqual(call(["write"], text), (0, WHOLE_CASE, ""))


if __name__ == "__main__":
    unittest.main()
