"""Tests of the Python package that need no library: text forms, places of refusals, rows, tables, logs, drawings.

From the repository's root: python3 -m unittest discover -s tools -p 'test_*.py'
"""

import os
import re
import subprocess
import sys
import tempfile
import unittest
from pathlib import Path
from unittest import mock

ROOT = Path(__file__).resolve().parent.parent
sys.path.insert(0, str(ROOT / "python"))

from wisavulome import output, packet, refusals, rows, svg, table, text, windows  # noqa: E402
from wisavulome.course import parse_line  # noqa: E402
from wisavulome.failure import Failure  # noqa: E402
from wisavulome.heard import collect  # noqa: E402
from wisavulome.library import (
    CALLS,
    COUNTERS,
    EVENTS,
    FIGURES,
    JAM,
    MAX_MARKS,
    NAME_OCTETS,
    ONE,
    REFUSALS,
    SEVERAL,
    SIZES,
    ZERO,
    Refused,
    StationState,
    declare,
)  # noqa: E402
from wisavulome.window import window_of  # noqa: E402

SHEET = "station at 0 02:00:00:00:00:01\nstation at 10 02-00-00-00-00-02\n"


class Text(unittest.TestCase):
    def test_sheet_alone(self):
        plan = text.parse(SHEET, whole=False)
        self.assertTrue(text.is_sheet(plan))
        self.assertEqual(text.encode_given(plan).hex(), "0002" + "00020000000001" + "0a020000000002")
        with self.assertRaises(text.Unwritable):
            text.parse(SHEET)

    def test_addresses(self):
        for word in ["02:00:00:00:00", "02:00:00-00:00:01", "2:0:0:0:0:1", "0200.0000.0001", "02:00:00:00:00:0g"]:
            with self.assertRaises(text.Unwritable):
                text.parse(f"station at 0 {word}\n", whole=False)


class Table(unittest.TestCase):
    """The one table of numbers holds together."""

    def test_sizes(self):
        self.assertEqual(SIZES["counters"], 4 * len(COUNTERS))
        self.assertEqual(SIZES["station"], 4 * len(StationState._fields))
        self.assertEqual(SIZES["run"], 4 * (len(EVENTS) + 3))
        self.assertEqual(SIZES["plan"], SIZES["sheet"] + 20)
        self.assertEqual(SIZES["store"], MAX_MARKS * (1 + NAME_OCTETS + SIZES["area"]))
        self.assertEqual([figure.absent for figure in FIGURES], [512, 64, 32, 32, 16, 10, 0])

    def test_refusal_words(self):
        self.assertTrue(str(Refused(7)).startswith("refused 7: positions"))
        self.assertEqual(sorted(REFUSALS), [*range(1, 19), 20, 21])

    def test_no_offset(self):
        """No module knows where anything lies in a work area: areas are only handed to calls."""
        for path in sorted((ROOT / "python" / "wisavulome").glob("*.py")):
            self.assertNotRegex(path.read_text(), r"\barea(\.raw)?\[|(unpack_from|word_at)\([^)]*\barea\b", path.name)

    def test_missing_function(self):
        class Empty(dict):
            def __getitem__(self, name):
                raise AttributeError(name)

        self.assertIsNone(declare(Empty(), "fits", CALLS["fits"]))


class Calls(unittest.TestCase):
    """Every call that the README lists is there in C, but the lookups."""

    OTHER_NAMES = {
        "sheet_check::check": "check_layout",
        "area_check::check": "check_area",
        "bus_step::read_counters": "counters",
        "bus_run::run": "run_stepwise",
        "marks::go_back": "return",
        "marks::drop_mark": "drop",
    }

    def test_readme(self):
        calling = (ROOT / "README.md").read_text().split("## Calling it\n")[1].split("## ")[0]
        names = re.findall(r"^    (\S+)\(", calling, re.M)
        self.assertGreater(len(names), 17)
        header = (ROOT / "crates" / "capi" / "wisavulome.h").read_text()
        in_c = set(re.findall(r"uint32_t (wisavulome_\w+)\(", header))
        self.assertEqual(set(re.findall(r"wisavulome_\w+(?=[,\n])", calling)) & in_c, in_c)
        for name in names:
            if not name.startswith("log_"):
                c_name = self.OTHER_NAMES.get(name, name.rpartition("::")[2])
                self.assertIn(f"uint32_t wisavulome_{c_name}(", header)


class Progress(unittest.TestCase):
    """Progress on standard error, after some seconds, on a terminal alone."""

    def shown(self, terminal, patience):
        with mock.patch.object(output.os, "isatty", return_value=terminal), mock.patch.object(
            output, "PATIENCE", patience
        ), mock.patch.object(output.os, "write") as written, output.progress("set", 10) as meter:
            meter.shown -= 5
            meter.at(3)
            meter.at(4)
        return [call.args[1] for call in written.call_args_list]

    def test_progress(self):
        self.assertEqual(self.shown(True, -1), [b"\rset 3 of 10", b"\r\x1b[K"])
        self.assertEqual(self.shown(False, -1), [])
        self.assertEqual(self.shown(True, 60), [])


class Places(unittest.TestCase):
    def test_unknown_number(self):
        self.assertEqual(refusals.place(b"", 99), "")
        self.assertIn("refused 99: a refusal that this version does not know", str(refusals.InputRefused("x", b"", 99)))

    def test_short(self):
        for octets, words in [
            ("", "ends before the map, at octet 0"),
            ("01", "ends before slot, at octet 1"),
            ("0102", "ends in slot, at octet 2"),
            ("00", "ends before N, at octet 1"),
            ("0002", "ends before station 0 (N is 2), at octet 2"),
        ]:
            self.assertEqual(refusals.place(bytes.fromhex(octets), 3), words)


class Logs(unittest.TestCase):
    """The run program's text as a log (windows)."""

    def entries(self, printed):
        """The entries of a text, in hexadecimal; the same however it is cut into chunks of lines."""
        made = windows.read_log("log", [printed.encode()]).entries
        lines = [line.encode() for line in printed.splitlines(keepends=True)]
        self.assertEqual(windows.read_log("log", lines).entries, made)
        return [made[at : at + 6].hex() for at in range(0, len(made), 6)]

    def test_entries(self):
        printed = (ROOT / "stored" / "level00" / "worked.out").read_text()
        self.assertEqual(
            self.entries(printed),
            ["0000000a0001", "0000000a0101", "000003090003", "000003140106", "000005b30103", "000005be0006"],
        )

    def test_stations(self):
        """N is that of the lines that say it, the largest."""
        yes, no = "stations 2 fit yes\n", "stations 3 fit no\n"
        for lines, stations in [("", None), (yes, 2), (no + yes, 3)]:
            self.assertEqual(windows.read_log("log", [lines.encode()]).stations, stations)

    def test_every_word(self):
        lines = "".join(f"{at} 1 {word} 7\n" for at, word in enumerate(EVENTS))
        self.assertEqual([int(entry[-2:], 16) for entry in self.entries(lines)], list(range(1, len(EVENTS) + 1)))

    def test_stored_texts(self):
        """Every text that is stored can be read; as many entries as lines that are events."""
        for path in sorted((ROOT / "stored").glob("level*/*.out")):
            if path.name.startswith(("sheet", "owner")):
                continue  # what other programs print
            printed = path.read_text()
            if printed.startswith("refused"):
                with self.assertRaises(Failure):
                    self.entries(printed)
                continue
            events = [line for line in printed.splitlines()[1:-1] if " refused " not in line]
            self.assertEqual(len(self.entries(printed)), len(events), path.name)

    def test_no_event(self):
        for line in [
            "hello",
            "10 0 collision",
            "10 0 crash 3",
            "10  0 sent 1",
            "-1 0 sent 1",
            "10 0 sent 1 2",
            "",
            " 10 0 sent 1",
            "refused 3",
            "10 0 got 3",
            "10 0 got bad 3",
            "1e3 0 sent 1",
        ]:
            with self.assertRaises(Failure) as caught:
                windows.read_log("log.txt", [f"stations 2 fit yes\n{line}\nend 5\n".encode()])
            self.assertTrue(str(caught.exception).startswith(f"log.txt: line 2: '{line}' is no event"), line)

    def test_too_large(self):
        for line in ["4294967296 0 sent 1", "1 256 sent 1"]:
            with self.assertRaises(Failure):
                windows.read_log("log", [line.encode() + b"\n"])

    def test_file(self):
        """A file of any length, with or without a last end of line, and a line number past the first chunk."""
        with tempfile.TemporaryDirectory() as folder:
            path = Path(folder, "log")
            line = b"10 0 collision 11\n"
            path.write_bytes(line * 200000 + b"11 1 sent 1")
            made = windows.read_log("log", windows.chunks_of(str(path))).entries
            self.assertEqual((len(made), made[-6:].hex()), (6 * 200001, "0000000b0103"))
            path.write_bytes(line * 200000 + b"what\n" + line)
            with self.assertRaises(Failure) as caught:
                windows.read_log("log", windows.chunks_of(str(path)))
            self.assertTrue(str(caught.exception).startswith("log: line 200001: 'what' is no event"))

    def test_windows(self):
        self.assertEqual(
            windows.read_windows("w", "0 5 9 # first\n\n1 0 4294967295\n"), [(0, 5, 9), (1, 0, 4294967295)]
        )
        for line in ["1 2", "1 2 3 4", "a b c", "1 2 4294967296", "-1 2 3"]:
            with self.assertRaises(Failure) as caught:
                windows.read_windows("w", f"0 1 2\n{line}\n")
            self.assertIn("w: line 2: ", str(caught.exception))

    def test_parse_line(self):
        event = parse_line("12 3 got too-long 99")
        self.assertEqual((event.time, event.station, event.word, event.number), (12, 3, "got too-long", 99))
        self.assertIsNone(parse_line("end 12"))


class Rows(unittest.TestCase):
    ROW = ("0123456789abcdef", 3, 1, "refused 12", 0, None, 0, 0, 0)

    def test_round_trip(self):
        line = rows.row_line(self.ROW)
        self.assertEqual(line, "0123456789abcdef,3,1,refused 12,0,,0,0,0\n")
        self.assertEqual(rows.parse_row(line[:-1]), self.ROW)

    def test_no_rows(self):
        for content in [b"", b"x\n", rows.HEADER.encode() + b"x\n", rows.HEADER.encode() + b"0,0,0\n"]:
            with self.assertRaises(Failure):
                rows.parse_rows("file", content)
        self.assertEqual(rows.parse_rows("file", rows.HEADER.encode() + b"0123"), [])


class Shown(unittest.TestCase):
    def test_table(self):
        self.assertEqual(
            table.as_table(["a", "word"], [[1, "x"], [None, "yy"], [22, None]]), " a  word\n 1  x\n -  yy\n22  -\n"
        )
        self.assertEqual(table.as_csv(["a", "b"], [[None, "x,y"]]), 'a,b\n,"x,y"\n')

    def test_window(self):
        self.assertEqual(
            [window_of(words, 50) for words in (None, "5:9", "5:+9", "5:", ":7", "40:90")],
            [(0, 50), (5, 9), (5, 14), (5, 50), (0, 7), (40, 50)],
        )
        for words in ["5:5", "9:5", "50:", "5", "x:y", "-1:5", "5:+0", "5:-9"]:
            with self.assertRaises(Failure):
                window_of(words, 50)

    def test_spread(self):
        """Labels keep their order, do not meet, and stay between the borders where there is room."""
        places = svg.spread([0, 1, 2, 100, 100], [10] * 5, -5, 105)
        self.assertEqual(places, sorted(places))
        self.assertTrue(all(b - a >= 14 for a, b in zip(places, places[1:])))
        self.assertTrue(places[0] - 5 >= -5 and places[-1] + 5 <= 105)

    def test_numbers(self):
        self.assertEqual(
            [svg.number(value) for value in (0, -0.001, 1.5, 2, 0.256, 1e6)], ["0", "0", "1.5", "2", "0.26", "1000000"]
        )

    def test_escape(self):
        drawing = svg.Svg(10)
        drawing.text(1, 1, 'a<b & "c"')
        made = drawing.finished(5, "<t>", b"\x00\xff", "sheet")
        self.assertIn("a&lt;b &amp;", made)
        self.assertIn("<title>&lt;t&gt;</title>", made)
        self.assertIn(">00ff</w:octets>", made)

    def test_collect(self):
        """Bits after the first 10101011; a spoiled symbol before it breaks the row, after it is a 0."""
        start = [ONE, ZERO] * 3 + [ONE, ONE]
        octet = [ONE, ZERO, ZERO, ONE, ZERO, ZERO, ZERO, ZERO]
        self.assertEqual(collect(start + octet), b"\x09")
        self.assertEqual(collect([ONE, ZERO, ZERO] + start + octet + [ONE]), b"\x09")
        self.assertEqual(collect(start[:4] + [SEVERAL] + start[4:] + octet), b"")
        self.assertEqual(collect(start[:4] + [JAM] + start + octet), b"\x09")
        self.assertEqual(collect(start + [SEVERAL, ZERO, JAM] + octet[3:]), b"\x08")
        self.assertEqual(collect([]), b"")

    def test_packet(self):
        bits = packet.packet_bits(b"\x01\x80")
        self.assertEqual("".join(map(str, bits)), "10101010" * 7 + "10101011" + "10000000" + "00000001")
        self.assertEqual(packet.octets_of_bits(bits[64:] + (1, 1)), b"\x01\x80")


class Outputs(unittest.TestCase):
    def test_replaced_whole(self):
        with tempfile.TemporaryDirectory() as folder:
            path = Path(folder, "out")
            path.write_text("before")
            path.chmod(0o640)
            output.write_whole(str(path), "after", None)
            self.assertEqual((path.read_text(), path.stat().st_mode & 0o777), ("after", 0o640))
            self.assertEqual(os.listdir(folder), ["out"])

    def test_link_stays(self):
        """A symbolic link is written through, not replaced."""
        with tempfile.TemporaryDirectory() as folder:
            Path(folder, "link").symlink_to("file")
            output.write_whole(str(Path(folder, "link")), b"x", None)
            self.assertTrue(Path(folder, "link").is_symlink())
            self.assertEqual(Path(folder, "file").read_bytes(), b"x")

    def test_failures(self):
        with tempfile.TemporaryDirectory() as folder:
            for path in [folder, folder + "/no/file", "/dev/full"]:
                with self.assertRaises(Failure) as caught:
                    output.write_whole(path, b"x", None)
                self.assertEqual(caught.exception.status, 3)
            self.assertEqual(os.listdir(folder), [])

    def test_runinput_is_thin(self):
        """The older script without a library: usage, full disk, closed output, a closed pipe."""
        tool = ROOT / "tools" / "runinput"
        worked = ROOT / "docs" / "worked.txt"
        for script, status, err in [
            (f"{tool} read x", 2, "usage: tools/runinput write"),
            (
                f"{tool} write <{worked} >/dev/full",
                3,
                "runinput: standard output could not be written: No space left on device\n",
            ),
            (f"{tool} write <{worked} >&-", 3, "runinput: standard output is closed: the output was not written\n"),
            (f"{tool} read <&-", 2, "runinput: standard input cannot be read"),
            (f"{{ sleep 0.2; {tool} write <{worked}; }} | true", 0, ""),
        ]:
            done = subprocess.run(["bash", "-c", script], capture_output=True, text=True, check=False)
            self.assertEqual(done.returncode, status, script)
            self.assertTrue(done.stderr.startswith(err) and bool(err) == bool(done.stderr), (script, done.stderr))


if __name__ == "__main__":
    unittest.main()
