"""Drawings, captures and waves, read by the real programs: tshark, capinfos, vcd2fst, sigrok-cli, xmllint,
rsvg-convert.

tools/check-formats installs them and runs these tests. A program that is missing fails its test where
WISAVULOME_FORMATS is 'all', and is said and left out where it is not.
"""

import os
import re
import shutil
import subprocess
import sys
from pathlib import Path

sys.path.insert(0, str(Path(__file__).resolve().parent.parent / "tests_library"))

from common import STORED, WORKED, CommandTest, call, stepped_cases  # noqa: E402
from shapes import FAR_APART, ONE_APART, THREE  # noqa: E402

from wisavulome.course import follow  # noqa: E402
from wisavulome.library import ENDINGS  # noqa: E402
from wisavulome.packet import packet_bits  # noqa: E402

LEFT_OUT = set()


class RealTest(CommandTest):
    """A test that needs a real program."""

    def need(self, name):
        """The program must be there, or the test is left out."""
        if shutil.which(name):
            return
        if os.environ.get("WISAVULOME_FORMATS") == "all":
            self.fail(f"{name} is not installed")
        LEFT_OUT.add(name)
        self.skipTest(f"{name} is not installed: left out")

    def real(self, *words):
        """What a real program prints; it must end well."""
        done = subprocess.run(list(map(str, words)), capture_output=True, text=True, check=False, cwd=self.folder)
        self.assertEqual(done.returncode, 0, (words, done.stderr))
        return done.stdout

    def made(self, command, content, name, *more):
        """The output of a command for a plan, as a file."""
        plan = content if isinstance(content, Path) else self.file("plan", content)
        self.assertEqual(call(command, plan, *more, "-o", self.folder / name)[0], 0)
        return self.folder / name


class Captures(RealTest):
    FIELDS = [
        "frame.interface_id",
        "frame.time_epoch",
        "eth.fcs.status",
        "frame.packet_flags_direction",
        "frame.packet_flags_crc_error",
        "frame.packet_flags_unaligned_frame_error",
        "frame.len",
    ]

    def fields(self, path):
        """Each frame as tshark reads it, by the names of its fields."""
        words = ["tshark", "-r", path, "-o", "eth.check_fcs:TRUE", "-T", "fields", "-E", "separator=;"]
        lines = self.real(*words, *(word for name in self.FIELDS for word in ("-e", name))).splitlines()
        return [dict(zip(self.FIELDS, line.split(";"))) for line in lines]

    def test_tshark(self):
        """On every stored case: interface, time, direction, and a good check sequence on every frame that is whole."""
        self.need("tshark")
        for name, octets in stepped_cases(self.library):
            course = follow(self.library, octets)
            told = [
                event for event in course.events if event.word in ENDINGS or event.word.startswith("got")
            ]
            if not told:
                continue
            found = self.fields(self.made("capture", octets, "c.pcapng"))
            self.assertEqual(len(found), len(told), name)
            for event, frame in zip(told, found):
                self.assertEqual(int(frame["frame.interface_id"]), event.station, name)
                self.assertEqual(round(float(frame["frame.time_epoch"]) * 10**7), event.time, name)
                self.assertEqual(
                    int(frame["frame.packet_flags_direction"], 0), 1 if event.word.startswith("got") else 2
                )
                if event.word in ("sent", "got ok"):
                    self.assertEqual(frame["eth.fcs.status"], "1", (name, event))

    def test_tshark_errors(self):
        self.need("tshark")
        course = follow(self.library, (STORED / "case048.in").read_bytes())
        words = [
            event.word for event in course.events if event.word in ENDINGS or event.word.startswith("got")
        ]
        found = self.fields(self.made("capture", STORED / "case048.in", "c.pcapng"))[words.index("got alignment")]
        self.assertIn(found["frame.packet_flags_crc_error"], ("1", "True"))
        self.assertIn(found["frame.packet_flags_unaligned_frame_error"], ("1", "True"))
        self.assertEqual(found["eth.fcs.status"], "0")

    def test_one_flipped_bit(self):
        """One bit of a frame the other way, and tshark calls its check sequence bad, that one alone."""
        self.need("tshark")
        path = self.made("capture", WORKED, "c.pcapng")
        self.assertEqual([frame["eth.fcs.status"] for frame in self.fields(path)], ["1", "1", "1", "1"])
        octets = bytearray(path.read_bytes())
        course = follow(self.library, (STORED / "worked.in").read_bytes())
        at = octets.index(course.fates[0].frame) + 30
        octets[at] ^= 4
        path.write_bytes(octets)
        self.assertEqual([frame["eth.fcs.status"] for frame in self.fields(path)], ["0", "1", "1", "1"])

    def test_comments(self):
        self.need("tshark")
        out = self.real("tshark", "-r", self.made("capture", WORKED, "c.pcapng"), "-T", "fields", "-e", "frame.comment")
        self.assertEqual(
            out.splitlines()[0],
            "offer 1; attempt 1 started in step 0, collision at bit 11 in step 10; attempt 2 started in step 202",
        )

    def test_capinfos(self):
        self.need("capinfos")
        out = self.real("capinfos", self.made("capture", WORKED, "c.pcapng"))
        self.assertIn("First packet time:   1970-01-01 00:00:00.000077700\n", out)
        self.assertIn("Last packet time:    1970-01-01 00:00:00.000147000\n", out)
        self.assertIn("Number of interfaces in file: 2\n", out)
        self.assertIn("Strict time order:   True\n", out)
        self.assertRegex(out, r"FCS length = 4")


class Waves(RealTest):
    def start(self):
        """The frame that station 1 hears last in the worked case: its first step there, and its bits."""
        fate = follow(self.library, (STORED / "worked.in").read_bytes()).fates[0]
        return fate.attempts[-1].start, packet_bits(fate.frame)

    def test_vcd2fst(self):
        """The wave through GTKWave's own format and back: the bits are the packet's."""
        self.need("vcd2fst")
        self.need("fst2vcd")
        for more in ([], ["--vectors"]):
            path = self.made("wave", WORKED, "w.vcd", *more)
            self.real("vcd2fst", path, "w.fst")
            back = self.real("fst2vcd", "w.fst")
            names = {name: mark for mark, name in re.findall(r"\$var \w+ 1 (\S+) (\w+) ", back)}
            start, bits = self.start()
            self.assertEqual(self.bits(back, names["s0_tx_bit"], start, len(bits)), list(bits))
            self.assertEqual(self.bits(back, names["s1_rx_bit"], start + 10, len(bits)), list(bits))

    def bits(self, text, mark, first, count):
        """The values of a signal from a step on."""
        body = text.split("$enddefinitions $end")[1].split()
        time, changes = 0, {}
        for word in body:
            if word.startswith("#"):
                time = int(word[1:])
            elif word[1:] == mark and word[0] in "01":
                changes[time] = int(word[0])
        value, found = 0, []
        for step in range(first + count):
            value = changes.get(step, value)
            found.append(value)
        return found[first:]

    def test_sigrok(self):
        """The wave by sigrok: the rate is 10 MHz, and the bits are the packet's."""
        self.need("sigrok-cli")
        path = self.made("wave", WORKED, "w.vcd")
        out = self.real(
            "sigrok-cli",
            "-I",
            "vcd",
            "-i",
            path,
            "-C",
            "s0_tx_bit,s1_rx_bit",
            "-O",
            "csv:label=false:header=false:dedup=false",
        )
        rows = [line.split(",") for line in out.splitlines() if re.fullmatch(r"[01],[01]", line)]
        start, bits = self.start()
        self.assertEqual([int(row[0]) for row in rows[start : start + len(bits)]], list(bits))
        self.assertEqual([int(row[1]) for row in rows[start + 10 : start + 10 + len(bits)]], list(bits))
        self.assertIn("Samplerate: 10000000", self.real("sigrok-cli", "-I", "vcd", "-i", path, "--show"))


class Drawings(RealTest):
    def drawings(self):
        """Drawings of all kinds."""
        yield self.made("draw", WORKED, "sheet.svg", "--sheet")
        for name, content in [
            ("three", THREE),
            ("one", ONE_APART),
            ("far", FAR_APART),
            ("late", STORED / "slot-one-over.in"),
            ("lost", STORED / "gap-one-over.in"),
        ]:
            yield self.made("draw", content, f"{name}.svg")
            yield self.made("draw", content, f"{name}-sheet.svg", "--sheet")
        call("sweep", WORKED, "--sets", 30, "--rows", self.folder / "rows.csv")
        yield self.made("draw", self.folder / "rows.csv", "sweep.svg")

    def test_xmllint(self):
        self.need("xmllint")
        for path in self.drawings():
            self.real("xmllint", "--noout", "--nonet", path)
        root = self.real(
            "xmllint", "--xpath", "string(//*[local-name()='octets'])", self.made("draw", WORKED, "s.svg", "--sheet")
        )
        self.assertEqual(root.strip(), "0002000200000000010a020000000002")

    def test_rsvg(self):
        """The renderer takes each drawing, at its size."""
        self.need("rsvg-convert")
        for path in self.drawings():
            self.real("rsvg-convert", path, "-o", "drawn.png")
            octets = (self.folder / "drawn.png").read_bytes()
            self.assertEqual(octets[:8], b"\x89PNG\r\n\x1a\n")
            width, height = re.search(r'width="([0-9.]+)" height="([0-9.]+)"', path.read_text()).groups()
            self.assertEqual(int.from_bytes(octets[16:20], "big"), round(float(width)))
            self.assertAlmostEqual(int.from_bytes(octets[20:24], "big"), float(height), delta=1)


class Parallel(RealTest):
    def test_gnu_parallel(self):
        """The rows of a sweep spread by the real GNU parallel: the merged table is that of one process."""
        self.need("parallel")
        self.file("plan.txt", THREE)
        expected = call("sweep", self.folder / "plan.txt", "--sets", 40)
        part = '"$W" sweep plan.txt --sets 40 --jobs 1 --only {}:+10 --rows part{}.csv >/dev/null'
        script = f"seq 0 10 30 | parallel --will-cite '{part}'; \"$W\" sweep plan.txt --sets 40 --merge part*.csv"
        self.assertEqual(self.shell(script), expected)


def tearDownModule():
    """What was left out is said."""
    if LEFT_OUT:
        print("left out, not installed:", ", ".join(sorted(LEFT_OUT)), file=sys.stderr)
