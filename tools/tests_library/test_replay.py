"""Every stored case of every level, through the library: run inputs, counters, and lists of calls (tools/replay)."""

import subprocess
import zlib

from common import ROOT, STORED, CommandTest, folders, run_inputs

from wisavulome.library import SIZES, Refused, buffer_of
from wisavulome.replay import replay, shown_counters

SHEET = "0002000200000000010a020000000002"

LATE_SHEET = "410040010200020000000001c8020000000002"  # slot 64, late-end 1, span 200


class Stored(CommandTest):
    def printed(self, path):
        """What is printed for a run input, by pieces, and the area that is left."""
        area = buffer_of("area")
        text = b"".join(piece for piece, _left in self.library.pieces(path.read_bytes(), area)).decode()
        return text, area

    def test_runs(self):
        """By pieces and by one call, what is printed and the area that is left."""
        for _level, path in run_inputs():
            with self.subTest(path):
                expected = path.with_suffix(".out").read_text()
                text, area = self.printed(path)
                self.assertEqual(text, expected)
                whole, left = self.library.print_whole(path.read_bytes(), len(expected))
                self.assertEqual((whole.decode(), left.raw), (expected, area.raw))

    def test_counters(self):
        """The text, then a line for each station's counters; nothing more where the input is refused."""
        for level, path in run_inputs():
            if not path.with_suffix(".counters").exists():
                continue
            with self.subTest(path):
                text, area = self.printed(path)
                taken = not text.startswith("refused")
                stations = range(len(self.library.read_plan(path.read_bytes()).layout.taps)) if taken else ()
                for station in stations:
                    numbers = shown_counters(level, self.library.counters(area, station)).replace(",", " ")
                    text += f"counters {station} {numbers}\n"
                self.assertEqual(text, path.with_suffix(".counters").read_text())

    def test_sheets(self):
        """What the writer makes of a sheet, or `refused n`; written twice it stays."""
        seen = 0
        for _level, folder in folders():
            for path in sorted(folder.glob("sheet*.in")):
                with self.subTest(path):
                    expected = path.with_suffix(".out").read_bytes()
                    try:
                        written = self.library.write_sheet(path.read_bytes())
                        self.assertEqual(self.library.write_sheet(written), written)
                    except Refused as refusal:
                        written = f"refused {refusal.number}\n".encode()
                    self.assertEqual(written, expected)
                seen += 1
        self.assertGreaterEqual(seen, 20)

    def test_calls(self):
        seen = 0
        for level, folder in folders():
            for path in sorted(folder.glob("*.calls")):
                with self.subTest(path):
                    text = path.read_text()
                    calls = [line for line in text.splitlines() if line and not line.startswith("#")]
                    answers = path.with_suffix(".answers").read_text().splitlines()
                    self.assertEqual(len(calls), len(answers))
                    for call, made, expected in zip(calls, replay(self.library, text, level), answers):
                        self.assertEqual(made, expected, call[:200])
                seen += 1
        self.assertGreaterEqual(seen, 2)


class Replay(CommandTest):
    def answers(self, *lines, level=0):
        return list(replay(self.library, "\n".join(lines) + "\n", level))

    def test_malformed(self):
        for line in [
            "jump 5", "second", "second sheet 00", "second second clock", "run", "run 1 2", "run x", "run -1", "step 1",
            "sheet 0", "sheet 0g", "build 02 020000000001 0 - 64", "offer 0 020000000002 65536 -", "area 99999999",
            f"fresh {SHEET} 1 0,65536", f"fresh {SHEET} 1 0,", "open 3* 0", "open *00 0",
            "windows 2 1:0:crash -", "windows 2 1:0 -", "windows 2 - 0:1", "windows 256 - -", "second windows 2 - -",
        ]:  # fmt: skip
            self.assertEqual(self.answers(line), ["malformed"], line)

    def test_lines_without_answer(self):
        self.assertEqual(self.answers("# step", "", "  ", f"fresh {SHEET} 1 0,1", "", "clock"), ["ok", "ok 0"])

    def test_frames(self):
        """A frame that is built, sent, read and opened; its check sequence is that of zlib."""
        front = bytes.fromhex("020000000002020000000001") + b"\x00\x03abc" + bytes(43)
        frame = (front + zlib.crc32(front).to_bytes(4, "little")).hex()
        given = "020000000002 3 616263"
        words = f"build 020000000002 020000000001 3 616263 {SIZES['frame']}"
        self.assertEqual(
            self.answers(
                words, f"open {frame} 0", f"open {frame} 7", f"open {frame[:-2]}{int(frame[-2:], 16) ^ 1:02x} 0",
                f"fresh {SHEET} 1 0,1", f"offer 0 {given}", "run 587", "read 1 63", "read 1 64", "read 0 64",
            ),
            [
                f"ok {frame}", "ok ok 616263", "ok ok 616263", "ok check", "ok", "ok",
                "ok 587 collision=0 late=0 sent=1 given-up=0 ok=1 too-long=0 alignment=0 check=0 length=0",
                "refused 15", f"ok 64 {frame}", "refused 14",
            ],
        )  # fmt: skip

    def test_no_data(self):
        frame = self.answers("build ffffffffffff 020000000001 0 - 64")[0].removeprefix("ok ")
        self.assertEqual(self.answers(f"open {frame} 0"), ["ok ok -"])

    def test_two_areas(self):
        fresh = f"fresh {SHEET} 1 0,1"
        self.assertEqual(
            self.answers(fresh, "second clock", f"second {fresh}", "second run 5", "clock", "second clock", "skip 2"),
            [
                "ok", "refused 2", "ok",
                "ok 5 collision=0 late=0 sent=0 given-up=0 ok=0 too-long=0 alignment=0 check=0 length=0",
                "ok 0", "ok 5",
                "ok 2 collision=0 late=0 sent=0 given-up=0 ok=0 too-long=0 alignment=0 check=0 length=0",
            ],
        )  # fmt: skip

    def test_late_end(self):
        """A late collision closes the frame, whatever the attempt limit, and the station takes the next one."""
        fresh = f"fresh {LATE_SHEET} 1 0,1"
        offers = ["offer 0 020000000002 0 -", "run 150", "offer 1 020000000001 0 -", "run 200"]
        lines = [f"sheet {LATE_SHEET}", fresh, *offers, "step", "offer 0 020000000002 0 -", "run 31", "step"]
        lines += ["offer 0 020000000002 0 -", "counters 0"]
        tally = "late=0 sent=0 given-up=0 late-end=0 ok=0 too-long=0 alignment=0 check=0 length=0"
        self.assertEqual(
            self.answers(*lines, level=1),
            [
                "ok 19 no 64 64 32 32 16 10 1 0 0/020000000001/0,200/020000000002/0",
                "ok", "ok", f"ok 150 collision=0 {tally}", "ok", f"ok 200 collision=1 {tally}", "ok 0 late 351",
                "refused 12", f"ok 31 collision=0 {tally}", "ok 0 late-end 1", "ok",
                "ok 2,1,1,1,0,0,0,0,0,0,0,0,0,0,0,0,1",
            ],
        )  # fmt: skip
        self.assertEqual(self.answers(*lines)[-1], "ok 2,1,1,1,0,0,0,0,0,0,0,0,0,0,0,0")

    def deferred(self, *lines):
        """The deferred frames of stations 0 and 1 after these calls, and their frames sent after one collision."""
        answers = self.answers(f"fresh {SHEET} 1 0,1", *lines, "run 4000", "counters 0", "counters 1")
        counters = [[int(number) for number in answer.removeprefix("ok ").split(",")] for answer in answers[-2:]]
        return [(each[8], each[5]) for each in counters]

    def test_deferred(self):
        """A frame that waits and goes out counts; one that was in a collision does not, whether it waited before or after."""
        to_1, to_0 = "offer 0 020000000002 0 -", "offer 1 020000000001 0 -"
        self.assertEqual(self.deferred(to_1), [(0, 0), (0, 0)])
        self.assertEqual(self.deferred(to_1, "run 100", to_0), [(0, 0), (1, 0)])
        self.assertEqual(self.deferred(to_1, "run 577", to_0, to_1), [(0, 1), (0, 1)])
        self.assertEqual(self.deferred(to_1, to_0), [(0, 1), (0, 1)])

    def test_tagged(self):
        """1504 octets of data with the tag value alone; 1522 octets go through a contention and are read whole."""
        data, to_1, to_0 = "1504*5a", "offer 0 020000000002 33024", "offer 1 020000000001 33024"
        builds = [f"build 020000000002 020000000001 {value} {size}*5a 1600" for value, size in [(33024, 1504), (33024, 1505)]]
        builds += [f"build 020000000002 020000000001 {value} 1501*5a 1600" for value in (33023, 33025, 34984, 1501)]
        built = self.answers(*builds)
        self.assertEqual((len(built[0]), set(built[1:])), (3 + 2 * 1522, {"refused 11"}))
        frame = built[0].removeprefix("ok ")
        plain = frame[:24] + "8101" + frame[28:]
        self.assertEqual(self.answers(f"open {frame} 0"), ["ok ok " + "5a" * 1504])
        self.assertEqual(self.answers(f"open {frame}00 0", f"open {plain} 0"), ["ok too-long"] * 2)
        answers = self.answers(
            f"fresh {SHEET} 1 0,1", f"{to_1} {data}", f"{to_0} {data}", "run 30000", "read 1 1521", "read 1 1522", "read 0 1522"
        )
        self.assertEqual(
            answers[3], "ok 30000 collision=2 late=0 sent=2 given-up=0 ok=2 too-long=0 alignment=0 check=0 length=0"
        )
        self.assertEqual(answers[4:6], ["refused 15", f"ok 1522 {frame}"])
        self.assertEqual(len(answers[6]), len(answers[5]))

    def test_late_end_field(self):
        """Bit 6 adds an octet: short under 3, bit 7 under 4, other than 0 and 1 under 5, before N under 6."""
        rest = SHEET[2:]
        lines = ["40", "4002", "400200", f"40{rest}", f"4002{rest}", f"40ff{rest}", f"4000{rest}", f"4001{rest}"]
        lines += ["c0", "c002", "c00200", f"c001{rest}", f"80{rest}", "400100", "400200"]
        self.assertEqual(
            [answer[:9] for answer in self.answers(*(f"sheet {line}" for line in lines), level=1)],
            [
                "refused 3", "refused 3", "refused 5", "refused 5", "refused 5", "refused 5", "ok 17 yes", "ok 17 yes",
                "refused 3", "refused 3", "refused 4", "refused 4", "refused 4", "refused 6", "refused 5",
            ],
        )  # fmt: skip

    def test_large_numbers(self):
        fresh = f"fresh {SHEET} 1 0,1"
        lines = [fresh, "run 4294967296", "counters 99999999999", f"fresh {SHEET} 4294967297 0,1"]
        self.assertEqual(self.answers(*lines), ["ok", "refused 13", "refused 10", "refused 9"])

    def test_tool(self):
        """Several files, each with a session of its own; a file that is not there."""
        calls = STORED / "whole-case.calls"
        tool = [str(ROOT / "tools" / "replay"), "--level", "0"]
        done = subprocess.run([*tool, str(calls), str(calls)], capture_output=True, text=True, check=False)
        answers = calls.with_suffix(".answers").read_text()
        self.assertEqual((done.returncode, done.stdout, done.stderr), (0, 2 * answers, ""))
        gone = subprocess.run([*tool, str(self.folder / "gone")], capture_output=True, text=True, check=False)
        self.assertEqual((gone.returncode, gone.stdout), (2, ""))
        self.assertIn("cannot be read", gone.stderr)


class Marks(CommandTest):
    """Marks, returns and drops (request N5)."""

    ONE, TWO, THREE, FOUR, FIVE = (f"{number:016x}" for number in range(1, 6))
    BEFORE = (f"fresh {SHEET} 1 0,1", "offer 0 020000000002 3 616263", "run 100")
    LOOK = ("counters 0", "counters 1", "clock")

    def answers(self, *lines):
        return list(replay(self.library, "\n".join(lines) + "\n"))

    def test_three_timings(self):
        """Three timings from one mark: each comes out as if it were the only one."""
        timings = [(f"run {wait}", "offer 1 020000000001 3 646566", "run 3000", *self.LOOK) for wait in (0, 300, 700)]
        alone = [self.answers(*self.BEFORE, *timing)[3:] for timing in timings]
        self.assertNotEqual(alone[0], alone[1])
        marked = [*self.BEFORE, f"mark {self.ONE}"]
        for timing in timings:
            marked += [*timing, f"return {self.ONE}"]
        after = self.answers(*marked, "clock")[4:]
        self.assertEqual(after.pop(), "ok 100")
        self.assertEqual(after, [line for answers in alone for line in (*answers, "ok")])

    def test_return_after_drop(self):
        lines = [f"mark {self.ONE}", f"drop {self.ONE}", f"return {self.ONE}", f"drop {self.ONE}"]
        self.assertEqual(self.answers(*self.BEFORE, *lines)[3:], ["ok", "ok", "refused 17", "refused 17"])

    def test_fifth_name(self):
        """A fifth name is refused; one that stands is replaced; a place that is dropped takes the next name."""
        names = [f"mark {name}" for name in (self.ONE, self.TWO, self.THREE, self.FOUR, self.FIVE, self.THREE)]
        lines = [*names, f"drop {self.TWO}", f"mark {self.FIVE}", f"return {self.TWO}", f"return {self.FIVE}"]
        made = self.answers(*self.BEFORE, *lines)[3:]
        self.assertEqual(made, ["ok"] * 4 + ["refused 18", "ok", "ok", "ok", "refused 17", "ok"])

    def test_another_hand(self):
        """An octet that is 2 is no mark, and its place is free; an octet of 1 over what was never marked is."""
        lines = [
            f"mark {self.ONE}", f"poke 0 2 {self.ONE}", f"return {self.ONE}", "run 5", f"mark {self.TWO}",
            f"poke 0 1 {self.ONE}", f"return {self.TWO}", f"return {self.ONE}", "clock",
            f"poke 3 1 {self.THREE}", f"return {self.THREE}", "clock",
        ]  # fmt: skip
        made = self.answers(*self.BEFORE, *lines)[3:]
        self.assertEqual(made[2], "refused 17")
        self.assertEqual(made[6:], ["refused 17", "ok", "ok 105", "ok", "refused 2", "ok 105"])

    def test_checks_in_order(self):
        """mark: 1, 2, 15, 18; return: 1, 15, 17, 2; drop: 15, 17."""
        mark, back, drop = (f"{word} {self.FIVE}" for word in ("mark", "return", "drop"))
        calls = [mark, back, drop]
        self.assertEqual(self.answers("area 9", "store 9", *calls)[2:], ["refused 1", "refused 1", "refused 15"])
        self.assertEqual(self.answers("store 229411", *calls)[1:], ["refused 2", "refused 15", "refused 15"])
        self.assertEqual(self.answers(*self.BEFORE, "store 229411", mark)[4:], ["refused 15"])
        self.assertEqual(self.answers(*calls), ["refused 2", "refused 17", "refused 17"])
        self.assertEqual(self.answers(f"poke 0 1 {self.FIVE}", back, drop, back), ["ok", "refused 2", "ok", "refused 17"])
