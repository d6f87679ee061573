"""`wisavulome run` and `audit`."""

import csv
import ctypes
import io
import json
import subprocess
import sys

from common import LATE_PLAN, ROOT, STORED, TWO, WORKED, CommandTest, call, stored, stored_cases, taken_cases

from wisavulome.course import advance_to, follow, make_due
from wisavulome.heard import Hearing
from wisavulome.library import COUNTERS, SILENCE, SIZES, SPOILED, Refused, buffer_of
from wisavulome.wave import Emissions


def runinput(command, given):
    """What tools/runinput prints."""
    words = [sys.executable, "-B", str(ROOT / "tools" / "runinput"), command]
    return subprocess.run(words, input=given, capture_output=True, check=True).stdout


class Run(CommandTest):
    def test_stored_cases(self):
        """What simulate prints, on every stored case; a refused one is refused by the same number."""
        for name, octets, printed in stored_cases():
            with self.subTest(name):
                status, out, err = call("run", STORED.parent / f"{name}.in")
                if printed.startswith("refused"):
                    self.assertEqual((status, out), (2, ""))
                    self.assertIn(f": {printed.strip()}: ", err)
                else:
                    ended = " late " in printed and self.library.read_plan(octets).layout.late_ends_run
                    self.assertEqual((status, out), (1 if ended else 0, printed))
                    self.assertEqual(self.library.print_run(octets).decode(), printed)

    def test_runinput_shortest(self):
        """The text of a plan with its shortest sheet: no figure that is its default."""
        plan = runinput("write", (("slot 512\njam 31\nlate-end 0\n" + TWO) + "run 9\n").encode())
        short = runinput("write", f"jam 31\n{TWO}run 9\n".encode())
        self.assertEqual(runinput("shortest", plan), runinput("read", short))
        with self.assertRaises(subprocess.CalledProcessError) as refused:
            runinput("shortest", plan[:5])
        self.assertEqual(refused.exception.returncode, 2)
        self.assertIn(b"standard input: refused 3: ", refused.exception.stderr)

    def test_two_offers_in_one_step(self):
        """Events name their offer, also where one station has two offers in a step."""
        first = "offer at 5 station 0 to station 1 value 1501 data 01\n"
        second = "offer at 5 station 0 to station 1 value length data 0102\n"
        for offers, sent, refused in [(first + second, 2, "refused 11"), (second + second, 1, "refused 12")]:
            out = call("run", "--offers", self.file("p", TWO + offers + "run 900\n"))[1]
            self.assertIn(f"5 0 {refused} offer {3 - sent}\n", out)
            self.assertIn(f"580 0 sent 1 offer {sent}\n", out)
            self.assertIn(f"591 1 got ok 2 offer {sent}\n", out)

    def test_failed_reception_names_who_was_heard(self):
        course = follow(self.library, stored("case048"))
        failed = [event for event in course.events if event.word.startswith("got") and event.word != "got ok"]
        self.assertEqual([(event.line(), event.offers) for event in failed], [("1060 0 got alignment 110", (2, 3))])
        begin = Hearing(course, 0).begin(1060)
        heard = {
            attempt.offer
            for attempt in course.attempts
            if attempt.station != 0
            and attempt.start + course.layout.distance(0, attempt.station) < 1060
            and attempt.end + course.layout.distance(0, attempt.station) > begin
        }
        self.assertEqual(heard, {2, 3})

    def test_every_event_names_offers(self):
        for name, octets in taken_cases(self.library):
            for event in follow(self.library, octets).events:
                self.assertTrue(event.offers, (name, event))

    def test_csv_and_json(self):
        printed = call("run", WORKED)[1].splitlines()[1:-1]
        rows = [
            row
            for row in csv.DictReader(io.StringIO(call("run", WORKED, "--format", "csv")[1]))
            if row["kind"] == "event"
        ]
        self.assertEqual([f"{row['time']} {row['station']} {row['word']} {row['number']}" for row in rows], printed)
        self.assertEqual([row["offers"] for row in rows], ["1", "2", "1", "1", "2", "2"])
        objects = [json.loads(line) for line in call("run", WORKED, "--format", "json")[1].splitlines()]
        self.assertEqual(
            [each["offers"] for each in objects if each["kind"] == "event"], [[1], [2], [1], [1], [2], [2]]
        )
        self.assertEqual(objects[0], {"kind": "stations", "number": 2, "word": "yes"})
        self.assertEqual(objects[-1], {"kind": "end", "time": 1500})

    def test_counters(self):
        out = call("run", WORKED, "--counters")[1].splitlines()
        self.assertEqual(
            out[8:], [f"counters {station} 1 2 1 0 1 1 0 46 0 0 1 46 0 0 0 0 0" for station in (0, 1)]
        )
        objects = [json.loads(line) for line in call("run", WORKED, "--counters", "--format", "json")[1].splitlines()]
        self.assertEqual(list(objects[-1]["counters"]), list(COUNTERS))

    def test_late_end(self):
        """With late-end 1 the run goes on, and the frame is gone; with 0 or none it ends as before."""
        for field, expected in [("0", 1), (None, 1), ("1", 0)]:
            plan = LATE_PLAN.format(field) if field else LATE_PLAN.replace("late-end {}\n", "")
            status, out, _err = call("run", "--offers", "--held", self.file("p", plan))
            self.assertEqual(status, expected)
            self.assertIn("350 0 late 351 offer 1\n", out)
            self.assertEqual("382 0 late-end 1 offer 1\n" in out, not expected)
            self.assertIn("\nend 351\n" if expected else "\nend 3000\n", out)
            self.assertEqual("held 0 to-send 1\n" in out, bool(expected))

    def test_held(self):
        plan = (
            TWO
            + "offer at 0 station 0 to station 1 value length data 0102\n"
            + "offer at 600 station 1 to station 0 value length data 03\nrun 700\n"
        )
        out = call("run", "--held", self.file("p", plan))[1].splitlines()
        frame = self.library.build(bytes.fromhex("020000000002"), bytes.fromhex("020000000001"), 2, b"\x01\x02")
        self.assertEqual(out[-2:], ["held 1 to-send 2", f"held 1 received {frame.hex()}"])
        rows = list(csv.DictReader(io.StringIO(call("run", "--held", "--format", "csv", self.file("p", plan))[1])))
        self.assertEqual(rows[-1]["frame"], frame.hex())


class State(CommandTest):
    """wisavulome_station: a station's state in numbers."""

    def test_states(self):
        """Step by step: the clock, who emitted, what is heard next, and what the events tell of the states."""
        for name in ["worked", "gap-one-over", "case048"]:
            octets = stored(name)
            course = follow(self.library, octets)
            stations = range(len(course.layout.taps))
            hearings = [Hearing(course, station) for station in stations]
            emissions = Emissions(course, (0, course.clock))
            area = advance_to(self.library, octets, 0)
            for time in range(course.clock):
                make_due(self.library, area, course.plan, time)
                before = [self.library.station(area, station) for station in stations]
                events = list(self.library.step(area))
                for station in stations:
                    self.assertEqual(before[station].clock, time)
                    self.assertEqual(before[station].hears, min(hearings[station].symbol(time), SPOILED), (name, time))
                    emits = emissions.symbol(station, time) != SILENCE
                    self.assertEqual(bool(self.library.station(area, station).emitted), emits, (name, time, station))
                for station, word, number in events:
                    self.check_event(before[station], self.library.station(area, station), word, number)

    def check_event(self, before, after, word, number):
        """What an event tells of the states around it."""
        if word == "collision":
            self.assertIn(before.transmitter, ("waiting", "sending"))
            self.assertEqual(before.transmitter_number, number if before.transmitter == "sending" else 0)
            self.assertIn(after.transmitter, ("heading", "jamming"))
        elif word == "sent":
            self.assertEqual((before.transmitter, before.attempts), ("sending", number))
            self.assertEqual((before.transmitter_number, after.transmitter), (64 + 8 * before.frame, "no frame"))
        elif word == "got ok":
            self.assertEqual((before.receiver, after.receiver), ("collecting", "readable"))
            self.assertEqual(before.receiver_number // 8, after.receiver_number)

    def test_refusals(self):
        """1, 2, 10 and 15 in this order, each with the output as it was; octets past the sixteen numbers stay."""
        area = advance_to(self.library, stored("worked"), 0)
        broken = buffer_of("area")
        short = ctypes.create_string_buffer(SIZES["area"] - 1)
        for lent, station, room, number in [
            (short, 2, 0, 1),
            (broken, 2, 0, 2),
            (area, 2, 0, 10),
            (area, 2**32 - 1, SIZES["station"], 10),
            (area, 1, SIZES["station"] - 1, 15),
        ]:
            out = bytearray(b"\x5a" * room)
            with self.assertRaises(Refused) as refused:
                self.station_into(lent, station, out)
            self.assertEqual(refused.exception.number, number)
            self.assertEqual(out, b"\x5a" * room)
        out = bytearray(b"\x5a" * 70)
        self.assertEqual(self.station_into(area, 1, out), 0)
        self.assertEqual(out, bytes(SIZES["station"]) + b"\x5a" * 6)

    def station_into(self, area, station, out):
        """The call, into an output of any size."""
        lent = (ctypes.c_char * len(out)).from_buffer(out) if out else ctypes.create_string_buffer(0)
        return self.library.call("station", area, station, lent)


class Several(CommandTest):
    """Several plans: each with its heading or name, the highest status; a refused one is said and the others go on."""

    def test_run(self):
        status, out, err = call("run", WORKED, STORED / "case002.in", STORED / "slot-one-over.in")
        self.assertEqual(status, 2)
        self.assertEqual(
            out,
            f"==> {WORKED} <==\n{(STORED / 'worked.out').read_text()}==> {STORED / 'slot-one-over.in'} <==\n"
            f"{(STORED / 'slot-one-over.out').read_text()}",
        )
        self.assertTrue(err.startswith(f"wisavulome: {STORED / 'case002.in'}: refused 3"))
        self.assertEqual(call("run", WORKED, STORED / "slot-one-over.in")[0], 1)
        rows = list(csv.DictReader(io.StringIO(call("run", WORKED, WORKED, "--format", "csv")[1])))
        self.assertEqual(({row["plan"] for row in rows}, len(rows)), ({str(WORKED)}, 16))

    def test_one_refused_prints_nothing(self):
        for words in [["run", "--format", "csv"], ["audit", "--format", "csv"], ["run"], ["audit"]]:
            status, out, err = call(*words, STORED / "case002.in")
            self.assertEqual((status, out, err.count("refused 3")), (2, "", 1), words)

    def test_audit(self):
        rows = list(
            csv.DictReader(io.StringIO(call("audit", WORKED, STORED / "gap-one-over.in", "--format", "csv")[1]))
        )
        self.assertEqual([row["plan"] for row in rows], [str(WORKED)] * 2 + [str(STORED / "gap-one-over.in")] * 3)
        status, out, _err = call("audit", WORKED, STORED / "gap-one-over.in")
        self.assertEqual((status, out.count("==> ")), (1, 2))
        objects = [json.loads(line) for line in call("audit", WORKED, WORKED, "--format", "json")[1].splitlines()]
        self.assertEqual([each["plan"] for each in objects], [str(WORKED)] * 4)


class Audit(CommandTest):
    def audit(self, name):
        return [json.loads(line) for line in call("audit", STORED / f"{name}.in", "--format", "json")[1].splitlines()]

    def test_lost_frame(self):
        """A frame that was reported sent was lost: the table says so, and the status."""
        status, out, _err = call("audit", STORED / "gap-one-over.in")
        self.assertEqual(status, 1)
        self.assertIn("LOST: reported sent, not received: offer 2\n", out)
        self.assertIn("station 0 lost 709, station 2 got 742", out)
        self.assertEqual([each["state"] for each in self.audit("gap-one-over")[1]["addressees"]], ["lost", "got"])

    def test_worked(self):
        status, out, _err = call("audit", WORKED)
        self.assertEqual(status, 0)
        self.assertTrue(out.endswith("nothing lost\n"))
        rows = list(csv.DictReader(io.StringIO(call("audit", WORKED, "--format", "csv")[1])))
        self.assertEqual(
            [(row["outcome"], row["attempts"], row["delay"], row["got"], row["lost"]) for row in rows],
            [("sent", "2", "777", "1", "0"), ("sent", "2", "1459", "1", "0")],
        )

    def test_on_its_way(self):
        plan = TWO + "offer at 0 station 0 to broadcast value length data 01\nrun {}\n"
        for times, state in [
            (576, "station 1 on its way 586"),
            (586, "station 1 on its way 586"),
            (587, "station 1 got 586"),
        ]:
            out = call("audit", self.file("p", plan.format(times)))[1]
            self.assertIn(state, out)
        self.assertIn("  held ", call("audit", self.file("p", plan.format(575)))[1])

    def test_late(self):
        status, out, _err = call("audit", STORED / "slot-one-over.in")
        self.assertEqual(status, 1)
        self.assertIn("late collision: offer 1", out)

    def test_late_end(self):
        """A late-ended frame is lost; where the run ends before the last jam bit, the outcome is late."""
        status, out, _err = call("audit", self.file("p", LATE_PLAN.format(1)))
        self.assertEqual(status, 1)
        self.assertIn("late collision: offer 1; not delivered: offer 1\n", out)
        for times, outcome in [("382", "late"), ("383", "late-end")]:
            plan = self.file("p", LATE_PLAN.format(1).replace("run 3000", f"run {times}"))
            status, out, _err = call("audit", plan, "--format", "json")
            fate = json.loads(out.splitlines()[0])
            self.assertEqual((status, fate["outcome"], fate["attempts"], fate["late"]), (1, outcome, 1, True))
            self.assertEqual(fate["delay"], 382 if outcome == "late-end" else None)

    def test_given_up(self):
        plan = "attempt-limit 1\n" + TWO + "offer at 0 station 0 to station 1 value length data 01\n"
        plan += "offer at 0 station 1 to station 0 value length data 01\nrun 900\n"
        status, out, _err = call("audit", self.file("p", plan))
        self.assertEqual(status, 1)
        self.assertIn("not delivered: offer 1, 2\n", out)

    def test_refused_and_not_made(self):
        plan = (
            TWO
            + "offer at 0 station 7 to broadcast value length data 01\n"
            + "offer at 900 station 0 to broadcast value length data 01\nrun 900\n"
        )
        status, out, _err = call("audit", self.file("p", plan))
        self.assertEqual(status, 0)
        self.assertIn("refused 10", out)
        self.assertIn("no such station", out)
        self.assertIn("not made", out)

    def test_counts_agree_with_the_counters(self):
        """Endings, attempts and received of the audit are the library's counters, on every stored case.

        Offered is sent plus excessive plus late-ended plus held.
        """
        ended = 0
        for name, octets in taken_cases(self.library):
            course = follow(self.library, octets)
            for station in range(len(course.layout.taps)):
                counters = self.library.counters(course.area, station)
                own = [
                    fate
                    for fate in course.fates
                    if fate.made and fate.refusal is None and fate.offer.station == station
                ]
                self.assertEqual(counters["offered"], len(own), name)
                self.assertEqual(counters["attempts"], sum(len(fate.attempts) for fate in own), name)
                self.assertEqual(counters["sent"], sum(fate.outcome == "sent" for fate in own), name)
                self.assertEqual(counters["excessive"], sum(fate.outcome == "given-up" for fate in own), name)
                self.assertEqual(counters["late-ended"], sum(fate.outcome == "late-end" for fate in own), name)
                over = counters["sent"] + counters["excessive"] + counters["late-ended"]
                self.assertEqual(counters["offered"], over + sum(not fate.ending for fate in own), name)
                ended += counters["late-ended"]
                got = sum(
                    each.station == station and each.state == "got" for fate in course.fates for each in fate.deliveries
                )
                self.assertEqual(counters["received"], got, name)
        self.assertGreater(ended, 0)

    def test_nothing_is_lost_on_a_sheet_that_fits(self):
        fitting = 0
        for name, octets in taken_cases(self.library):
            course = follow(self.library, octets)
            if course.layout.fits:
                fitting += 1
                self.assertFalse(any(fate.count("lost") or fate.late for fate in course.fates), name)
        self.assertGreater(fitting, 10)
