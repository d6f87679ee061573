"""`wisavulome wave`: the wave, read back here."""

import re
from unittest import mock

from common import LATE_PLAN, WORKED, CommandTest, call, stored

from wisavulome import wave as wave_module
from wisavulome.course import follow
from wisavulome.packet import octets_of_bits, packet_bits
from wisavulome.text import write
from wisavulome.wave import identifier, wave


def read_wave(text):
    """The signals of a wave: for each name its changes, and the last time."""
    names = {mark: name for mark, name in re.findall(r"^\$var wire [0-9]+ (\S+) (\w+)", text, re.M)}
    changes = {name: {} for name in names.values()}
    time = None
    for line in text.split("$enddefinitions $end\n")[1].splitlines():
        if line.startswith("#"):
            assert time is None or int(line[1:]) > time
            time = int(line[1:])
        elif line[0] == "b":
            value, mark = line[1:].split()
            changes[names[mark]][time] = int(value, 2)
        elif line[0] in "01":
            changes[names[line[1:]]][time] = int(line[0])
    return changes, time


def values(changes, first, past):
    """A signal's value in each step."""
    value = None
    found = []
    for time in range(first, past):
        value = changes.get(time, value)
        found.append(value)
    return found


class Wave(CommandTest):
    def whole(self, name, window=None, vectors=False):
        octets = stored(name)
        course = follow(self.library, octets)
        window = window or (0, course.clock)
        return course, "".join(wave(self.library, course, octets, window, vectors))

    def test_bits_are_the_packet_s(self):
        """What is emitted, and what the other station hears that many bit times later, are the bits of the frame."""
        course, text = self.whole("worked")
        changes, end = read_wave(text)
        self.assertEqual(end, course.clock)
        for fate, other in zip(course.fates, (1, 0)):
            own = fate.offer.station
            start = fate.attempts[-1].start
            bits = packet_bits(fate.frame)
            self.assertEqual(values(changes[f"s{own}_tx_bit"], 0, end)[start : start + len(bits)], list(bits))
            self.assertEqual(
                values(changes[f"s{other}_rx_bit"], 0, end)[start + 10 : start + 10 + len(bits)], list(bits)
            )
            self.assertEqual(
                octets_of_bits(values(changes[f"s{other}_rx_bit"], 0, end)[start + 74 : start + 10 + len(bits)]),
                fate.frame,
            )

    def test_events_and_phases(self):
        for name in ["worked", "slot-one-over", "gap-one-over", "case048"]:
            course, text = self.whole(name)
            changes, end = read_wave(text)
            for station in range(len(course.layout.taps)):
                own = {
                    wire: values(changes[f"s{station}_{wire}"], 0, end)
                    for wire in (
                        "tx",
                        "tx_bit",
                        "tx_jam",
                        "rx",
                        "rx_many",
                        "carrier",
                        "collision",
                        "late",
                        "quiet",
                        "busy",
                        "gap",
                    )
                }
                hits = [
                    event.time
                    for event in course.events
                    if event.station == station and event.word in ("collision", "late")
                ]
                self.assertEqual([time for time in range(end) if own["collision"][time]], hits, name)
                for time in range(end):
                    self.assertEqual(own["quiet"][time] + own["busy"][time] + own["gap"][time], 1)
                    self.assertEqual(own["carrier"][time], int(own["rx"][time] or (time > 0 and own["tx"][time - 1])))
                    self.assertFalse((own["tx_bit"][time] or own["tx_jam"][time]) and not own["tx"][time], (name, time))
            emits = [
                (attempt.station, time) for attempt in course.attempts for time in range(attempt.start, attempt.end)
            ]
            shown = [
                (s, t)
                for s in range(len(course.layout.taps))
                for t, v in enumerate(values(changes[f"s{s}_tx"], 0, end))
                if v
            ]
            self.assertEqual(sorted(emits), shown, name)

    def test_jam_and_several(self):
        """What spoils a symbol: jam from one alone, or several at once."""
        seen = set()
        for name in ["worked", "slot-one-over", "gap-one-over", "case048"]:
            course, text = self.whole(name, None, True)
            changes, end = read_wave(text)
            for station in range(len(course.layout.taps)):
                heard = [[] for _time in range(end)]
                for attempt in course.attempts:
                    away = course.layout.distance(attempt.station, station)
                    for time in range(attempt.start + away, min(attempt.end + away, end)):
                        if attempt.station != station:
                            heard[time].append(time >= attempt.jam_start + away)
                kinds = [4 if len(each) > 1 else 3 if each == [True] else 0 for each in heard]
                wires = {wire: values(changes[f"s{station}_{wire}"], 0, end) for wire in ("rx_jam", "rx_many")}
                self.assertEqual(wires["rx_jam"], [int(kind == 3) for kind in kinds], name)
                self.assertEqual(wires["rx_many"], [int(kind == 4) for kind in kinds], name)
                symbols = values(changes[f"s{station}_rx_symbol"], 0, end)
                self.assertEqual([symbol if symbol > 2 else 0 for symbol in symbols], kinds, name)
                seen.update(kinds)
        self.assertEqual(seen, {0, 3, 4})

    def test_late_end(self):
        """After a late collision that closes the frame the transmitter is 6 up to the last jam bit, then 0."""
        octets = write(LATE_PLAN.format(1))
        course = follow(self.library, octets)
        changes, end = read_wave("".join(wave(self.library, course, octets, (0, course.clock), True)))
        states = values(changes["s0_transmitter"], 0, end)
        self.assertEqual([time for time in range(end) if states[time] == 6], list(range(350, 382)))
        self.assertEqual(states[382], 0)
        self.assertEqual([time for time, late in enumerate(values(changes["s0_late"], 0, end)) if late], [350])
        jam = values(changes["s0_tx_jam"], 0, end)
        self.assertEqual([time for time in range(end) if jam[time]], list(range(351, 383)))

    def test_rest_is_made_at_once(self):
        """Steps in which all are quiet are not made one by one; the wave is the same as if they were."""
        for vectors in (False, True):
            made = self.whole("case003", None, vectors)[1]
            with mock.patch.object(wave_module, "is_at_rest", lambda state, with_vectors: False):
                self.assertEqual(self.whole("case003", None, vectors)[1], made)
        plan = self.file("long.txt", WORKED.read_text().replace("run 1500", "run 16777216"))
        self.assertEqual(call("wave", plan, "-o", self.folder / "long.vcd")[0], 0)
        self.assertLess((self.folder / "long.vcd").stat().st_size, 100000)

    def test_names(self):
        _course, text = self.whole("case030", (0, 5))
        names = re.findall(r"^\$var wire 1 (\S+) (\w+) \$end", text, re.M)
        self.assertEqual(len(names), 11 * 13)
        self.assertEqual(len({mark for mark, _name in names}), len(names))
        self.assertEqual(len({name for _mark, name in names}), len(names))
        self.assertEqual(len({identifier(number) for number in range(20000)}), 20000)
        self.assertIn("$timescale 100 ns $end", text)

    def test_vectors_on_request(self):
        _course, plain = self.whole("worked", (0, 50))
        _course, more = self.whole("worked", (0, 50), True)
        self.assertNotIn("_symbol", plain)
        changes, _end = read_wave(more)
        self.assertEqual(values(changes["s0_tx_symbol"], 0, 12), [2, 1] * 6)
        self.assertEqual(values(changes["s0_rx_symbol"], 0, 12), [0] * 10 + [2, 1])
        self.assertEqual(values(changes["s0_attempts"], 0, 2), [1, 1])

    def test_window(self):
        course, text = self.whole("case003")
        changes, end = read_wave(text)
        part, last = read_wave(self.whole("case003", (700, 1300))[1])
        self.assertEqual(last, 1300)
        for name in changes:
            self.assertEqual(values(changes[name], 0, end)[700:1300], values(part[name], 700, 1300), name)
        self.assertEqual(course.clock, end)
        self.assertEqual(call("wave", WORKED, "--window", "3:3")[0], 2)
