"""`wisavulome capture`: the blocks of the file, read back here."""

import struct
import zlib

from common import LATE_PLAN, STORED, TWO, WORKED, CommandTest, call, stored, taken_cases

from wisavulome.capture import capture
from wisavulome.course import advance_to, follow, make_due
from wisavulome.heard import collected
from wisavulome.library import ENDINGS

BUFFER_AT, BUFFER_OCTETS = 32768, 1536  # what a station collected, in a work area


def blocks(octets):
    """The blocks of a capture: kind and body."""
    at = 0
    while at < len(octets):
        kind, size = struct.unpack_from("<II", octets, at)
        assert size % 4 == 0 and struct.unpack_from("<I", octets, at + size - 4)[0] == size, at
        yield kind, octets[at + 8 : at + size - 4]
        at += size
    assert at == len(octets)


def options(octets):
    """The options of a block, by their code."""
    found = {}
    at = 0
    while at < len(octets):
        code, size = struct.unpack_from("<HH", octets, at)
        if code == 0:
            assert at + 4 == len(octets)
            return found
        found[code] = octets[at + 4 : at + 4 + size]
        at += 4 + size + -size % 4
    return found


def packets(octets):
    """The packets: interface, time in nanoseconds, octets, flags, comment."""
    for kind, body in blocks(octets):
        if kind == 6:
            interface, high, low, size, _whole = struct.unpack_from("<IIIII", body)
            rest = options(body[20 + size + -size % 4 :])
            yield interface, high << 32 | low, body[20 : 20 + size], struct.unpack("<I", rest[2])[0], rest[1].decode()


class Capture(CommandTest):
    def test_head(self):
        octets = capture(follow(self.library, stored("case003")), (0, 10**9))
        found = list(blocks(octets))
        self.assertEqual(found[0][0], 0x0A0D0D0A)
        self.assertEqual(struct.unpack_from("<IHHq", found[0][1]), (0x1A2B3C4D, 1, 0, -1))
        interfaces = [body for kind, body in found if kind == 1]
        layout = self.library.read_sheet(stored("case003"))
        self.assertEqual(len(interfaces), len(layout.taps))
        for number, body in enumerate(interfaces):
            self.assertEqual(struct.unpack_from("<HHI", body), (1, 0, 0))
            rest = options(body[8:])
            self.assertEqual(
                (rest[2], rest[6], rest[9], rest[13]),
                (f"station{number}".encode(), layout.taps[number].address, b"\x09", b"\x04"),
            )

    def test_frames(self):
        """On every stored case: each sent and got is a packet, in order, with time, direction, good check sequence."""
        for name, octets in taken_cases(self.library):
            course = follow(self.library, octets)
            expected = [
                event for event in course.events if event.word in ENDINGS or event.word.startswith("got")
            ]
            found = list(packets(capture(course, (0, 10**9))))
            self.assertEqual(
                [(station, time) for station, time, *_rest in found],
                [(event.station, 100 * event.time) for event in expected],
                name,
            )
            for event, (_station, _time, frame, flags, comment) in zip(expected, found):
                self.assertEqual(flags & 3, 1 if event.word.startswith("got") else 2, name)
                self.assertIn(f"offer {event.offers[0]}", comment)
                if event.word in ("sent", "got ok"):
                    self.assertEqual(zlib.crc32(frame[:-4]).to_bytes(4, "little"), frame[-4:], name)
                    self.assertEqual(flags >> 16, 0)
                if event.word == "got ok":
                    self.assertEqual(self.received(course, octets, event), frame, name)

    def received(self, course, octets, event):
        """The frame that the library's reading gives after an event."""
        area = advance_to(self.library, octets, event.time)
        make_due(self.library, area, course.plan, event.time)
        list(self.library.step(area))
        return self.library.read_frame(area, event.station)

    def test_failed_receptions(self):
        """The octets are those that the library collected, and the flags tell the error."""
        seen = 0
        for name in ["case048", "gap-one-over"]:
            octets = stored(name)
            course = follow(self.library, octets)
            for event in course.events:
                if event.word.startswith("got") and event.word != "got ok":
                    area = advance_to(self.library, octets, event.time)
                    at = BUFFER_AT + BUFFER_OCTETS * event.station
                    self.assertEqual(collected(course, event), area[at : at + event.number], (name, event))
                    flags = [
                        flags
                        for station, time, _frame, flags, _comment in packets(capture(course, (0, 10**9)))
                        if (station, time) == (event.station, 100 * event.time)
                    ][0]
                    self.assertEqual(flags >> 24, {"got check": 1, "got alignment": 17, "got too-long": 2}[event.word])
                    seen += 1
        self.assertGreater(seen, 0)

    def test_comment_tells_attempts(self):
        done = call("capture", WORKED, "-o", self.folder / "c.pcapng")
        self.assertEqual(done, (0, "", ""))
        comments = [comment for *_rest, comment in packets((self.folder / "c.pcapng").read_bytes())]
        self.assertEqual(
            comments[0],
            "offer 1; attempt 1 started in step 0, collision at bit 11 in step 10; attempt 2 started in step 202",
        )
        self.assertEqual(comments[1], "got ok 46; offer 1")

    def test_given_up(self):
        plan = (
            "attempt-limit 1\n"
            + TWO
            + "".join(f"offer at 0 station {i} to broadcast value length data 01\n" for i in (0, 1))
            + "run 900\n"
        )
        call("capture", self.file("p", plan), "-o", self.folder / "c.pcapng")
        found = list(packets((self.folder / "c.pcapng").read_bytes()))
        self.assertEqual([frame for _station, _time, frame, _flags, _comment in found], [b"", b""])
        self.assertTrue(found[0][4].startswith("given-up; offer 1; attempt 1 started in step 0"))

    def test_late_end(self):
        call("capture", self.file("p", LATE_PLAN.format(1)), "-o", self.folder / "c.pcapng")
        station, time, frame, _flags, comment = next(packets((self.folder / "c.pcapng").read_bytes()))
        self.assertEqual((station, time, frame), (0, 38200, b""))
        expected = "late-end; offer 1; attempt 1 started in step 0, late at bit 351 in step 350"
        self.assertEqual(comment, expected)

    def test_window(self):
        call("capture", WORKED, "--window", "780:800", "-o", self.folder / "c.pcapng")
        self.assertEqual([time for _station, time, *_rest in packets((self.folder / "c.pcapng").read_bytes())], [78800])
        self.assertEqual(call("capture", STORED / "case003.in", "--window", "7:7")[0], 2)
