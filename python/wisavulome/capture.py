"""`wisavulome capture`: a run as pcapng, an interface for each station.

Blocks and options are those of draft-ietf-opsawg-pcapng. A time stamp counts nanoseconds from 0 on, 100 for each
bit time.
"""

import os
import struct

from . import VERSION, text
from .course import follow
from .failure import GOOD, Failure
from .heard import collected
from .library import BIT_TIME_NS
from .output import write_whole
from .source import read_plan_source
from .window import HELP as WINDOW_HELP
from .window import window_of

HELP = """Writes a run as a pcapng capture, which Wireshark, tshark and capinfos read. Each
station is an interface. A frame stands with its check sequence once where it was sent (outbound)
and once where it was received (inbound); its time is the step that reports it, 100 ns a bit time.
A reception that fails stands with the octets that were collected and with error flags. A comment
tells offer, attempts, and where each attempt started and collided. A frame that was given up or
late-ended stands where that was reported, outbound, none of its octets captured.

Exit status: 0 written, 2 refused or usage, 3 the output could not be written; then no half file
stays."""

SECTION, INTERFACE, PACKET = 0x0A0D0D0A, 1, 6
MAGIC = 0x1A2B3C4D
ETHERNET = 1
SPEED = 10_000_000
INBOUND, OUTBOUND = 1, 2
FCS_OCTETS = 4
# Option codes: of any block, of a section, of an interface, of a packet.
COMMENT, APPLICATION = 1, 4
NAME, DESCRIPTION, MAC, IF_SPEED, RESOLUTION, FCS_LENGTH = 2, 3, 6, 8, 9, 13
FLAGS = 2
# Link-layer errors in a packet's flags.
ERRORS = {
    "got too-long": 1 << 25,
    "got check": 1 << 24,
    "got alignment": 1 << 28 | 1 << 24,
    "got length": 0,  # no flag stands for it; the comment tells it
}


def add_parser(subparsers):
    """The arguments of the subcommand."""
    parser = subparsers.add("capture", "a run as a pcapng capture", HELP)
    parser.add_argument("file", metavar="PLAN", help="a plan as text or octets")
    parser.add_argument("-o", "--output", metavar="FILE", help="where to write; standard output if absent")
    parser.add_argument("--window", metavar="A:B", help=WINDOW_HELP)


def run(library, arguments, output):
    """The subcommand; answers the exit status."""
    source = read_plan_source(library, arguments.file)
    course = follow(library, source.octets)
    if arguments.output is None and is_terminal():
        raise Failure("a capture is not for a terminal: give it a file with -o, or a pipe")
    write_whole(arguments.output, capture(course, window_of(arguments.window, course.clock)), output)
    return GOOD


def is_terminal():
    """Whether standard output is a terminal."""
    return os.isatty(1)


def capture(course, window):
    """The capture of a run's window."""
    blocks = [section(course)]
    blocks += [interface(number, tap) for number, tap in enumerate(course.layout.taps)]
    for event in course.events:
        if window[0] <= event.time < window[1]:
            blocks += packets_of(course, event)
    return b"".join(blocks)


def option(code, value):
    """An option, filled up to four octets."""
    return struct.pack("<HH", code, len(value)) + value + bytes(-len(value) % 4)


def block(kind, body, options):
    """A block with its options, and its length at both ends."""
    inner = body + b"".join(options) + (option(0, b"") if options else b"")
    size = struct.pack("<I", len(inner) + 12)
    return struct.pack("<I", kind) + size + inner + size


def section(course):
    """The section header."""
    fit = "yes" if course.layout.fits else "no"
    comment = f"stations {len(course.layout.taps)} fit {fit} end {course.clock}; a bit time is 100 ns"
    options = [option(COMMENT, comment.encode()), option(APPLICATION, f"wisavulome {VERSION}".encode())]
    return block(SECTION, struct.pack("<IHHq", MAGIC, 1, 0, -1), options)


def interface(number, tap):
    """A station as an interface."""
    options = [
        option(NAME, f"station{number}".encode()),
        option(DESCRIPTION, f"station {number} at {tap.position}, {text.render_address(tap.address)}".encode()),
        option(MAC, tap.address),
        option(IF_SPEED, struct.pack("<Q", SPEED)),
        option(RESOLUTION, bytes([9])),
        option(FCS_LENGTH, bytes([FCS_OCTETS])),
    ]
    return block(INTERFACE, struct.pack("<HHI", ETHERNET, 0, 0), options)


def packet(station, time, octets, flags, comment, size=None):
    """A frame at a station. Where it is not captured, its size is given."""
    stamp = BIT_TIME_NS * time
    size = len(octets) if size is None else size
    body = struct.pack("<IIIII", station, stamp >> 32, stamp & 0xFFFFFFFF, len(octets), size)
    body += octets + bytes(-len(octets) % 4)
    options = [option(COMMENT, comment.encode()), option(FLAGS, struct.pack("<I", flags))]
    return block(PACKET, body, options)


def packets_of(course, event):
    """The frame that an event tells of, if it tells of one."""
    if event.word == "sent":
        fate = course.fates[event.offers[0] - 1]
        return [packet(event.station, event.time, fate.frame, OUTBOUND | FCS_OCTETS << 5, attempts_words(fate))]
    if fate_ended(course, event):
        fate = course.fates[event.offers[0] - 1]
        return [
            packet(event.station, event.time, b"", OUTBOUND, f"{event.word}; {attempts_words(fate)}", len(fate.frame))
        ]
    if not event.word.startswith("got"):
        return []
    words = f"{event.word} {event.number}; offer {', '.join(map(str, event.offers))}"
    if event.word == "got ok":
        octets = course.fates[event.offers[0] - 1].frame
        return [packet(event.station, event.time, octets, INBOUND | FCS_OCTETS << 5, words)]
    octets = collected(course, event)
    return [packet(event.station, event.time, octets, INBOUND | FCS_OCTETS << 5 | ERRORS[event.word], words)]


def fate_ended(course, event):
    """Whether an event ends a frame that was not sent."""
    return any(fate.ending is event for fate in course.fates)


def attempts_words(fate):
    """The attempts of a frame, in words."""
    words = []
    for number, attempt in enumerate(fate.attempts, 1):
        hit = attempt.collision
        end = f", {hit.word} at bit {hit.number} in step {hit.time}" if hit else ""
        words.append(f"attempt {number} started in step {attempt.start}{end}")
    return f"offer {fate.number}; {'; '.join(words)}"
