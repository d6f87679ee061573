"""`wisavulome sweep`: one sheet and plan, many sets of draws.

Set k of a sweep is a pure function of the plan, the seed and k, so every row is the same whoever makes it. Rows are
CSV, a line for each set and offer; the table is made of rows alone.
"""

import hashlib
import multiprocessing
import os
import signal
from collections import Counter
from contextlib import suppress

from . import text
from .course import follow
from .failure import GOOD, NO, UNWRITTEN, Failure
from .library import ENDINGS, LATE, MAX_DRAWS, Library, Refused
from .output import progress, write_whole
from .rows import Rows, row_line
from .source import read_plan_source
from .table import as_csv, as_table

HELP = """Runs a plan with many sets of draws, and says of each offer how often it was sent, given
up or lost, its attempts and its delays.

The sets come from a seed (--seed, --sets), or are all there are (--all): every draw below
2^min(attempt limit - 1, backoff limit), or below --below. Made draws are --draws for each
station: 16 if absent, with --all the plan's own number.

--rows FILE keeps a CSV line for each set and offer. An interrupted sweep with --rows goes on
where it stopped. --only A:B makes the sets from A to B - 1 alone; --merge makes the table of rows
that were made elsewhere:

    seq 0 1000 9000 | parallel 'wisavulome sweep plan.txt --sets 10000 --only {}:+1000 --rows part{}.csv >part{}.txt'
    wisavulome sweep plan.txt --sets 10000 --merge part*.csv

--worst FILE writes the plan of the worst set as text, --plan-of K the plan of any: 'wisavulome
run' runs it again. A set is worse that has more lost frames, then more with a late collision (late,
late-end), then more frames given up, then more still held at the end, then the longer longest
delay; of equals the first.

Exit status: 0 nothing lost in any set, 1 a frame is lost or given up or a collision was late, 2
refused or usage, 3 the output could not be written."""

MOST_SETS = 1 << 32
FEW = 1 << 20  # sets that --all makes without --below
LATES = (LATE, "late-end")  # outcomes after a late collision
GIVEN_UP = tuple(word for word in ENDINGS if word not in ("sent", *LATES))
CHUNK = 64  # sets that a process makes at a time
QUANTILES = (("min", 0), ("median", 50), ("p95", 95), ("max", 100))
OUTCOMES = (*ENDINGS, LATE, "held", "refused", "not made")
HEADER = (
    ["offer", "time", "station", "to", *OUTCOMES, "lost"]
    + ["attempts-mean", "attempts-max"]
    + [f"delay-{name}" for name, _part in QUANTILES]
)


def add_parser(subparsers):
    """The arguments of the subcommand."""
    parser = subparsers.add("sweep", "one plan with many sets of draws", HELP)
    parser.add_argument("file", metavar="PLAN", help="a plan as text or octets; its own draws are not used")
    parser.add_argument("--seed", type=int, default=1, help="the sets are made from it (default 1)")
    parser.add_argument("--sets", type=int, default=None, help="how many sets (default 1000)")
    parser.add_argument("--all", action="store_true", help="every set, where they are few")
    parser.add_argument("--below", type=int, help="with --all: draws below this number alone")
    parser.add_argument("--draws", type=int, help="draws of each station")
    parser.add_argument("--jobs", type=int, default=0, help="processes (default: one for each processor)")
    parser.add_argument("--rows", metavar="FILE", help="a CSV line for each set and offer")
    parser.add_argument("--only", metavar="A:B", help="the sets A to B - 1 alone; A:+n for n of them")
    parser.add_argument("--merge", metavar="FILE", nargs="+", help="take the rows from these files, run nothing")
    parser.add_argument("--worst", metavar="FILE", help="write the plan of the worst set, as text")
    parser.add_argument("--plan-of", metavar="K", type=int, help="print the plan of set K and run nothing")
    parser.add_argument("--csv", action="store_true", help="the table as CSV")


class Sweep:
    """Which sets there are, and the plan of each."""

    def __init__(self, library, octets, arguments):
        self.octets = octets
        self.plan = text.decode(octets)[0]
        figures = library.read_plan(octets).layout.figures
        self.every = arguments.all
        self.seed = arguments.seed
        self.depth = depth_of(arguments, self.plan)
        self.below = below_of(arguments, figures)
        self.count = self.sets_of(arguments)
        if not self.plan.offers:
            raise Failure("the plan has no offers: there is nothing to sweep")
        self.key = self.key_of()

    def sets_of(self, arguments):
        """How many sets there are."""
        if self.every and arguments.sets is not None:
            raise Failure("--all and --sets exclude each other")
        sets = self.below ** (len(self.plan.stations) * self.depth) if self.every else arguments.sets
        sets = 1000 if sets is None else sets
        most = FEW if self.every and arguments.below is None else MOST_SETS
        if not 1 <= sets <= most:
            known = str(sets) if sets < 10**18 else f"over 10^{len(str(sets)) - 1}"
            smaller = "; --below and --draws make them fewer" if self.every else ""
            raise Failure(f"there are {known} sets, and must be 1 to {most}{smaller}")
        return sets

    def key_of(self):
        """A name for what the rows depend on: plan, draws, seed. Rows of different names are not merged."""
        kind = f"all {self.below}" if self.every else f"seed {self.seed}"
        return hashlib.sha256(f"{kind} draws {self.depth} ".encode() + self.bare()).hexdigest()[:16]

    def bare(self):
        """The plan's octets without its draws."""
        bare = text.Plan(self.plan.figures, [text.Station(s.position, s.address) for s in self.plan.stations])
        bare.offers, bare.run = self.plan.offers, self.plan.run
        return text.encode(bare)

    def draws(self, number):
        """The draws of a set, station by station."""
        total = len(self.plan.stations) * self.depth
        if self.every:
            return [number // self.below**place % self.below for place in range(total)]
        made = hashlib.shake_128(f"wisavulome {self.seed} {number}".encode()).digest(2 * total)
        return [int.from_bytes(made[at : at + 2], "big") for at in range(0, 2 * total, 2)]

    def plan_of(self, number):
        """The plan with the draws of a set."""
        draws = self.draws(number)
        plan = text.Plan(self.plan.figures, [], self.depth, self.plan.offers, self.plan.run)
        for at, station in enumerate(self.plan.stations):
            own = draws[self.depth * at : self.depth * (at + 1)]
            plan.stations.append(text.Station(station.position, station.address, own))
        return plan


def depth_of(arguments, plan):
    """How many draws each station has."""
    depth = arguments.draws if arguments.draws is not None else plan.depth if arguments.all else MAX_DRAWS
    if not 1 <= depth <= MAX_DRAWS:
        raise Failure(f"--draws {depth} is outside 1..{MAX_DRAWS}")
    return depth


def below_of(arguments, figures):
    """The number that all draws of '--all' are below. Larger draws do the same as smaller ones."""
    if arguments.below is not None and not arguments.all:
        raise Failure("--below needs --all")
    if arguments.below is not None and not 1 <= arguments.below <= 1 << 16:
        raise Failure(f"--below {arguments.below} is outside 1..65536")
    return arguments.below or 1 << min(figures["attempt-limit"] - 1, figures["backoff-limit"])


def run(library, arguments, output):
    """The subcommand; answers the exit status."""
    source = read_plan_source(library, arguments.file)
    sweep = Sweep(library, source.octets, arguments)
    check_longest(library, sweep)
    if arguments.plan_of is not None:
        return print_plan(sweep, arguments.plan_of, output)
    first, past = only_of(arguments.only, sweep.count)
    rows = Rows(sweep.key, len(sweep.plan.offers), first, past)
    summary = Summary(sweep)
    if arguments.merge:
        for row in rows.merged(arguments.merge):
            summary.add(row)
    else:
        make_rows(sweep, rows, arguments, summary)
    if arguments.merge and arguments.rows:
        write_whole(arguments.rows, rows.kept(), output)
    if arguments.worst:
        write_whole(arguments.worst, text.render(sweep.plan_of(summary.worst()), []), output)
    output.write(summary.shown(arguments.csv))
    return summary.status()


def check_longest(library, sweep):
    """The plans with made draws must be taken: more draws make them longer."""
    try:
        library.read_plan(text.encode(sweep.plan_of(0)))
    except Refused as refusal:
        raise Failure(
            f"with {sweep.depth} draws for each station the plan is {refusal}; --draws makes it shorter"
        ) from refusal


def print_plan(sweep, number, output):
    """The plan of one set."""
    if not 0 <= number < sweep.count:
        raise Failure(f"there is no set {number}: they are 0 to {sweep.count - 1}")
    output.write(text.render(sweep.plan_of(number), []))
    return GOOD


def only_of(words, count):
    """The sets that are made: the first, and the one past the last."""
    if words is None:
        return 0, count
    first, colon, past = words.partition(":")
    try:
        begin = int(first)
        end = begin + int(past[1:]) if past.startswith("+") else int(past)
    except ValueError:
        colon = ""
    if not colon or not 0 <= begin < end <= count:
        raise Failure(f"--only {words}: it is A:B or A:+n, with 0 <= A < B <= {count}")
    return begin, end


# ---- making rows


def rows_of(library, sweep, number):
    """The rows of a set: one for each offer."""
    course = follow(library, text.encode(sweep.plan_of(number)))
    for fate in course.fates:
        counts = [fate.count("got"), fate.count("lost"), fate.count("on its way")]
        yield (sweep.key, number, fate.number, fate.outcome, len(fate.attempts), fate.delay, *counts)


def make_rows(sweep, rows, arguments, summary):
    """Makes the rows that are not there yet, in order, and keeps them."""
    opened = rows.open(arguments.rows) if arguments.rows else None
    for row in rows.there:
        summary.add(row)
    numbers = range(rows.first + len(rows.there) // rows.offers, rows.past)
    with progress("set", len(numbers)) as shown:
        try:
            for at, made in enumerate(all_chunks(sweep, numbers, arguments.jobs)):
                shown.at(at * CHUNK)
                keep_rows(opened, arguments.rows, made)
                for row in made:
                    summary.add(row)
        finally:
            if opened:
                opened.close()


def keep_rows(opened, path, made):
    """Writes rows to their file at once, so that they are there if the sweep is interrupted."""
    if opened is None:
        return
    try:
        opened.write("".join(map(row_line, made)).encode())
    except OSError as why:
        raise Failure(f"{path} could not be written: {why.strerror}", UNWRITTEN) from why


def all_chunks(sweep, numbers, jobs):
    """The rows of all sets, chunk by chunk, in order, by this process or by several.

    Process k makes the chunks k, k + jobs, ... A chunk is known by its first set.
    """
    if jobs < 0:
        raise Failure("--jobs is below 0")
    starts = numbers[::CHUNK]
    jobs = min(jobs or len(os.sched_getaffinity(0)), len(starts))
    if jobs <= 1:
        library = Library()
        yield from (chunk_rows(library, sweep, start, numbers.stop) for start in starts)
        return
    workers = [begin_worker(sweep, starts[at::jobs], numbers.stop) for at in range(jobs)]
    try:
        for at in range(len(starts)):
            yield receive(workers[at % jobs][1])
    finally:
        for process, _end in workers:
            process.terminate()
        for process, _end in workers:
            process.join()


def chunk_rows(library, sweep, start, past):
    """The rows of the sets of a chunk."""
    return [row for number in range(start, min(start + CHUNK, past)) for row in rows_of(library, sweep, number)]


def begin_worker(sweep, starts, past):
    """A process that makes the rows of some chunks, and the end at which they are received."""
    context = multiprocessing.get_context("fork")
    here, there = context.Pipe(duplex=False)
    process = context.Process(target=work, args=(sweep, starts, past, there), daemon=True)
    process.start()
    there.close()
    return process, here


def work(sweep, starts, past, there):
    """What such a process does. An interrupt is for the first process, which ends this one."""
    signal.signal(signal.SIGINT, signal.SIG_IGN)
    signal.signal(signal.SIGTERM, signal.SIG_DFL)
    library = Library()
    with suppress(BrokenPipeError):
        for start in starts:
            there.send(chunk_rows(library, sweep, start, past))


def receive(end):
    """The next rows of a process."""
    try:
        return end.recv()
    except EOFError as why:
        raise Failure(
            "a process of the sweep was killed; with --rows the same command goes on where it stopped"
        ) from why


# ---- the table


class Summary:
    """What rows say together."""

    def __init__(self, sweep):
        self.sweep = sweep
        self.offers = [Tally() for _offer in sweep.plan.offers]
        self.worst_so_far = None
        self.current = None

    def add(self, row):
        """One row more; the rows of a set stand together."""
        _key, number, offer, outcome, attempts, delay, _got, lost, _way = row
        self.offers[offer - 1].add(outcome, attempts, delay, lost)
        if self.current is None or self.current[1] != -number:
            self.settle()
            self.current = ((0, 0, 0, 0, -1), -number)
        worse = (lost, outcome in LATES, outcome in GIVEN_UP, outcome == "held")
        longest = max(self.current[0][-1], -1 if delay is None else delay)
        self.current = ((*map(sum, zip(self.current[0], worse)), longest), -number)

    def settle(self):
        """The set that was added is whole: it may be the worst."""
        if self.current and (self.worst_so_far is None or self.current > self.worst_so_far):
            self.worst_so_far = self.current

    def worst(self):
        """The number of the worst set."""
        self.settle()
        return -self.worst_so_far[1]

    def shown(self, is_csv):
        """The table; below it how it went."""
        rows = [self.row_of(number, tally) for number, tally in enumerate(self.offers, 1)]
        if is_csv:
            return as_csv(HEADER, rows)
        self.settle()
        (lost, late, given_up, held, longest), number = self.worst_so_far
        sets = sum(self.offers[0].outcomes.values())
        delay = f", longest delay {longest}" if longest >= 0 else ""
        worst = f"worst set {-number}: {lost} lost, {late} late, {given_up} given up, {held} held{delay}"
        return f"sets {sets}\n{as_table(HEADER, rows)}{worst}\n"

    def row_of(self, number, tally):
        """An offer's row of the table."""
        offer = self.sweep.plan.offers[number - 1]
        to = text.render_destination(self.sweep.plan, offer.destination)
        return [number, offer.time, offer.station, to, *tally.columns()]

    def status(self):
        """1 where anything was lost, given up or late."""
        return NO if any(tally.is_bad() for tally in self.offers) else GOOD


class Tally:
    """What came of one offer in all sets."""

    def __init__(self):
        self.outcomes = Counter()
        self.attempts = Counter()
        self.delays = Counter()
        self.lost = 0

    def add(self, outcome, attempts, delay, lost):
        """The offer in one set more."""
        self.outcomes[outcome.partition(" ")[0] if outcome.startswith("refused") else outcome] += 1
        self.attempts[attempts] += 1
        if delay is not None and outcome == "sent":
            self.delays[delay] += 1
        self.lost += lost > 0

    def columns(self):
        """The numbers of the table."""
        quantiles = [quantile(self.delays, part) for _name, part in QUANTILES]
        mean = hundredths(sum(n * times for n, times in self.attempts.items()), sum(self.attempts.values()))
        return [
            *(self.outcomes[word] for word in OUTCOMES),
            self.lost,
            mean,
            max(self.attempts, default=None),
            *quantiles,
        ]

    def is_bad(self):
        """Whether the offer came to a bad end in some set."""
        return bool(self.lost or any(self.outcomes[word] for word in (*LATES, *GIVEN_UP)))


def quantile(counts, part):
    """The smallest number that is at least this part, in hundredths, of all that were counted; None of nothing."""
    total = sum(counts.values())
    needed = max(1, -(-total * part // 100))
    for number in sorted(counts):
        needed -= counts[number]
        if needed <= 0:
            return number
    return None


def hundredths(total, count):
    """A mean with two places, by whole numbers, so that it is the same everywhere."""
    scaled = (200 * total + count) // (2 * count) if count else 0
    return f"{scaled // 100}.{scaled % 100:02d}"
