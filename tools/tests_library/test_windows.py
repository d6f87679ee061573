"""`wisavulome windows`: what the windows over a run's text hold."""

import csv
import io
from collections import Counter

from common import CommandTest, call, stored_cases

from wisavulome.library import EVENTS, MAX_WINDOWS, Refused, entry_of
from wisavulome.windows import read_log

LOG = "stations 2 fit yes\n10 0 collision 11\n10 1 collision 11\n20 0 sent 1\n31 1 got ok 46\n31 1 refused 12\nend 40\n"


def rows(text):
    """The rows of CSV, by name."""
    return list(csv.DictReader(io.StringIO(text)))


class Windows(CommandTest):
    def looked_up(self, log, windows, *more):
        """Status, standard output and standard error of the command."""
        return call("windows", self.file("log.txt", log), self.file("windows.txt", windows), *more)

    def test_table(self):
        status, out, err = self.looked_up(LOG, "0 10 20  # half-open\n1 10 32\n0 20 20\n")
        self.assertEqual((status, err), (0, ""))
        lines = [line.split() for line in out.splitlines()]
        self.assertEqual(lines[0][:4], ["station", "first", "past", "collision"])
        self.assertEqual(lines[1], "0 10 20 1 0 0 0 0 0 0 0 0 0".split())
        self.assertEqual(lines[2], "1 10 32 1 0 0 0 0 1 0 0 0 0".split())
        self.assertEqual(lines[3], "0 20 20 0 0 0 0 0 0 0 0 0 0".split())

    def test_no_windows(self):
        header = ",".join(["station", "first", "past", *EVENTS]) + "\n"
        self.assertEqual(self.looked_up(LOG, "# none\n", "--csv")[:2], (0, header))

    def test_many(self):
        """Hundreds of windows, one after the other, answer as each alone."""
        windows = [(at % 2, at % 40, at % 40 + 15) for at in range(3 * MAX_WINDOWS + 5)]
        text = "".join(f"{station} {first} {past}\n" for station, first, past in windows)
        entries = read_log("log", [LOG.encode()]).entries
        found = [tuple(map(int, row.values())) for row in rows(self.looked_up(LOG, text, "--csv")[1])]
        self.assertEqual(found, [(*window, *self.library.windows(entries, 2, [window])[0]) for window in windows])

    def test_stored_texts(self):
        """On every stored run a window over all of it counts the lines of its station."""
        seen = 0
        for name, _octets, printed in stored_cases():
            if printed.startswith("refused"):
                continue
            log = read_log(name, [printed.encode()])
            words = Counter()
            for line in printed.splitlines():
                _time, station, word = (line + "  ").split(" ", 2)
                if station.isdigit():
                    words[int(station), word.strip().rpartition(" ")[0]] += 1
            windows = [(station, 0, 2**32 - 1) for station in range(log.stations)]
            for station, held in enumerate(self.library.windows(log.entries, log.stations, windows)):
                self.assertEqual(held, tuple(words[station, word] for word in EVENTS), name)
                seen += sum(held)
        self.assertGreater(seen, 1000)

    def test_refusals(self):
        for log, windows, number in [
            (LOG, "2 0 1\n", 10),
            (LOG + "50 2 sent 1\n", "0 0 1\n", 10),
            (LOG, "0 5 4\n", 20),
            (LOG + "5 0 sent 1\n", "0 0 1\n", 21),
            (LOG + "5 0 sent 1\n", "", 21),
        ]:
            status, out, err = self.looked_up(log, windows)
            self.assertEqual((status, out), (2, ""))
            self.assertTrue(err.startswith(f"wisavulome: refused {number}: "), err)

    def test_of_the_call(self):
        """What the command never asks for: more than 64 windows, an event that is none; 10 comes before 16."""
        for entries, windows, number in [
            (b"", [(0, 0, 1)] * 65, 16),
            (b"", [(0, 0, 1)] * 65 + [(2, 0, 1)], 10),
            (entry_of(1, 0, 0), [(0, 0, 1)], 5),
            (entry_of(1, 0, 11), [(0, 0, 1)], 5),
        ]:
            with self.assertRaises(Refused) as caught:
                self.library.windows(entries, 2, windows)
            self.assertEqual(caught.exception.number, number)

    def test_stations(self):
        """N by the log's own line, or by --stations."""
        events = LOG.split("\n", 1)[1]
        status, _out, err = self.looked_up(events, "0 0 1\n")
        self.assertEqual(status, 2)
        self.assertIn("the number of stations", err)
        self.assertEqual(self.looked_up(events, "0 0 1\n", "--stations", "2")[0], 0)
        self.assertEqual(self.looked_up(events, "0 0 1\n", "--stations", "1")[0], 2)

    def test_wrong_lines(self):
        status, _out, err = self.looked_up(LOG + "12 0 crash 3\n", "0 0 1\n")
        self.assertEqual(status, 2)
        self.assertIn("log.txt: line 8: '12 0 crash 3' is no event", err)
        status, _out, err = self.looked_up(LOG, "0 0 1\n0 1\n")
        self.assertEqual(status, 2)
        self.assertIn("windows.txt: line 2: '0 1' is no window", err)
