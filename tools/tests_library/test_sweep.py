"""`wisavulome sweep`."""

import csv
import io
import os
import signal
import subprocess
import time

from common import LATE_PLAN, STORED, TOOL, TWO, WORKED, CommandTest, call

from wisavulome.sweep import hundredths, quantile

OFFERS = [(0, 0), (0, 1), (9000, 0), (9005, 1)]
PLAN = (
    TWO
    + "".join(f"offer at {t} station {i} to station {1 - i} value length data 01\n" for t, i in OFFERS)
    + "run 40000\n"
)


def heed_interrupts():
    """What runs in the background of a script is born with interrupts ignored; not so the one under test."""
    signal.signal(signal.SIGINT, signal.SIG_DFL)


class Sweep(CommandTest):
    def setUp(self):
        super().setUp()
        self.plan = self.file("plan.txt", PLAN)

    def rows(self, name="rows.csv"):
        return list(csv.DictReader(io.StringIO((self.folder / name).read_text())))

    def test_reproducible(self):
        first = call("sweep", self.plan, "--sets", 500, "--rows", self.folder / "a.csv", "--jobs", 1)
        again = call("sweep", self.plan, "--sets", 500, "--rows", self.folder / "b.csv", "--jobs", 3)
        self.assertEqual(first, again)
        self.assertEqual((first[0], first[1].splitlines()[0]), (0, "sets 500"))
        self.assertEqual((self.folder / "a.csv").read_bytes(), (self.folder / "b.csv").read_bytes())
        other = call("sweep", self.plan, "--sets", 500, "--seed", 2, "--rows", self.folder / "c.csv")
        self.assertNotEqual(first[1], other[1])

    def test_rows_are_runs(self):
        """Each row is what 'audit' says of the plan of its set."""
        call("sweep", self.plan, "--sets", 6, "--rows", self.folder / "rows.csv")
        self.assertEqual(len(self.rows()), 24)
        for number in range(6):
            made = self.file("set.txt", call("sweep", self.plan, "--sets", 6, "--plan-of", number)[1])
            audited = csv.DictReader(io.StringIO(call("audit", made, "--format", "csv")[1]))
            for row, one in zip([row for row in self.rows() if row["set"] == str(number)], audited):
                for name in ["offer", "outcome", "attempts", "delay", "got", "lost", "on-its-way"]:
                    self.assertEqual(row[name], one[name], (number, name))

    def test_table(self):
        status, out, _err = call("sweep", self.plan, "--sets", 40, "--csv", "--rows", self.folder / "rows.csv")
        self.assertEqual(status, 0)
        for row in csv.DictReader(io.StringIO(out)):
            own = [each for each in self.rows() if each["offer"] == row["offer"]]
            self.assertEqual(int(row["sent"]), sum(each["outcome"] == "sent" for each in own))
            delays = sorted(int(each["delay"]) for each in own if each["delay"])
            self.assertEqual([int(row[f"delay-{name}"]) for name in ("min", "max")], [delays[0], delays[-1]])
            self.assertEqual(int(row["attempts-max"]), max(int(each["attempts"]) for each in own))

    def test_worst(self):
        """The worst set as a plan that can be run again: it has the longest delay that the table tells."""
        out = call("sweep", self.plan, "--sets", 60, "--worst", self.folder / "worst.txt")[1]
        last = out.splitlines()[-1]
        audited = list(csv.DictReader(io.StringIO(call("audit", self.folder / "worst.txt", "--format", "csv")[1])))
        longest = max(int(row["delay"]) for row in audited if row["delay"])
        held = sum(row["outcome"] == "held" for row in audited)
        self.assertRegex(last, rf"worst set \d+: 0 lost, 0 late, 0 given up, {held} held, longest delay {longest}$")

    def test_lost(self):
        status, out, _err = call(
            "sweep", STORED / "gap-one-over.in", "--all", "--below", 2, "--rows", self.folder / "rows.csv"
        )
        self.assertEqual(status, 1)
        self.assertIn("worst set", out)
        self.assertTrue(any(int(row["lost"]) for row in self.rows()))

    def test_late_end(self):
        """A late-ended frame has a column of its own, and counts as late in the worst set."""
        plan = self.file("late.txt", LATE_PLAN.format(1))
        status, out, _err = call("sweep", plan, "--sets", 5, "--csv")
        row = next(csv.DictReader(io.StringIO(out)))
        self.assertEqual((status, row["late-end"], row["late"], row["sent"]), (1, "5", "0", "0"))
        self.assertIn("0 lost, 1 late, 0 given up", call("sweep", plan, "--sets", 5)[1].splitlines()[-1])

    def test_every_set(self):
        """All sets of two draws below 3 are nine, each of them once."""
        seen = set()
        for number in range(9):
            made = call("sweep", self.plan, "--all", "--below", 3, "--plan-of", number)[1]
            seen.add(tuple(line.split(" draws ")[1].split()[0] for line in made.splitlines() if " draws " in line))
        self.assertEqual(len(seen), 9)
        self.assertIn("sets 9\n", call("sweep", self.plan, "--all", "--below", 3)[1])
        self.assertEqual(call("sweep", self.plan, "--all", "--draws", 16)[0], 2)
        self.assertEqual(call("sweep", self.plan, "--all", "--below", 3, "--plan-of", 9)[0], 2)

    def test_goes_on_where_it_stopped(self):
        """Whatever part of the rows is there, the same command ends in the same rows and the same table."""
        rows = self.folder / "rows.csv"
        words = ["sweep", self.plan, "--sets", 30, "--rows", rows]
        expected = call(*words)
        whole = rows.read_bytes()
        for size in [0, 20, 59, 100, 200, len(whole) - 1, len(whole)]:
            rows.write_bytes(whole[:size])
            if 0 < size < 59:
                self.assertEqual(call(*words)[0], 2)  # no file of rows
                continue
            self.assertEqual(call(*words), expected, size)
            self.assertEqual(rows.read_bytes(), whole, size)

    def test_interrupted(self):
        """A real interrupt: it ends by the signal, with no traceback, and goes on afterwards."""
        rows = self.folder / "rows.csv"
        words = [str(TOOL), "sweep", str(self.plan), "--sets", "4000", "--rows", str(rows)]
        with subprocess.Popen(
            words, stdout=subprocess.PIPE, stderr=subprocess.PIPE, start_new_session=True, preexec_fn=heed_interrupts
        ) as running:
            until = time.time() + 30
            while time.time() < until and not (rows.exists() and rows.stat().st_size > 5000):
                time.sleep(0.01)
            os.killpg(running.pid, signal.SIGINT)
            _out, err = running.communicate(timeout=60)
        self.assertEqual((running.returncode, err), (-signal.SIGINT, b""))
        begun = rows.stat().st_size
        done = call(*words[1:])
        self.assertGreater(rows.stat().st_size, begun)
        self.assertEqual(done, call("sweep", self.plan, "--sets", 4000))

    def test_killed_worker(self):
        """A process of the sweep is killed: that is said, nothing hangs, and the sweep goes on afterwards."""
        rows = self.folder / "rows.csv"
        words = [str(TOOL), "sweep", str(self.plan), "--sets", "4000", "--jobs", "2", "--rows", str(rows)]
        with subprocess.Popen(words, stdout=subprocess.PIPE, stderr=subprocess.PIPE) as running:
            until = time.time() + 30
            while time.time() < until and not (rows.exists() and rows.stat().st_size > 5000):
                time.sleep(0.01)
            children = subprocess.run(
                ["ps", "-o", "pid=", "--ppid", str(running.pid)], capture_output=True, check=True
            ).stdout
            os.kill(int(children.split()[0]), signal.SIGKILL)
            _out, err = running.communicate(timeout=60)
        self.assertEqual(running.returncode, 2)
        self.assertIn(b"a process of the sweep was killed", err)
        self.assertEqual(call(*words[1:]), call("sweep", self.plan, "--sets", 4000))

    def test_rows_of_another_sweep(self):
        rows = self.folder / "rows.csv"
        call("sweep", self.plan, "--sets", 5, "--rows", rows)
        before = rows.read_bytes()
        for words in [["--seed", 2, "--sets", 5], ["--draws", 3, "--sets", 5], ["--sets", 4]]:
            self.assertEqual(call("sweep", self.plan, *words, "--rows", rows)[0], 2, words)
        self.assertEqual(call("sweep", WORKED, "--sets", 5, "--rows", rows)[0], 2)
        self.assertEqual(rows.read_bytes(), before)

    def test_parts_and_merge(self):
        whole = self.folder / "whole.csv"
        expected = call("sweep", self.plan, "--sets", 30, "--rows", whole)
        for first in (0, 10, 20):
            call("sweep", self.plan, "--sets", 30, "--only", f"{first}:+10", "--rows", self.folder / f"part{first}.csv")
        parts = [self.folder / f"part{first}.csv" for first in (20, 0, 10)]
        merged = self.folder / "merged.csv"
        self.assertEqual(call("sweep", self.plan, "--sets", 30, "--rows", merged, "--merge", *parts), expected)
        self.assertEqual(merged.read_bytes(), whole.read_bytes())
        status, _out, err = call("sweep", self.plan, "--sets", 30, "--merge", *parts[:2])
        self.assertEqual((status, err), (2, "wisavulome: set 10, offer 1 is in none of the files\n"))

    def test_usage(self):
        for words in [
            ["--sets", 0],
            ["--only", "5"],
            ["--only", "5:3"],
            ["--only", "0:2000"],
            ["--below", 2],
            ["--all", "--sets", 4],
            ["--draws", 17],
            ["--jobs", -1],
            ["--plan-of", 1000],
        ]:
            status, out, err = call("sweep", self.plan, *words)
            self.assertEqual((status, out), (2, ""), words)
            self.assertTrue(err.startswith("wisavulome: "), err)

    def test_full_disk(self):
        status, _out, err = call("sweep", self.plan, "--sets", 3, "--rows", "/dev/full")
        self.assertEqual((status, err), (3, "wisavulome: /dev/full could not be written: No space left on device\n"))

    def test_numbers(self):
        self.assertEqual([quantile({1: 1, 5: 2, 9: 1}, part) for part in (0, 25, 50, 75, 76, 100)], [1, 1, 5, 5, 9, 9])
        self.assertIsNone(quantile({}, 50))
        self.assertEqual(
            [hundredths(1, 3), hundredths(2, 3), hundredths(5, 2), hundredths(0, 4)], ["0.33", "0.67", "2.50", "0.00"]
        )
