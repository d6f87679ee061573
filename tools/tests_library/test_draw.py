"""`wisavulome draw`: structure of the drawings; bands held against stepped emissions."""

import os
import random
import subprocess

from common import ROOT, STORED, TOOL, WORKED, CommandTest, call, stepped_cases, stored, stored_cases
from shapes import FAR_APART, ONE_APART, SVG, THREE, outside, overlaps, parsed, plan_text

from wisavulome import library as table
from wisavulome import text
from wisavulome.course import advance_to, follow, make_due
from wisavulome.draw_run import LEFT, ROOM, View, draw_run
from wisavulome.heard import Hearing
from wisavulome.library import Refused
from wisavulome.window import window_of


class Sheets(CommandTest):
    def test_octets_read_back(self):
        """The sheet's octets stand in the drawing, and 'fit' says the same of both, on every stored sheet."""
        seen = 0
        for name, octets, _printed in stored_cases():
            try:
                used = self.library.read_sheet(octets).used
            except Refused:
                continue
            seen += 1
            if seen % 6:
                continue  # each is three processes
            sheet = self.file("sheet", octets[:used])
            drawing = self.folder / "sheet.svg"
            self.assertEqual(call("draw", sheet, "-o", drawing)[0], 0, name)
            back = self.folder / "back"
            self.assertEqual(call("write", "--as", "octets", drawing, "-o", back)[0], 0, name)
            self.assertEqual(back.read_bytes(), octets[:used], name)
            one, other = call("fit", sheet), call("fit", drawing)
            self.assertEqual((one[0], one[1].splitlines()[1:]), (other[0], other[1].splitlines()[1:]), name)
        self.assertGreater(seen, 40)

    def test_what_it_shows(self):
        words = [
            each.text
            for each in parsed(call("draw", "--sheet", self.file("p", "jam 40\n" + THREE))[1]).iter(SVG + "text")
        ]
        for expected in [
            "at 0",
            "at 120",
            "at 200",
            "120",
            "80",
            "span S = 200 bit times",
            "02:00:00:00:00:02",
            "given",
            "default",
            "2 x S + G = 2 x 200 + 96 = 496, slot 512",
            "margin 16",
            "G = 64 + 32 = 96, 64 + jam = 104",
            "margin 8",
            "fit yes",
        ]:
            self.assertIn(expected, words)

    def test_no_label_on_another(self):
        positions = [
            range(16),
            range(240, 256),
            [0, 1, 2, 3, 60, 61, 62, 63, 120, 121, 180, 181, 200, 253, 254, 255],
            [0, 255],
            [0, 1],
        ]
        positions += [[0, 1, 2, 3, 4, 5], [0, 1, 2, 3, 4, 5, 6], [0, 120, 121, 122, 255]]
        for each in positions:
            root = parsed(call("draw", "--sheet", self.file("p", plan_text(each, [], 10)))[1])
            self.assertEqual((overlaps(root), outside(root)), ([], []), list(each))

    def test_damaged_drawing(self):
        drawing = call("draw", "--sheet", WORKED)[1]
        for broken, why in [
            (drawing.replace("w:octets", "w:other"), "the drawing carries no sheet or plan of ours"),
            (
                drawing.replace('urn:wisavulome:octets" form="sheet">00', 'urn:wisavulome:octets" form="sheet">0'),
                "are damaged",
            ),
        ]:
            status, out, err = call("fit", self.file("d.svg", broken))
            self.assertEqual((status, out), (2, ""))
            self.assertIn(why, err)


class Runs(CommandTest):
    def drawing(self, octets, window=None):
        course = follow(self.library, octets)
        return course, draw_run(course, window_of(window, course.clock), octets, "Run")

    def attempts(self, root):
        """The bands of a drawing: station, first step, first jam step, step past the last."""
        groups = [each for each in root.iter(SVG + "g") if each.get("class") == "attempt"]
        return [
            tuple(int(each.get(name)) for name in ("data-station", "data-start", "data-jam", "data-end"))
            for each in groups
        ]

    def test_bands_are_what_is_emitted(self):
        """On every stored case the bands of the drawing against the library's steps: who emitted, what reaches whom."""
        seen = 0
        for name, octets in stepped_cases(self.library):
            course, drawn = self.drawing(octets)
            emits = [bytearray(course.clock) for _tap in course.layout.taps]
            for station, start, jam, end in self.attempts(parsed(drawn)):
                for time in range(start, end):
                    self.assertEqual(emits[station][time], 0, name)
                    emits[station][time] = 1 if time < jam else 2
            self.assertTrue(self.stepped(course, octets, emits), name)
            seen += 1
        self.assertGreater(seen, 40)

    def test_bands_of_made_up_plans(self):
        """The same on plans made up here, on pairs that fit or not, cut off at any step."""
        rng = random.Random(11)
        words = set()
        for _ in range(150):
            plan = text.Plan(self.some_figures(rng))
            positions = sorted(rng.sample(range(256), rng.randrange(2, 6)))
            for number, position in enumerate(positions):
                draws = [rng.randrange(8) for _ in range(3)]
                plan.stations.append(text.Station(position, bytes([2, 0, 0, 0, 0, number + 1]), draws))
            plan.depth = 3
            for time in sorted(rng.randrange(400) for _ in range(rng.randrange(2, 8))):
                data = bytes(rng.randrange(256) for _ in range(rng.randrange(60)))
                station = rng.randrange(len(positions))
                plan.offers.append(text.Offer(time, station, text.BROADCAST, len(data), len(data), data))
            plan.run = rng.randrange(200, 3000)
            octets = text.encode(plan)
            course, drawn = self.drawing(octets)
            words.update(event.word for event in course.events)
            emits = [bytearray(course.clock) for _tap in course.layout.taps]
            for station, start, jam, end in self.attempts(parsed(drawn)):
                for time in range(start, end):
                    emits[station][time] = 1 if time < jam else 2
            self.assertTrue(self.stepped(course, octets, emits), octets.hex())
        self.assertTrue(words >= {"collision", "late", "sent", "got ok"}, words)

    def some_figures(self, rng):
        """Figures within their ranges."""
        gap2 = rng.randrange(1, 60)
        return {
            "slot": rng.randrange(64, 513),
            "gap1": rng.randrange(2 * gap2),
            "gap2": gap2,
            "jam": rng.randrange(1, 65),
            "attempt-limit": rng.randrange(1, 5),
            "backoff-limit": rng.randrange(1, 4),
        }

    def stepped(self, course, octets, emits):
        """Steps the plan: 'emitted' of each station, and packet bits, or what spoils them, where it hears."""
        area = advance_to(self.library, octets, 0)
        stations = range(len(emits))
        spaces = [(j, i, course.layout.distance(i, j)) for j in stations for i in stations if i != j]
        states = [self.library.station(area, j) for j in stations]
        for time in range(course.clock):
            make_due(self.library, area, course.plan, time)  # an offer changes nothing of what is heard
            sources = [[] for _ in stations]
            for j, i, away in spaces:
                if time >= away and emits[i][time - away]:
                    sources[j].append(emits[i][time - away])
            for j in stations:
                spoiled = (table.SPOILED,)
                expected = {0: (0,), 1: spoiled if sources[j] == [2] else (1, 2)}.get(len(sources[j]), spoiled)
                if states[j].hears not in expected:
                    return False
            self.library.call("step", area, STEP_OUT)
            states = [self.library.station(area, i) for i in stations]
            if any(states[i].emitted != (emits[i][time] > 0) for i in stations):
                return False
        return True

    def test_hearing(self):
        """The symbols that are derived for a station are those of the library's delay lines, bit for bit.

        Jam and several at once are one there.
        """
        for name in ["worked", "gap-one-over", "slot-one-over", "case048"]:
            octets = stored(name)
            course = follow(self.library, octets)
            hearings = [Hearing(course, station) for station in range(len(course.layout.taps))]
            area = advance_to(self.library, octets, 0)
            for time in range(course.clock):
                make_due(self.library, area, course.plan, time)
                for station, hearing in enumerate(hearings):
                    derived = min(hearing.symbol(time), table.SPOILED)
                    self.assertEqual(derived, self.library.station(area, station).hears, (name, time, station))
                list(self.library.step(area))

    def test_shapes_are_the_bands(self):
        """The corners of each band's shapes lie where its steps and the distances put them."""
        octets = call("write", "--as", "octets", self.file("p", THREE), "-o", self.folder / "p.in")
        octets = (self.folder / "p.in").read_bytes()
        course, drawn = self.drawing(octets)
        view = View(course.layout, 0, course.clock, None)
        for group in parsed(drawn).iter(SVG + "g"):
            own = course.layout.taps[int(group.get("data-station"))].position
            start, end = int(group.get("data-start")), int(group.get("data-end"))
            points = [
                tuple(map(float, each.split(",")))
                for shape in group.iter(SVG + "polygon")
                for each in shape.get("points").split()
            ]
            for x, y in points:
                place = (x - LEFT) / ROOM * course.layout.span
                time = (y - view.top) / view.scale - abs(place - own)
                self.assertTrue(start - 0.5 <= time <= end + 0.5 or abs(y - view.bottom) < 0.02, (group.attrib, x, y))
            self.assertTrue(any(abs(x - view.x(own)) < 0.02 and abs(y - view.y(start)) < 0.02 for x, y in points))

    def test_nothing_past_an_early_end(self):
        course, drawn = self.drawing(stored("slot-one-over"))
        self.assertTrue(course.ended_early)
        root = parsed(drawn)
        view = View(course.layout, 0, course.clock, None)
        lowest = max(
            float(point.split(",")[1]) for each in root.iter(SVG + "polygon") for point in each.get("points").split()
        )
        self.assertLessEqual(lowest, view.bottom + 0.01)
        self.assertTrue(all(end <= course.clock for _station, _start, _jam, end in self.attempts(root)))
        self.assertIn(
            f"ended early at {course.clock}, after a late collision; 3000 bit times were asked",
            [each.text for each in root.iter(SVG + "text")],
        )
        self.assertEqual(
            sum(each.get("class") == "late" for each in root.iter(SVG + "path")), 2
        )  # the collision, and its place in the legend

    def test_marks(self):
        """Every event of the window has its mark, on every stored case."""
        classes = {
            "collision": ["collision"],
            "late": ["late"],
            "sent": ["sent"],
            "given-up": ["given-up", "late-end"],
            "got": ["got ok"],
        }
        for name, octets in stepped_cases(self.library):
            course, drawn = self.drawing(octets)
            found = [each.get("class") for each in parsed(drawn).iter() if each.get("class")]
            for kind, words in classes.items():
                self.assertEqual(
                    found.count(kind), 1 + sum(event.word in words for event in course.events), (name, kind)
                )

    def test_lost_frame(self):
        course, drawn = self.drawing(stored("gap-one-over"))
        self.assertIn("709 0 lost, offer 2", [each.text for each in parsed(drawn).iter(SVG + "text")])
        self.assertEqual(len(course.fates), 3)

    def test_no_label_on_another(self):
        for name, octets in [*stepped_cases(self.library), ("one apart", ONE_APART), ("far apart", FAR_APART)]:
            if isinstance(octets, str):
                octets = subprocess.run(
                    [str(TOOL), "write", "--as", "octets", "-"], input=octets.encode(), capture_output=True, check=True
                ).stdout
            root = parsed(self.drawing(octets)[1])
            self.assertEqual((overlaps(root), outside(root)), ([], []), name)

    def test_window(self):
        octets = stored("case003")
        course, drawn = self.drawing(octets, "100:+300")
        for station, start, _jam, end in self.attempts(parsed(drawn)):
            reach = max(
                course.layout.distance(station, 0), course.layout.distance(station, len(course.layout.taps) - 1)
            )
            self.assertTrue(start < 400 and end + reach > 100)
        for words in ["5:5", "9:3", "99999999:", "x", "-5:9", "1", ":0", "5:x"]:
            status, out, err = call("draw", f"--window={words}", "-o", self.folder / "x.svg", STORED / "case003.in")
            self.assertEqual((status, out), (2, ""), words)
            self.assertTrue(err.startswith("wisavulome: --window"), err)
        self.assertEqual(list(self.folder.iterdir()), [])

    def test_refused(self):
        for name in ["draw", "capture", "wave"]:
            status, out, err = call(name, STORED / "case002.in", "-o", self.folder / "x")
            self.assertEqual((status, out), (2, ""))
            self.assertIn("refused 3", err)
        self.assertEqual(list(self.folder.iterdir()), [])

    def test_same_input_same_octets(self):
        for name in ["draw", "capture", "wave"]:
            made = {
                subprocess.run(
                    [str(TOOL), name, str(WORKED)],
                    env=dict(os.environ, PYTHONHASHSEED=str(seed)),
                    capture_output=True,
                    check=True,
                ).stdout
                for seed in (1, 2, 3)
            }
            self.assertEqual(len(made), 1, name)


class Pictures(CommandTest):
    """The pictures of the README are what the command draws today."""

    def test_current(self):
        wing, pictures = ROOT / "docs" / "wing.txt", ROOT / "docs" / "pictures"
        rows = self.folder / "rows.csv"
        call("sweep", wing, "--rows", rows)
        for name, words in [
            ("sheet", ["--sheet", wing, "--title", "Wing 7"]),
            ("run", [wing, "--title", "Wing 7", "--height", 900]),
            ("sweep", [rows, "--title", "Wing 7"]),
        ]:
            self.assertEqual(call("draw", *words)[1], (pictures / f"{name}.svg").read_text(), name)


class Sweeps(CommandTest):
    def test_distribution(self):
        rows = self.folder / "rows.csv"
        call("sweep", WORKED, "--sets", 60, "--rows", rows)
        root = parsed(call("draw", rows)[1])
        self.assertEqual((overlaps(root), outside(root)), ([], []))
        for offer in ("1", "2"):
            sent = sum(line.split(",")[2:4] == [offer, "sent"] for line in rows.read_text().splitlines())
            bars = [each for each in root.iter(SVG + "rect") if each.get("data-offer") == offer]
            self.assertEqual(sum(int(each.get("data-count")) for each in bars), sent)

    def test_no_rows(self):
        self.assertEqual(
            call("draw", self.file("r.csv", "sweep,set,offer,outcome,attempts,delay,got,lost,on-its-way\n"))[0], 2
        )
        self.assertEqual(
            call("draw", self.file("r.csv", "sweep,set,offer,outcome,attempts,delay,got,lost,on-its-way\nx\n"))[0], 2
        )


STEP_OUT = table.buffer_of("step")
