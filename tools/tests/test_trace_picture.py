#!/usr/bin/env python3
"""Tests of tools/trace-picture. three_workers.trace is put together by hand: it is what a run of three workers may
write whose output fails at its fourth chunk."""
import collections
import pathlib
import subprocess
import sys
import tempfile
import unittest
import xml.etree.ElementTree as xml

TOOLS = pathlib.Path(__file__).resolve().parent.parent
DOCS = TOOLS.parent / "docs"
THREE_WORKERS = pathlib.Path(__file__).with_name("three_workers.trace").read_text()
ONE_WORKER = """edge 1 down c4 close taken 2
edge 1 up pull pull taken 1
edge 2 down c4 close taken 2
edge 2 up pull pull taken 2
"""
STAGES = b"""version = 1
workers = 3
stage = [{ kind = "lines" }, { kind = "number" }, { kind = "hex", worker = 2 }, { kind = "unhex", worker = 3 }]
"""
SVG = "{http://www.w3.org/2000/svg}"

Arrow = collections.namedtuple("Arrow", "kind x y to_x to_y")


def call(trace, *words):
    command = [sys.executable, "-B", TOOLS / "trace-picture", *words]
    return subprocess.run(command, input=trace, capture_output=True, text=True, timeout=60)


class Picture:
    """The parts of a picture that tests look at. The arrows of the legend are none: they stand below all lanes."""

    def __init__(self, trace, *words):
        done = call(trace, *words)
        assert done.returncode == 0, done.stderr
        self.text = done.stdout
        top = xml.fromstring(self.text)
        self.words = [text.text for text in top.iter(SVG + "text")]
        lines = [self.arrow(line) for line in top.iter(SVG + "line")]
        self.lanes = sorted(line.x for line in lines if line.kind == "lane")
        bottom = max(line.to_y for line in lines if line.kind == "lane")
        self.arrows = [line for line in lines if line.kind != "lane" and line.y < bottom]
        self.rings = [ring.get("class") for ring in top.iter(SVG + "circle") if float(ring.get("cy")) < bottom]

    @staticmethod
    def arrow(line):
        return Arrow(line.get("class"), *(float(line.get(key)) for key in ("x1", "y1", "x2", "y2")))

    def between(self, edge, kind):
        """The arrows of this kind on an edge, counted from 1, from the top down."""
        left, right = self.lanes[edge - 1], self.lanes[edge]
        found = [one for one in self.arrows if one.kind == kind and left < one.x < right and left < one.to_x < right]
        return sorted(found, key=lambda one: one.y)


class Drawing(unittest.TestCase):
    def test_each_message_is_an_arrow_between_neighbours(self):
        picture = Picture(THREE_WORKERS)
        self.assertEqual(len(picture.lanes), 5)
        self.assertEqual([len(picture.between(edge, "chunk")) for edge in (1, 2, 3, 4)], [6, 5, 5, 4])
        self.assertEqual([len(picture.between(edge, "pull")) for edge in (1, 2, 3, 4)], [6, 6, 4, 4])
        self.assertEqual([len(picture.between(edge, "error")) for edge in (1, 2, 3, 4)], [1, 1, 1, 1])
        self.assertTrue(all(arrow.to_x > arrow.x for arrow in picture.arrows if arrow.kind in ("chunk", "close")))
        self.assertTrue(all(arrow.to_x < arrow.x for arrow in picture.arrows if arrow.kind in ("pull", "error")))

    def test_a_chunk_comes_after_its_pull_and_the_next_pull_after_it(self):
        for trace in (THREE_WORKERS, ONE_WORKER):
            picture = Picture(trace)
            for edge in range(1, len(picture.lanes)):
                pulls, chunks, errors = (picture.between(edge, kind) for kind in ("pull", "chunk", "error"))
                for asks, chunk in zip([*pulls, *errors], chunks):
                    self.assertGreater(chunk.y, asks.to_y)
                for chunk, asks in zip(chunks, pulls[1:]):
                    self.assertGreater(asks.y, chunk.to_y)

    def test_an_end_comes_last(self):
        picture = Picture(THREE_WORKERS)
        # the fifth chunk of edge 3 was sent on the credit of the error that came up, and was never taken
        taken = {1: 6, 2: 5, 3: 4, 4: 4}
        for edge, count in taken.items():
            error = picture.between(edge, "error")[0]
            self.assertGreater(error.y, max(chunk.to_y for chunk in picture.between(edge, "chunk")[:count]))
        picture = Picture(ONE_WORKER)
        above, below = picture.between(1, "close")[0], picture.between(2, "close")[0]
        self.assertGreater(below.y, above.to_y)
        self.assertGreater(below.y, picture.between(2, "pull")[1].to_y)

    def test_nothing_goes_down_before_something_came(self):
        picture = Picture(THREE_WORKERS)
        for edge in (1, 2, 3):
            self.assertGreater(picture.between(edge + 1, "chunk")[0].y, picture.between(edge, "chunk")[0].to_y)

    def test_what_was_never_taken_stops_half_way(self):
        picture = Picture(THREE_WORKERS)
        self.assertEqual(picture.rings, ["chunk"])
        last = picture.between(3, "chunk")[-1]
        self.assertLess(last.to_x, picture.lanes[3] - 40)
        self.assertIn("1 down untaken", picture.words)
        picture = Picture(ONE_WORKER)
        self.assertEqual(picture.rings, ["pull"])
        self.assertIn("1 up untaken", picture.words)


class Words(unittest.TestCase):
    def test_lanes_are_named(self):
        words = Picture(THREE_WORKERS).words
        named = [word for word in words if word in ("input", "output") or word.startswith("worker")]
        self.assertEqual(named, ["input", "worker 1", "worker 2", "worker 3", "output"])

    def test_stages_stand_in_the_lane_of_their_worker(self):
        file = pathlib.Path(self.enterContext(tempfile.TemporaryDirectory()), "plan.toml")
        file.write_bytes(STAGES)
        words = Picture(THREE_WORKERS, "--plan", str(file)).words
        after = {name: words[words.index(name) + 2] for name in ("worker 1", "worker 2", "worker 3")}
        self.assertEqual(after, {"worker 1": "lines, number", "worker 2": "hex", "worker 3": "unhex"})

    def test_totals_and_status(self):
        picture = Picture(THREE_WORKERS)
        for words in ("6 chunks", "24 bytes", "20 bytes", "40 bytes", "16 bytes", "4 pulls"):
            self.assertIn(words, picture.words)
        self.assertIn("It ended with: write fault", picture.words)
        self.assertIn("It ended fine.", Picture(ONE_WORKER).words)

    def test_it_says_that_there_are_no_times(self):
        self.assertIn("A trace has no times", " ".join(word for word in Picture(ONE_WORKER).words if word))

    def test_what_stands_before_the_trace_is_passed_over(self):
        self.assertEqual(Picture("streams: not proved yet\n" + ONE_WORKER).text, Picture(ONE_WORKER).text)


class Long(unittest.TestCase):
    COUNT = 5_000

    def trace(self):
        down = f"down{' c80' * self.COUNT} close taken {self.COUNT + 1}"
        up = f"up{' pull' * (self.COUNT + 1)} taken {self.COUNT}"
        return "".join(f"edge {edge} {row}\n" for edge in (1, 2) for row in (down, up))

    def test_the_middle_of_a_long_trace_is_left_out(self):
        picture = Picture(self.trace())
        self.assertLess(len(picture.text), 20_000)
        self.assertEqual([len(picture.between(edge, "pull")) for edge in (1, 2)], [12, 12])
        self.assertEqual(picture.words.count(f"{self.COUNT + 1 - 12:,} more"), 2)
        self.assertEqual(picture.words.count("400,000 bytes"), 2)
        for edge in (1, 2):
            pulls, chunks = picture.between(edge, "pull"), picture.between(edge, "chunk")
            self.assertTrue(all(chunk.y > asks.to_y for asks, chunk in zip(pulls, chunks)))
            self.assertTrue(all(asks.y > chunk.to_y for chunk, asks in zip(chunks, pulls[1:])))

    def test_how_many_are_drawn_can_be_told(self):
        self.assertEqual(len(Picture(self.trace(), "--most", "20").between(1, "pull")), 20)
        self.assertEqual(len(Picture(THREE_WORKERS, "--most", "4").between(1, "chunk")), 4)


class Pages(unittest.TestCase):
    """docs/trace.txt is the trace of a run of docs/trace.toml, and docs/trace.svg its picture."""

    def test_the_picture_of_the_pages_is_that_of_its_trace(self):
        trace, plan, picture = (DOCS / f"trace.{suffix}" for suffix in ("txt", "toml", "svg"))
        self.assertEqual(Picture(trace.read_text(), "--plan", str(plan)).text, picture.read_text())


class Refused(unittest.TestCase):
    def refuses(self, trace, words):
        done = call(trace)
        self.assertEqual((done.returncode, done.stdout), (1, ""))
        self.assertIn(words, done.stderr)

    def test_texts_that_are_no_trace(self):
        self.refuses("", "two lines for each")
        self.refuses("write fault\n", "two lines for each")
        self.refuses(ONE_WORKER.replace("edge 2 up", "edge 3 up"), "edge 2 up is to stand")
        self.refuses(ONE_WORKER.replace("c4", "4"), "edge 1 down is to stand")

    def test_rows_that_go_on_behind_their_end(self):
        self.refuses(ONE_WORKER.replace("c4 close taken 2", "close c4 taken 2"), "edge 1: down go chunks")
        self.refuses(ONE_WORKER.replace("pull pull taken 2", "error pull taken 2"), "edge 2: up go pulls")

    def test_more_taken_than_sent(self):
        self.refuses(ONE_WORKER.replace("close taken 2", "close taken 3"), "edge 1: more messages were taken")

    def test_what_goes_beyond_the_credit(self):
        self.refuses(ONE_WORKER.replace("pull pull taken 1", "pull pull taken 0"), "edge 1: a chunk was sent")
        self.refuses(ONE_WORKER.replace("pull pull taken 2", "pull pull pull taken 2"), "edge 2: a chunk was asked")

    def test_rows_of_which_each_waits_for_the_other(self):
        ends = ONE_WORKER.replace("pull pull taken 2", "pull pull error taken 3")
        self.refuses(ends, "edge 2: its messages can't have been sent in any order")


if __name__ == "__main__":
    unittest.main()
