"""That what traces reached is counted, and told as text, as JSON and as a picture."""

import contextlib
import io
import json
import os
import tempfile
import unittest
from xml.etree import ElementTree

import reach_counts
import reached
import reached_picture
import traces

HEAD = """#inputs "level":int "up":bool "down":bool
#outputs "slow":real
#locals "gust.1":int
"""
FIRST = f"""#seed 1
{HEAD}#step 1
3 t f #outs 0.50 #locs ?
#step 2
4 t f #outs 0.25 #locs 7
#step 3
7 f t #outs 0.25 #locs ?
#end oracle 3
"""
SECOND = f"""#seed 2
#draw 3
{HEAD}#step 1
7 f f #outs 20.00 #locs ?
#end limit 1
"""
EMPTY = f"#seed 3\n{HEAD}#end deadlock 1\n"

TEXT = """3 runs with 4 steps in all, 0 to 3 a run
  1 run ended by deadlock, in step 1
  1 run ended by limit, in step 1
  1 run ended by oracle, in step 3
to the controller
  level   3 .. 7  ▄▄..█  3 values
  up      t in 50.0 % of the steps; at most 2 t and 1 f in a row
  down    t in 25.0 % of the steps; at most 1 t and 2 f in a row
from the controller
  slow    0.25 .. 20.00  █........▃  3 values
local
  gust.1  7 .. 7  █  1 value; in scope in 25.0 % of the steps
never together
  up t and down t
This is what these runs reached, and not what could be reached.
"""


def counted(*texts):
    counts = reach_counts.Counts()
    for text in texts:
        counts.add(traces.trace_of(text))
    return counts.reached()


def framed(*pieces):
    """Pieces of sessions as a campaign frames them."""
    frames = [f"#from {it} {len(text)}\n{text}" for it, text in pieces]
    return "".join([*frames, "#campaign 3 ended 1\n"])


class Counting(unittest.TestCase):
    def test_a_range_has_ten_parts_or_one_for_each_point(self):
        parts = lambda *words: reach_counts.parts_of({it: 1 for it in words})
        self.assertEqual(parts("0", "1", "3"), [1, 1, 0, 1])
        self.assertEqual(parts("-0.05", "0.00"), [1, 0, 0, 0, 0, 1])
        self.assertEqual(parts("0", "9", "10", "99"), [2, 1, 0, 0, 0, 0, 0, 0, 0, 1])
        self.assertEqual((parts("5"), parts()), ([1], []))

    def test_pairs_that_never_came_together_have_values_that_came(self):
        rows = {("f", "f", "t"), ("t", "f", "t"), ("f", "t", "t")}
        wanted = [(("a", "t"), ("b", "t"))]
        self.assertEqual(reach_counts.never_together(["a", "b", "c"], rows), wanted)

    def test_rows_end_with_their_run(self):
        found = counted(FIRST, FIRST)
        self.assertEqual((found.variables[1].longest_true, found.runs, found.steps), (2, 2, 6))


class Telling(unittest.TestCase):
    def test_as_text(self):
        self.assertEqual(reached.text_of(counted(FIRST, SECOND, EMPTY)), TEXT)

    def test_few_of_many_pairs_are_in_the_text(self):
        names = [f"b{it}" for it in range(8)]
        head = " ".join(f'"{it}":bool' for it in names)
        rows = [" ".join("ft"[one == it] for it in range(8)) for one in range(8)]
        steps = "".join(f"#step {at}\n{row} #outs\n" for at, row in enumerate(rows, 1))
        found = counted(f"#seed 0\n#inputs {head}\n#outputs\n{steps}#end limit 8\n")
        self.assertEqual(len(found.pairs), 28)
        self.assertIn("  and 8 more pairs; --json has all of them\n", reached.text_of(found))

    def test_as_json(self):
        found = json.loads(reached.json_of(counted(FIRST, SECOND)))
        self.assertEqual((found["runs"], found["steps"], found["longest"]), (2, 4, 3))
        self.assertEqual(found["ends"]["oracle"], {"runs": 1, "least": 3, "greatest": 3})
        level, up, _, slow, gust = found["variables"]
        self.assertEqual((level["least"], level["greatest"], level["distinct"]), (3, 7, 3))
        self.assertEqual((up["true"], up["steps"], up["longest_true"]), (2, 4, 2))
        self.assertEqual((slow["greatest"], slow["role"]), (20.0, "from the controller"))
        self.assertEqual((gust["steps"], gust["parts"]), (1, [1]))
        self.assertEqual(found["never_together"], [{"up": True, "down": True}])

    def test_as_a_picture(self):
        found = counted(FIRST, SECOND)
        root = ElementTree.fromstring(reached_picture.picture_of(found, reached.NOTE))
        boxes = [it.get("class") for it in root.iter() if it.tag.endswith("}rect")]
        # Of the numbers the parts, and of each of the Booleans the whole and the part that is true.
        self.assertEqual((boxes.count("part"), boxes.count("whole")), (5 + 10 + 1 + 2, 2))
        told = [it.text for it in root.iter() if it.tag.endswith("}text")]
        for line in ("level", "gust.1", "never together: up t and down t", reached.NOTE):
            self.assertIn(line, told)


class Calls(unittest.TestCase):
    def setUp(self):
        room = tempfile.TemporaryDirectory(prefix="lurette-")
        self.addCleanup(room.cleanup)
        self.room = room.name

    def kept(self, name, text):
        path = os.path.join(self.room, name)
        with open(path, "w", encoding="utf-8") as file:
            file.write(text)
        return path

    def call(self, *words):
        """The status of a call, what it wrote, and its lines."""
        output, errors = io.TextIOWrapper(io.BytesIO(), encoding="ascii"), io.StringIO()
        with contextlib.redirect_stdout(output), contextlib.redirect_stderr(errors):
            status = reached.main(list(words))
        output.flush()
        return status, output.buffer.getvalue().decode(), errors.getvalue().splitlines()

    def test_files_are_read_one_after_another(self):
        paths = [self.kept(str(at), it) for at, it in enumerate((FIRST, SECOND, EMPTY))]
        self.assertEqual(self.call(*paths), (0, TEXT, []))
        picture = os.path.join(self.room, "picture")
        status, output, _ = self.call("--svg", picture, "--json", *paths)
        self.assertEqual((status, json.loads(output)["runs"]), (0, 3))
        self.assertTrue(os.path.getsize(picture))

    def test_parts_of_a_campaign_are_runs(self):
        half = len(FIRST) // 2
        text = framed((0, FIRST[:half]), (1, SECOND), (0, FIRST[half:]), (2, EMPTY))
        self.assertEqual(self.call(self.kept("all", text))[:2], (0, TEXT))
        status, _, said = self.call(self.kept("all", text.replace("#campaign", "#from")))
        self.assertEqual((status, len(said)), (2, 1))

    def test_what_is_no_trace_is_left_out(self):
        good, bad = self.kept("good", FIRST), self.kept("bad", FIRST.replace("#step 3", "#step 4"))
        other = self.kept("other", FIRST.replace("level", "height"))
        status, output, said = self.call(good, bad, other, f"{self.room}/none")
        self.assertEqual((status, output.splitlines()[0][:5]), (2, "1 run"))
        self.assertEqual(said[0], f"reached: {bad} is left out: line 9: #step 3 is expected here")
        self.assertIn("other variables", said[1])
        self.assertEqual(len(said), 3)
        self.assertEqual(self.call(bad)[:2], (2, ""))


if __name__ == "__main__":
    unittest.main()
