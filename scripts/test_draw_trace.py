"""That traces are drawn and turned into waves."""

import re
import unittest
from xml.etree import ElementTree

import draw_trace
import traces

TRACE = """#seed 7
#inputs "temp":real "door":bool
#outputs "heat":bool
#locals "gust.1":int
#step 1
18.00 t #outs f #locs ?
#step 2
17.50 f #outs t #locs -3
#end oracle 2
"""


def read(text):
    return traces.with_values(traces.trace_of(text))


def parts_of(picture, sort):
    root = ElementTree.fromstring(picture)
    return [it.attrib for it in root.iter() if it.tag.endswith("}path") and it.get("class") == sort]


class Pictures(unittest.TestCase):
    def test_each_variable_has_a_lane_in_the_colour_of_its_role(self):
        lines = parts_of(draw_trace.picture_of(read(TRACE)), "line")
        colours = [draw_trace.COLOURS[it] for it in ("#inputs", "#inputs", "#outputs", "#locals")]
        self.assertEqual([it["stroke"] for it in lines], colours)

    def test_a_line_goes_up_and_down_with_the_values(self):
        path = draw_trace.path_of([0, 1, None, 1], 0, 1, 100, 10)
        self.assertEqual(path, "M150 144.0H160L160 100.0H170M180 100.0H190")

    def test_a_bad_last_step_is_marked(self):
        self.assertIn('class="bad"', draw_trace.picture_of(read(TRACE)))
        good = read(TRACE.replace("oracle", "limit"))
        self.assertNotIn('class="bad"', draw_trace.picture_of(good))
        stuck = read(TRACE.replace("oracle 2", "deadlock 3"))
        self.assertEqual(len(parts_of(draw_trace.picture_of(stuck), "stop")), 1)

    def test_a_trace_without_locals_may_have_their_marks(self):
        head = '#seed 0\n#inputs "b":bool\n#outputs\n#locals\n'
        text = f"{head}#step 1\nt #outs #locs\n#end limit 1\n"
        self.assertEqual(len(parts_of(draw_trace.picture_of(read(text)), "line")), 1)

    def test_the_end_and_the_range_are_written(self):
        picture = draw_trace.picture_of(read(TRACE))
        words = re.findall(r">([^<]+)</text>", picture)
        for told in ("seed 7, end: oracle 2", "17.5", "18", "gust.1", "from the controller"):
            self.assertIn(told, words)


class Waves(unittest.TestCase):
    def test_values_are_told_where_they_change(self):
        lines = draw_trace.waves_of(read(TRACE)).splitlines()
        self.assertIn("$var real 64 ! temp $end", lines)
        self.assertIn('$var wire 1 " door $end', lines)
        self.assertIn("$var real 64 $ gust_1 $end", lines)
        at = lines.index("#1")
        self.assertEqual(lines[at:], ["#1", "r18 !", '1"', "0#", "rnan $"] + [
            "#2", "r17.5 !", '0"', "1#", "r-3 $", "#3",
        ])

    def test_signs_are_apart(self):
        signs = [draw_trace.sign_of(at) for at in range(300)]
        self.assertEqual(len(set(signs)), 300)
        self.assertTrue(all(it.isprintable() and " " not in it for it in signs))


if __name__ == "__main__":
    unittest.main()
