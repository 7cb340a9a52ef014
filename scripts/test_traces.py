"""That traces are read and written again, and that other texts are refused."""

import unittest

import traces

TRACE = """#seed 7
#inputs "temp":real "door":bool
#outputs "heat":bool
#locals "gust.1":int
#step 1
18.00 t #outs f #locs ?
#step 2
17.50 f #outs t #locs -3
#end oracle 2
"""

# A scenario without locals whose trace was to have them.
NO_LOCALS = """#seed 0
#draw 3
#inputs "b":bool
#outputs
#locals
#step 1
t #outs #locs
#end malformed controller NotAValue 2
"""


class Reading(unittest.TestCase):
    def test_a_trace_is_read(self):
        trace = traces.with_values(traces.trace_of(TRACE))
        self.assertEqual((trace.seed, trace.rule), ("7", "1"))
        self.assertEqual([it.name for it in trace.variables], ["temp", "door", "heat", "gust.1"])
        self.assertEqual(trace.steps, [[18.0, True, False, None], [17.5, False, True, -3.0]])
        self.assertEqual(traces.why_and_number(trace.end), ("oracle", 2))

    def test_a_trace_may_name_the_rule_of_drawing(self):
        for rule in ("2", "3"):
            drawn = traces.trace_of(TRACE.replace("#seed 7\n", f"#seed 7\n#draw {rule}\n"))
            self.assertEqual(drawn, traces.trace_of(TRACE)._replace(rule=rule))

    def test_a_step_without_inputs_or_outputs(self):
        trace = traces.trace_of("#seed 0\n#inputs\n#outputs\n#step 1\n#outs\n#end normal 1\n")
        self.assertEqual((trace.variables, trace.steps), ([], [[]]))

    def refused(self, old, new):
        self.assertIn(old, TRACE)
        with self.assertRaises(traces.NoTrace) as found:
            traces.trace_of(TRACE.replace(old, new))
        return str(found.exception)

    def test_other_texts_are_refused_with_a_line(self):
        self.assertEqual(self.refused("#seed 7\n", ""), "line 1: #seed is expected here")
        wanted = "line 2: #inputs is expected here"
        self.assertEqual(self.refused("#seed 7\n", "#seed 7\n#draw 4\n"), wanted)
        self.assertEqual(self.refused('"door":bool', "door"), 'line 2: door is not "NAME":KIND')
        self.assertEqual(self.refused("#step 2", "#step 3"), "line 7: #step 2 is expected here")
        self.assertEqual(self.refused("18.00 t", "18.00 1"), "line 6: 1 is no value of door")
        self.assertEqual(self.refused("18.00 t", "18.00"), "line 6: a value of door is missing")
        self.assertEqual(self.refused("#outs t", "t"), "line 8: #outs is expected here")
        self.assertEqual(self.refused("#locs -3", "#locs -3 4"), "line 8: 4 is too much")
        self.assertEqual(self.refused("#outs f", "#outs ?"), "line 6: ? is no value of heat")
        self.assertEqual(self.refused("#end oracle 2\n", ""), "line 9: #end is expected here")
        self.assertIn("line 10", self.refused("oracle 2\n", "oracle 2\nmore\n"))

    def test_an_empty_text_is_refused(self):
        with self.assertRaises(traces.NoTrace):
            traces.trace_of("")


class Writing(unittest.TestCase):
    def test_a_trace_is_written_as_it_was_read(self):
        empty = "#seed 0\n#inputs\n#outputs\n#step 1\n#outs\n#end normal 1\n"
        for text in (TRACE, NO_LOCALS, empty):
            self.assertEqual(traces.text_of(traces.trace_of(text)), text)

    def test_raw_numbers_are_those_of_the_words(self):
        for kind, word, raw in (
            ("real", "-0.05", -5), ("real", "19.60", 1960), ("int", "-3", -3), ("bool", "t", 1),
            ("int", "?", None),
        ):
            self.assertEqual(traces.raw_of(kind, word), raw)
            self.assertEqual(traces.written(kind, raw), word)
        self.assertEqual(traces.written("real", -5, 0), "-5")


if __name__ == "__main__":
    unittest.main()
