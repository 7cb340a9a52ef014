"""That an end is judged as the documents have it, and where a number is written into a program."""

import unittest

import fail_alloc
import memory_calls
from fail_alloc import ANSWERS, BUT_ONE, MARK, NoProgram, Outcome

USUAL = Outcome(0, b"#seed 0\n", b"", (b"1\n", b""))
MEMORY = Outcome(11, b"", b"lurette: memory\n", (b"", b""))
REFUSED = Outcome(3, b"", b"lurette: refused type.NoNode\n", (b"", b""))


def program(*places):
    """A program in which the mark stands at these places, with what answers behind it."""
    content = bytearray(400)
    for place in places:
        content[place : place + 16] = MARK + b"\x48\x39\xc8\x75\x0c" + ANSWERS + b"\xba"
    return bytes(content)


class Ends(unittest.TestCase):
    def test_ends_that_are_right(self):
        self.assertIsNone(fail_alloc.fault_of(USUAL, USUAL))
        self.assertIsNone(fail_alloc.fault_of(REFUSED, REFUSED))
        self.assertIsNone(fail_alloc.fault_of(MEMORY, USUAL))
        self.assertIsNone(fail_alloc.fault_of(MEMORY, REFUSED))

    def test_ends_that_are_wrong(self):
        for found in (
            MEMORY._replace(output=b"#"),
            MEMORY._replace(errors=b""),
            MEMORY._replace(errors=b"lurette: refused type.NoNode\n"),
            MEMORY._replace(sent=(b"1\n", b"")),
            USUAL._replace(status=None),
            USUAL._replace(status=-6),
            USUAL._replace(status=9),
            USUAL._replace(output=b"#seed 1\n"),
            USUAL._replace(errors=b"lurette: memory\n"),
            USUAL._replace(sent=(b"", b"")),
            REFUSED,
        ):
            self.assertIsNotNone(fail_alloc.fault_of(found, USUAL), found)

    def test_numbers_in_short(self):
        for numbers, text in (([], ""), ([4], "4"), ([1, 2, 3, 7], "1-3 7"), ([1, 3, 4], "1 3-4")):
            self.assertEqual(fail_alloc.spans(numbers), text)


class Numbers(unittest.TestCase):
    def test_the_last_number_is_found(self):
        for last in range(70):
            self.assertEqual(fail_alloc.last_that(lambda it: it <= last), last)

    def test_a_number_stands_twice_in_a_program(self):
        content = program(20, 300)
        self.assertEqual(fail_alloc.marks_of(content), [20, 300])
        self.assertEqual(fail_alloc.answers_of(content, [20, 300]), [33, 313])
        for places in ((), (20,), (20, 100, 300)):
            with self.assertRaises(NoProgram):
                fail_alloc.marks_of(program(*places))

    def test_a_program_that_answers_in_another_way_is_refused(self):
        for part in (ANSWERS, BUT_ONE):
            content = program(20, 300).replace(part, bytes(len(part)), 1)
            with self.assertRaises(NoProgram):
                fail_alloc.answers_of(content, fail_alloc.marks_of(content))


class Calls(unittest.TestCase):
    def test_each_name_is_that_of_one_call(self):
        names = [it.name for it in memory_calls.CALLS]
        self.assertEqual(len(names), len(set(names)))

    def test_each_status_is_that_of_some_call(self):
        statuses = {it.status for it in memory_calls.CALLS}
        self.assertEqual(statuses, {*range(11), 12, 14})


if __name__ == "__main__":
    unittest.main()
