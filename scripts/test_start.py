"""That the scripts at the top build a program once and run it, and tell how far a proof is."""

import io
import os
import shlex
import shutil
import signal
import subprocess
import tempfile
import time
import unittest

import call_words
import calls
import check_docs
import prove

TOP = os.path.dirname(os.path.dirname(os.path.abspath(__file__)))


class Words(unittest.TestCase):
    def roles(self, line):
        return [(it.role, it.text) for it in call_words.parts_of(shlex.split(line))]

    def test_files_and_commands_are_found_in_any_order(self):
        wanted = [("-l", "5"), ("mode", "run"), ("--sut", "a b"), ("file", "f"), ("--replay", "t")]
        self.assertEqual(self.roles("-l5 run --sut 'a b' --locals f --replay=t"), wanted)
        wanted = [("mode", "run"), ("--draw", "2"), ("file", "f")]
        self.assertEqual(self.roles("run --draw 2 f"), wanted)

    def test_what_stands_behind_two_dashes_is_plain(self):
        self.assertEqual(self.roles("run -- -f"), [("mode", "run"), ("file", "-f")])
        self.assertEqual(self.roles("run -"), [("mode", "run"), ("file", "-")])

    def test_a_missing_word_is_none(self):
        self.assertEqual(self.roles("run f --sut"), [("mode", "run"), ("file", "f")])

    def test_texts_are_changed_where_they_stand(self):
        words = ["--seed=3", "run", "f", "--replay=g=h", "-l", "4"]
        marked = call_words.with_texts(words, lambda part: f"<{part.text}>")
        self.assertEqual(marked, ["--seed=<3>", "<run>", "<f>", "--replay=<g=h>", "-l", "<4>"])


# What stands for the kit's command: it builds a script in place of a program, keeps where it was
# called, and runs the script at once, as `rt try` does. Where a file `refuses` is there it fails.
RT = r"""#!/bin/sh
echo "$1" >>"$LURETTE_TEST/calls"
[ ! -e "$LURETTE_TEST/refuses" ] || { echo 'the text has an error' >&2; exit 1; }
case $1 in
    version) echo 'kit-0 logic 0' ;;
    try)
        while [ "$1" != -- ]; do shift; done
        shift
        mkdir "$TMPDIR/rt-try"
        printf '#!/bin/sh\n%s\n' "$(cat src/main.rt)" >"$TMPDIR/rt-try/program"
        chmod +x "$TMPDIR/rt-try/program"
        LURETTE_WAITS=5 "$TMPDIR/rt-try/program" "$@"
        rm -r "$TMPDIR/rt-try"
        ;;
    ci)
        for name in lurette lt_plant; do
            [ -d "crates/$name" ] || continue
            mkdir "crates/$name/out"
            printf '#!/bin/sh\necho proved "$@"\n' >"crates/$name/out/$name"
            echo "rt: $name proved"
        done
        ;;
esac
"""

# The text of a program: it waits while it is built, and else it says with which words it runs.
SOURCE = 'if [ -n "${LURETTE_WAITS-}" ]; then sleep "$LURETTE_WAITS"; fi; echo unproved "$@"'


def write(path, text):
    os.makedirs(os.path.dirname(path), exist_ok=True)
    with open(path, "w", encoding="utf-8") as file:
        file.write(text)
    os.chmod(path, 0o755)


class Repository(unittest.TestCase):
    """A small repository, whose programs are scripts, with what stands for the kit's command."""

    def setUp(self):
        room = tempfile.TemporaryDirectory(prefix="lurette-")
        self.addCleanup(room.cleanup)
        self.room, self.top = room.name, os.path.join(room.name, "top")
        for name in ("lurette", "lt_plant", "scripts", "VERSION"):
            path = os.path.join(TOP, name)
            copy = shutil.copytree if os.path.isdir(path) else shutil.copy
            os.makedirs(self.top, exist_ok=True)
            copy(path, os.path.join(self.top, name))
        for name in ("lurette", "lt_plant"):
            write(f"{self.top}/crates/{name}/src/main.rt", SOURCE)
        write(f"{self.top}/crates.txt", "lurette:\nlt_plant:\n")
        write(f"{self.room}/bin/rt", RT)
        self.path = f"{self.room}/bin:{os.environ['PATH']}"

    def start(self, *words, name="lurette", **changed):
        """A call of a script that has begun."""
        how = {it: subprocess.PIPE for it in ("stdout", "stderr")}
        env = {"PATH": self.path, "LURETTE_TEST": self.room, **changed}
        call = [os.path.join(self.top, name), *words]
        how.update(stdin=subprocess.DEVNULL, text=True, start_new_session=True)
        return subprocess.Popen(call, env=env, **how)

    def call(self, *words, **how):
        """The status of a call, what it wrote, and the lines that it said."""
        run = self.start(*words, **how)
        output, errors = run.communicate()
        return run.returncode, output, errors.splitlines()

    def calls_of_rt(self):
        path = f"{self.room}/calls"
        return check_docs.read(path).split() if os.path.exists(path) else []


class Starting(Repository):
    def test_the_first_call_builds_and_the_second_runs_at_once(self):
        status, output, said = self.call("run", "f")
        self.assertEqual((status, output, len(said)), (0, "unproved run f\n", 2))
        self.assertIn("without a proof, once", said[0])
        self.assertRegex(said[1], r"^lurette: not proved: \./lurette --prove proves it, in .+hour")
        status, output, again = self.call("--unproved", "print", "g")
        self.assertEqual((status, output, again), (0, "unproved print g\n", said[1:]))
        self.assertEqual(self.calls_of_rt(), ["try"])
        self.assertEqual(self.call("gate", name="lt_plant")[:2], (0, "unproved gate\n"))
        found = self.call("--explain", "gate", name="lt_plant")
        self.assertEqual(found[:2], (0, "unproved gate\n"))

    def test_it_needs_no_kit_once_it_is_there(self):
        self.assertEqual(self.call("run", "f")[0], 0)
        os.remove(f"{self.room}/bin/rt")
        self.path = "/usr/bin:/bin"
        self.assertEqual(self.call("run", "g")[:2], (0, "unproved run g\n"))

    def test_once_it_is_proved_nothing_is_said(self):
        self.assertEqual(self.call("--is-proved")[0], 1)
        self.assertEqual(self.call("--prove")[:2], (0, ""))
        self.assertEqual(self.call("--is-proved")[0], 0)
        self.assertEqual(self.call("run", "f"), (0, "proved run f\n", []))
        self.assertEqual(self.call("--prove", "run", "f"), (0, "proved run f\n", []))
        self.assertEqual(self.call("--unproved", "run", "f")[:2], (0, "unproved run f\n"))
        self.assertEqual(self.calls_of_rt(), ["ci", "try"])

    def test_a_stale_program_is_not_run(self):
        self.call("run", "f")
        self.call("--prove")
        write(f"{self.top}/crates/lurette/src/main.rt", SOURCE.replace("unproved", "changed"))
        self.assertEqual(self.call("--is-proved")[0], 1)
        self.assertEqual(self.call("run", "f")[:2], (0, "changed run f\n"))
        write(f"{self.top}/out/lurette", "#!/bin/sh\necho made by hand\n")
        self.assertEqual(self.call("run", "f")[:2], (0, "changed run f\n"))

    def test_two_calls_at_once_build_once(self):
        runs = [self.start("run", str(it)) for it in range(4)]
        outputs = [run.communicate()[0] for run in runs]
        self.assertEqual(outputs, [f"unproved run {it}\n" for it in range(4)])
        self.assertEqual(self.calls_of_rt(), ["try"])

    def test_a_build_that_fails_leaves_nothing(self):
        write(f"{self.room}/refuses", "")
        for words in (["run", "f"], ["--prove"]):
            status, output, said = self.call(*words)
            self.assertEqual((status, output), (125, ""))
            self.assertIn("the text has an error", said)
        left = [it for it in os.listdir(f"{self.top}/out") if not it.endswith(".lock")]
        self.assertEqual(left, [])
        os.remove(f"{self.room}/refuses")
        self.assertEqual(self.call("run", "f")[:2], (0, "unproved run f\n"))

    def test_a_build_that_is_interrupted_leaves_nothing(self):
        run = self.start("run", "f")
        while not self.calls_of_rt():
            time.sleep(0.02)
        os.killpg(run.pid, signal.SIGTERM)
        run.communicate()
        self.assertNotEqual(run.returncode, 0)
        self.assertEqual(self.call("run", "f")[:2], (0, "unproved run f\n"))
        self.assertEqual(self.calls_of_rt(), ["try", "try"])
        left = [it for it in os.listdir(f"{self.top}/out") if not it.endswith(".lock")]
        self.assertEqual(sorted(left), ["lurette", "lurette.unproved"])

    def test_what_is_there_takes_little_of_the_processor(self):
        """So that on an idle machine help comes in 0.2 seconds, and a later call in one."""
        before = calls.seconds_so_far()
        self.call("--help", PATH="/usr/bin:/bin")
        self.assertLess(calls.seconds_so_far() - before, 0.2)
        # What stands before each run of a program: the sum of the whole text, twice at most.
        script = 'top=$1 name=lurette takes=; . "$1/scripts/start.sh"; text_sum; text_sum'
        before = calls.seconds_so_far()
        sums = subprocess.run(["sh", "-c", script, "sh", TOP], stdout=subprocess.PIPE, check=True)
        self.assertLess(calls.seconds_so_far() - before, 0.5)
        first, second = sums.stdout.split(b"\n")[:2]
        self.assertEqual((first, len(first.split())), (second, 2))

    @unittest.skipUnless(shutil.which("git"), "there is no git")
    def test_the_version_names_the_commit(self):
        git = ["git", "-C", self.top, "-c", "user.name=t", "-c", "user.email=t"]
        for words in (["init", "-q"], ["add", "."], ["commit", "-q", "-m", "all"]):
            subprocess.run([*git, *words], check=True)
        rest = r"\), not proved; kit-0 logic 0\n$"
        self.assertRegex(self.call("--version")[1], rf"^lurette [0-9.]+ \([0-9a-f]+{rest}")
        write(f"{self.top}/VERSION", "0.0.1\n")
        self.assertRegex(self.call("--version")[1], rf"^lurette 0.0.1 \([0-9a-f]+-dirty{rest}")

    def test_help_and_version_need_no_program(self):
        text = check_docs.read("scripts/lurette.help")
        for words in (["--help"], ["-h"]):
            self.assertEqual(self.call(*words, PATH="/usr/bin:/bin"), (0, text, []))
        self.assertEqual(self.call(PATH="/usr/bin:/bin"), (2, "", text.splitlines()))
        version = check_docs.read("VERSION").strip()
        _, output, _ = self.call("--version")
        self.assertEqual(output, f"lurette {version}, not proved; kit-0 logic 0\n")
        self.assertEqual(self.call("--help", name="lt_plant")[0], 0)
        self.assertEqual(self.calls_of_rt(), ["version"])

    def test_scripts_over_traces_are_called(self):
        trace = "#seed 0\n#inputs\n#outputs\n#end limit 0\n"
        write(f"{self.room}/trace", trace)
        asked = [[it, "--help"] for it in ("shorten", "reached", "parts")]
        for words in (*asked, ["shorten"], ["parts"]):
            status, _, said = self.call(*words, PATH="/usr/bin:/bin")
            self.assertEqual(status, 0 if "--help" in words else 2, said)
        status, output, said = self.call("reached", f"{self.room}/trace", PATH="/usr/bin:/bin")
        self.assertEqual((status, output[:16], said), (0, "1 run with 0 ste", []))
        write(f"{self.room}/campaign", f"#from 0 {len(trace)}\n{trace}#campaign 1 ended 1\n")
        words = ["parts", f"{self.room}/campaign", "--session", "0"]
        self.assertEqual(self.call(*words, PATH="/usr/bin:/bin"), (0, trace, []))
        self.assertEqual(self.calls_of_rt(), [])
        words = ["shorten", f"{self.room}/trace", "f", "--sut", "c"]
        status, _, said = self.call(*words)
        self.assertEqual((status, self.calls_of_rt()), (2, ["try"]))
        self.assertIn("the run didn't fail: its end is limit 0", said[-1])


class Proving(unittest.TestCase):
    CRATES = "# low\na:\nb: a std # a comment\n\nc: b a\nd: a\n"

    def test_crates_are_listed_lowest_first(self):
        crates = prove.listed(self.CRATES)
        self.assertEqual(crates, {"a": [], "b": ["a", "std"], "c": ["b", "a"], "d": ["a"]})
        self.assertEqual(prove.with_those_below("c", crates), ["a", "b", "c"])

    def test_a_copy_has_the_crates_and_their_lines(self):
        with tempfile.TemporaryDirectory() as room:
            top, to = os.path.join(room, "top"), os.path.join(room, "to")
            for path in ("a/src/lib.rt", "a/out/a", "a/must-fail/x.edit", "d/src/lib.rt"):
                os.makedirs(os.path.dirname(f"{top}/crates/{path}"), exist_ok=True)
                with open(f"{top}/crates/{path}", "w", encoding="utf-8") as file:
                    file.write(path)
            with open(f"{top}/crates.txt", "w", encoding="utf-8") as file:
                file.write(self.CRATES)
            os.mkdir(to)
            prove.copy_crates(["a"], top, to)
            self.assertEqual(os.listdir(f"{to}/crates"), ["a"])
            self.assertEqual(os.listdir(f"{to}/crates/a"), ["src"])
            with open(f"{to}/crates.txt", encoding="utf-8") as file:
                self.assertEqual(file.read(), "a:\n")

    def test_progress_is_told_by_the_text_that_is_proved(self):
        time = iter([0, 120, 120, 600, 600, 600])
        out = io.StringIO()
        progress = prove.Progress("p", {"a": 100, "b": 300, "c": 100}, lambda: next(time), out)
        self.assertFalse(progress.take("rt: e proved\n"))
        self.assertTrue(progress.take("rt: a proved\n"))
        self.assertEqual(progress.line(), "1 of 3 crates proved, 2 min gone, about 8 min left")
        progress.take("rt: b is kept: an earlier run on this machine proved the same files\n")
        progress.take("rt: c NOT PROVED\n")
        self.assertEqual(progress.done, {"a", "b"})
        progress.tell(True)
        self.assertEqual(
            out.getvalue(), "p: 2 of 3 crates proved, 10 min gone, about 10 min left\n"
        )


    def test_lines_are_waited_for_a_while(self):
        reading, writing = os.pipe()
        with os.fdopen(reading) as stream, os.fdopen(writing, "w") as other:
            lines = prove.lines_or_none(stream, 0.01)
            self.assertIsNone(next(lines))
            other.write("one\n")
            other.close()
            self.assertEqual([it for it in lines if it], ["one\n"])


def texts_of(folder, ending):
    """The texts of the files of a folder whose names end so."""
    names = sorted(os.listdir(os.path.join(TOP, folder)))
    return [check_docs.read(f"{folder}/{it}") for it in names if it.endswith(ending)]


def code(text):
    """The lines of a scenario's text, without comments and empty lines."""
    return [it for it in text.splitlines() if it and not it.startswith("--")]


def code_blocks(file):
    """The blocks of a document without commands, each as the lines of a scenario's text."""
    inside, _ = check_docs.blocks(check_docs.read(file))
    texts = ["\n".join(line for _, line in block) for _, block in inside]
    return [code(it) for it in texts if "$ " not in it]


class Documents(unittest.TestCase):
    def test_commands_of_a_block(self):
        text = "a\n```\n$ one \\\n  two\nx\n$ three\n```\n`./lurette run f` `./lurette run FILE`\n"
        found = check_docs.commands_of_document("d", text)
        told = [(it.line, it.command, it.wanted) for it in found]
        self.assertEqual(
            told, [(3, "one two", ["x"]), (6, "three", []), (8, "./lurette run f", None)]
        )

    def test_blocks_are_files_and_commands_last(self):
        text = "```c a.c\nint x;\n```\n```\n$ cd ~/m\n$ one\n```\n`./lurette run f`\n"
        found = check_docs.commands_of_document("d", text)
        told = [(it.command, it.before) for it in found]
        writes = "mkdir -p $(dirname a.c); printf %s 'int x;\n' >a.c"
        wanted = [(writes, ""), ("cd ~/m", ""), ("one", "cd ~/m; "), ("./lurette run f", "")]
        self.assertEqual(told, wanted)

    def test_commands_that_lack_a_tool(self):
        known, check_docs.TOOLS = check_docs.TOOLS, ("no-such-tool",)
        try:
            text = "```\n$ one\n$ one | no-such-tool x\n$ two\n```\n```\n$ no-such-tools\n```\n"
            found = check_docs.commands_of_document("d", text)
        finally:
            check_docs.TOOLS = known
        tool = "no-such-tool"
        self.assertEqual([it.lacks for it in found], [None, tool, tool, None])

    def test_rows_of_tables(self):
        rows = [
            "| `node n() returns (b: bool) = { b \\| b }`, with `-l 3` | t, f | limit |",
            "| `node n() returns (b: bool) = b` | | deadlock in instant 1 |",
            "| `node n() returns (b: bool) = c` | `Unknown` at 29 |",
            "| `a or b` | a, b | c |",
        ]
        found = check_docs.commands_of_document("d", "\n".join(rows))
        wanted = [["t f limit 2"], ["deadlock 1"], ["Unknown at 29"]]
        self.assertEqual([it.wanted for it in found], wanted)
        self.assertIn("'node n() returns (b: bool) = { b | b }'", found[0].command)
        self.assertIn(" -l 3 ", found[0].command)

    def test_commands_of_an_example(self):
        text = "-- Words.\n-- $ one\n-- x\n\n-- $ two\nnode\n"
        found = check_docs.commands_of_example("e", text)
        self.assertEqual([(it.command, it.wanted) for it in found], [("one", ["x"]), ("two", [])])

    def test_scenarios_of_documents_are_those_of_examples(self):
        shown = {}
        for block in (it for file in check_docs.DOCUMENTS for it in code_blocks(file)):
            head = next((it for it in block if it.startswith("node ")), None)
            shown.setdefault(head, []).append("\n".join(block))
        count = 0
        for example in texts_of("examples", ".lut"):
            head = next(it for it in code(example) if it.startswith("node "))
            text, count = "\n".join(code(example)), count + (head in shown)
            # One may be shown twice, as it is and expanded.
            self.assertTrue(head not in shown or any(it in text for it in shown[head]), head)
        self.assertGreaterEqual(count, 6)

    def test_two_points_stand_for_any_lines(self):
        self.assertTrue(check_docs.fits(["a", "b", "c"], ["a", "..", "c"]))
        self.assertTrue(check_docs.fits(["a", "c"], ["a", "..", "c"]))
        self.assertFalse(check_docs.fits(["a", "b"], ["a", "..", "c"]))
        self.assertFalse(check_docs.fits(["a", "b"], ["a"]))


if __name__ == "__main__":
    unittest.main()
