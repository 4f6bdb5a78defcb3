#!/usr/bin/env python3
"""How the minutes of a processor are counted: over processes of a shell that have rattle's name and words, over made-up tables of processes, and what
is told of them."""
import contextlib
import io
import os
import subprocess
import sys
import tempfile
import time
import unittest
from unittest import mock

sys.dont_write_bytecode = True
import minutes
from minutes import ALL, MINUTE, Process, look, processes, read, rows_of, told, write

# (a shell of the name rattle takes its first word, check or build, for the file to run)
BUSY = "exec < ../held\nat=0\nwhile [ $at -lt 60000 ]; do at=$((at + 1)); done\necho done\nread it\n"
GATE = """\
cd low
../rattle build --crate-name low src/lib.rt --statements &
../rattle build --crate-name low src/lib.rt --test --backend llvm &
../rattle check --crate-name low_tests src/lib.rt &
../rattle build --crate-name low src/lib.rt --crate-checked it --backend llvm &
../rattle build --crate-name low src/lib.rt --crate-checked it --backend rattle &
../rattle check --crates low &
cd ../rt-edit-a
../rattle check --crate-name low src/lib.rt &
sh ../wrong_bodies.py
"""
WRONG = "cd ../rt-edit-b\n../rattle check --crate-name low src/lib.rt --only one\necho it ended\n"


class Kinds(unittest.TestCase):
    def test_each_kind_is_told_by_words_and_folder(self):
        with tempfile.TemporaryDirectory(prefix="minutes-") as room:
            os.symlink("/bin/sh", f"{room}/rattle")
            os.mkfifo(f"{room}/held")
            for folder in ("low", "rt-edit-a", "rt-edit-b"):
                os.mkdir(f"{room}/{folder}")
                for name in ("check", "build"):
                    write_text(f"{room}/{folder}/{name}", BUSY)
            write_text(f"{room}/gate", GATE)
            write_text(f"{room}/wrong_bodies.py", WRONG)
            # (they end once this is closed, however the test ends)
            held, works, most = os.open(f"{room}/held", os.O_RDWR), {}, {}
            how = {"stdin": subprocess.DEVNULL, "stdout": subprocess.PIPE, "text": True}
            gate = subprocess.Popen(["sh", "gate"], cwd=room, **how)
            # (it is not below the gate, as one of another clone)
            other = subprocess.Popen([f"{room}/rattle", "check", "--crate-name", "other"], cwd=f"{room}/low", **how)
            try:
                said = [next(it) for it in [gate.stdout] * 8 + [other.stdout]]
                look(processes(), gate.pid, works, most)
            finally:
                os.close(held)
                ends = [it.communicate()[0] for it in (gate, other)]
        self.assertEqual([said, ends], [["done\n"] * 9, ["it ended\n", ""]])
        found = [("low", it) for it in ("builds", "builds", "must-fail", "proof", "tests", "wrong-bodies")]
        self.assertEqual(sorted(works.values()), [*found, ("low_tests", "proof")])
        ticks = [most[it] for it in works]
        self.assertGreater(min(ticks), 0)
        self.assertGreater(most[ALL], sum(ticks))


class Looks(unittest.TestCase):
    def setUp(self):
        # (no process has such numbers)
        self.root, self.rt, self.rattle, self.helper = (10**9 + it for it in range(4))
        self.works, self.most = {(self.rattle, "20"): ("low", "proof")}, {}

    def look(self, *processes):
        look({number: Process(*its) for number, *its in processes}, self.root, self.works, self.most)
        return self.most[self.rattle, "20"], self.most[ALL]

    def test_what_is_below_a_process_is_counted_once(self):
        above = (self.root, 1, "10", 1), (self.rt, self.root, "11", 10), (1, 0, "1", 5000)
        self.works[self.helper, "21"] = "low", "proof"
        self.assertEqual(self.look(*above, (self.rattle, self.rt, "20", 100), (self.helper, self.rattle, "21", 1000)), (1100, 1111))
        # the helper has ended, and rattle has its ticks
        self.assertEqual(self.look(*above, (self.rattle, self.rt, "20", 1150)), (1150, 1161))

    def test_what_ended_stays_and_a_number_may_be_another_process(self):
        above = (self.root, 1, "10", 1), (self.rt, self.root, "11", 10)
        self.assertEqual(self.look(*above, (self.rattle, self.rt, "20", 100)), (100, 111))
        self.assertEqual(self.look((self.root, 1, "10", 1), (self.rt, self.root, "11", 115)), (100, 116))
        self.assertEqual(self.look((self.root, 1, "10", 1), (self.rt, self.root, "11", 115), (self.rattle, self.rt, "30", 700)), (100, 816))

    def test_minutes_are_sums_by_crate_and_kind(self):
        works = {1: ("low", "proof"), 2: ("low", "proof"), 3: ("low", "wrong-bodies"), 4: ("high", "builds")}
        most = {ALL: 9 * MINUTE, 1: MINUTE, 2: 2 * MINUTE, 3: 4 * MINUTE, 4: MINUTE / 2}
        self.assertEqual(rows_of(works, most), {ALL: [9], "low": [3, 0, 0, 0, 4], "high": [0, 0, 0.5, 0, 0]})


class Told(unittest.TestCase):
    def test_what_grew_by_two_minutes_is_named(self):
        before = {ALL: [30.0], "a": [1.0, 2.1, 0, 0, 3], "b": [1.0, 0, 0, 0, 0], "c": [9.0, 0, 0, 0, 0], "gone": [5.0, 0, 0, 0, 0]}
        seen = {ALL: [32.5], "a": [2.0, 3.1, 0, 0, 0], "b": [2.9, 0, 0, 0, 8.0], "c": [1.0, 0, 0, 0, 0], "new": [0, 2.5, 0.5, 0, 0]}
        lines = told(seen, before)
        self.assertEqual([it.split() for it in lines[1:6]], [["a", "2.0", "3.1", "5.1", "3.1"], ["b", "2.9", "2.9", "1.0", "8.0"], ["c", "1.0", "1.0", "9.0"],
            ["new", "2.5", "0.5", "3.0"], ["all", "crates", "5.9", "5.6", "0.5", "12.0", "13.1", "8.0"]])
        self.assertEqual(lines[6:], ["the whole gate: 32.5, and 30.0 before", "a grew by 2.0, to 5.1", "new grew by 3.0, to 3.0"])
        self.assertEqual(told(before, before)[-1], "no crate grew by two minutes or more")
        self.assertIn("no gate has written", told(seen, {})[-1])
        self.assertIn("the whole gate: 0.1", told({ALL: [0.1]}, {}))

    def test_it_is_kept_where_the_gate_passed(self):
        with tempfile.TemporaryDirectory(prefix="minutes-") as room, mock.patch("minutes.KEPT", f"{room}/kept"):
            rows = {ALL: [7.0], "low": [1.0, 2.0, 0.0, 0.5, 3.2]}
            tell = lambda status: self.printed(lambda: minutes.tell(f"{room}/seen", status))
            write(f"{room}/seen", "", rows)
            write(minutes.KEPT, minutes.HEAD, {})
            tell("1")
            self.assertEqual(read(minutes.KEPT), {})
            self.assertIn("no gate has written", tell("0"))
            self.assertEqual(read(minutes.KEPT), rows)
            write(f"{room}/seen", "", {ALL: [9.0], "low": [4.0, 2.0, 0.0, 0.5, 0.0]})
            os.utime(f"{room}/seen", times=(time.time() - 600,) * 2)
            said = tell("0")
            self.assertIn("low grew by 3.0, to 6.5\nthey were counted to 10 minutes ago, and are not kept\n", said)
            self.assertNotRegex(said, r"\d+ passed, \d+ failed")
            self.assertEqual(read(minutes.KEPT), rows)

    def printed(self, call):
        with contextlib.redirect_stdout(io.StringIO()) as said:
            call()
        return said.getvalue()

    def test_it_ends_with_what_started_it(self):
        with tempfile.TemporaryDirectory(prefix="minutes-") as room:
            words = f"'{minutes.__file__}' watch $$ {room}/seen & while [ ! -e {room}/seen ]; do sleep 0.05; done"
            # (this waits till all who may write have ended)
            ran = subprocess.run(["sh", "-c", words], capture_output=True, text=True, timeout=60)
            self.assertEqual([ran.returncode, ran.stdout + ran.stderr, [*read(f"{room}/seen")]], [0, "", [ALL]])


def write_text(file, text):
    with open(file, "w", encoding="utf-8") as it:
        it.write(text)


if __name__ == "__main__":
    unittest.main()
