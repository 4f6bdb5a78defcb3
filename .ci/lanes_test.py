#!/usr/bin/env python3
"""Which proof begins when, and on how many processors, over tasks that prove nothing."""
import sys
import threading
import unittest
import unittest.mock

sys.dont_write_bytecode = True
import lanes
from sources import rt

LARGE, SMALL = 100e9, 1e9


class Sharing(unittest.TestCase):
    def test_the_first_of_the_longest_chain_gets_a_second_processor(self):
        self.assertEqual(lanes.share(4, 4, 5, True, SMALL, LARGE), 2)
        self.assertEqual(lanes.share(4, 4, 5, False, SMALL, LARGE), 1)

    def test_it_does_not_wait_for_the_second_but_for_the_first(self):
        self.assertEqual(lanes.share(4, 1, 5, True, SMALL, LARGE), 2)
        self.assertEqual(lanes.share(4, 0, 5, True, SMALL, LARGE), 0)
        self.assertEqual(lanes.share(4, -1, 5, True, SMALL, LARGE), 0)

    def test_two_processors_are_not_given_to_one_proof_while_others_wait(self):
        self.assertEqual(lanes.share(2, 2, 1, True, SMALL, LARGE), 1)

    def test_idle_processors_are_shared_out(self):
        self.assertEqual(lanes.share(4, 4, 0, False, SMALL, LARGE), 4)
        self.assertEqual(lanes.share(4, 4, 1, False, SMALL, LARGE), 2)
        self.assertEqual(lanes.share(2, 2, 0, False, SMALL, LARGE), 2)

    def test_no_proof_gets_more_than_is_idle_or_is_of_use(self):
        self.assertEqual(lanes.share(4, 1, 0, False, SMALL, LARGE), 1)
        self.assertEqual(lanes.share(16, 16, 0, True, SMALL, LARGE), lanes.MOST)

    def test_no_proof_gets_a_processor_for_which_memory_lacks(self):
        self.assertEqual(lanes.share(4, 4, 0, True, 7e9, 7e9), 1)
        self.assertEqual(lanes.share(4, 4, 0, True, 7e9, 11.5e9), 2)


class Running(unittest.TestCase):
    def setUp(self):
        self.begun, self.lock, self.now, self.most = [], threading.Lock(), 0, 0

    def task(self, name, after, work, *kind, well=True):
        def call(given, jobs):
            with self.lock:
                self.begun.append((name, jobs, sorted(it[0] for it in given)))
                self.now += jobs
                self.most = max(self.most, self.now)
            with self.lock:
                self.now -= jobs
            return well

        return (name, *(kind or ["proof"])), ([(it, "proof") for it in after], work, SMALL, call)

    def run_tasks(self, number, *tasks):
        with unittest.mock.patch.object(lanes.minutes, "read", lambda file: {}):
            return lanes.in_lanes(number, dict(tasks))

    def test_a_task_begins_once_those_that_it_waits_for_have_ended(self):
        given = self.run_tasks(4, self.task("low", [], 1), self.task("mid", ["low"], 1), self.task("high", ["low", "mid"], 1, well=False))
        self.assertEqual([it[0] for it in self.begun], ["low", "mid", "high"])
        self.assertEqual(self.begun[2][2], ["low", "mid"])
        self.assertEqual(given, {("low", "proof"): True, ("mid", "proof"): True, ("high", "proof"): False})

    def test_the_longest_chain_comes_first(self):
        self.run_tasks(1, self.task("short", [], 5), self.task("low", [], 1), self.task("high", ["low"], 9))
        self.assertEqual([it[0] for it in self.begun], ["low", "high", "short"])

    def test_chains_are_as_long_as_the_minutes_of_their_crates(self):
        tasks = dict([self.task("short", [], 90), self.task("long", [], 10), self.task("new", [], 20), self.task("long", [], 0, "tests")])
        works = lanes.works_of(tasks, {"short": [1, 2, 0, 0, 9], "long": [5, 3, 4, 0, 9]})
        self.assertEqual(works, {("short", "proof"): 1, ("long", "proof"): 9, ("long", "tests"): 3, ("new", "proof"): 2.6})

    def test_an_edit_takes_one_processor(self):
        self.run_tasks(4, self.task("low", [], 1), self.task("low", ["low"], 1, "edits"))
        self.assertEqual(self.begun[1][1], 1)

    def test_several_edits_of_a_crate_are_tasks_of_their_own(self):
        parts = [("seed",), ("edits", 0), ("edits", 1), ("sound",), ("again", 0), ("again", 1)]
        tasks = [self.task("low", [], 8), *(self.task("low", ["low"], 8, *it) for it in parts)]
        self.run_tasks(4, *tasks)
        self.assertEqual(len(self.begun), 7)
        works = lanes.works_of(dict(tasks), {"low": [5, 0, 4, 3, 9]})
        self.assertEqual([*works.values()], [9, 0, 1.5, 1.5, 0, 0, 0])

    def test_one_processor_more_is_lent_than_there_are_at_most(self):
        self.run_tasks(3, *[self.task(f"crate{at}", [], at) for at in range(20)])
        self.assertEqual(len(self.begun), 20)
        self.assertLessEqual(self.most, 4)


if __name__ == "__main__":
    rt.free = lambda: LARGE
    unittest.main()
