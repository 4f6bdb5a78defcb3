#!/usr/bin/env python3
"""Sees that the prover refuses wrong bodies: for each, a function that it changes must fail its own proof.

usage: .ci/wrong_bodies.py [--due] [--all] [--minutes M] [--show] [CRATE ..]
       rt ci 2>&1 | .ci/wrong_bodies.py --follow [--due] [--all] [--minutes M] [--show] [CRATE ..]

A wrong body is an edit of a crate, a file crates/CRATE/wrong/NAME.edit: a line 'file: src/x.rt', and then pairs of
lines 'old: TEXT' and 'new: TEXT', where each old TEXT stands in that file exactly once. Each edit gets a verdict:

  refused            an obligation of a function whose body it changes was not proved
  NOT REFUSED        each function that it changes is still proved: a contract says too little
  REFUSED ELSEWHERE  only a function that it does not change was not proved
  BAD EDIT           it cannot be applied, or it does not reach the prover

Which are tried. .ci/refused.txt has a line for each that was seen refused, with what that rests on (known.py):

  must   it has no such line, or one of these has changed since: the logic, the edit, the functions that it changes or their
         proofs, what these reach of the crate and of definitions (specs/) below it (reach.py). Or more than sixteen
         gates have passed since: each run with --follow counts, once its refused.txt is committed. It is tried first
  due    only other code, definitions or lemmas of the crate or of those below have changed, how edits are judged, or the kit.
         It is tried with --due
  held   nothing has changed. It is tried with --all alone, and read and applied always

With --minutes, as in the gate, no check begins after so many, or forty-five more for what must be tried: one of these that was not fails. Beside these,
edits of so many crates are tried as have an eighth of all, and of each function at most three, since each further one is one proof more. A checksum
of all that the verdicts rest on draws them: another eighth at each landing, and nobody chooses. An edit that is refused gets its line, and one that is not loses it.

How they are tried. Where a function has more than two edits of its body, each stands in a copy of the crate as a twin: a function
more, beside the one that it changes, with the edit's body and that function's contract and proof files. So do all of a crate, in
one check or a few; and for each function a twin with its own body. Where that one is proved and an edit's is not, the edit is
refused: nothing but the body is another. Where it is not, for what the check says otherwise of a twin, for methods of traits and
cycles of calls, and for all other edits of bodies there are rounds. What the proof of another function reads of a function is its contract, not its body. So the edits that are left
stand in one copy, at most one for each function (or for each cycle of calls, which has one proof), and one check of
that copy says of each edited function whether it is refused. That is a round. An edit
goes into a later round where its function was taken, and where the check says only that its function calls one that
is not proved. An edit stands in a copy of its own where it changes more than bodies (a constant, a contract), where
the check's name of its function is not certain or the prover could not tell, and where it makes a copy unreadable or
breaks a function that no edit changes. What changes no body at all is judged by the verdict on the whole crate.

What they are tried over. Each crate's libraries must be proved and be those of the files that stand here. By hand, a
library is built where it is not up to date, and a crate is first checked with no edit, both over what earlier checks
here have kept, as under rt check; no other rt changes the libraries meanwhile, since their locks are held.

With --follow they are tried beside rt ci, whose output is the input: each line of it is printed at once as it is, and
what is said here comes after its end. Where rt ci says that it proved a library, and that is of this run and of the
files that stand here, a copy of it is taken into a folder of this run, so no lock is needed: nothing else writes there,
and these libraries are all from one rt ci. A crate's edits begin once all libraries below it are taken. Their verdicts
stand only if rt ci proves the crate itself, and its files have not been written to since; else each is a BAD EDIT.

How many at a time. Each check takes processors from one pool, and waits for memory: first what must be tried, and of that
first those of the crate with the most to do. While rt ci runs, the pool has half of them, at a lower priority than its own;
then it has all. A check of edits takes one, and more only then, and where fewer crates are left to try than processors.

--show prints what the check said of each edit. The last line is 'N passed, M failed': how many edits were refused, now or
with nothing changed since, and how many were not, or are other faults of a folder wrong/. Those left due are in neither: the
line before it says how many. The status is 0 only where nothing failed.
"""
import argparse
import contextlib
import copy
import itertools
import os
import re
import shutil
import signal
import subprocess
import sys
import tempfile
import threading
import time
import traceback

sys.dont_write_bytecode = True
from known import Basis, Known, Standing, drawn, few, sum_of
from rt_once import listed_once, read_once
from sources import rt, rtlib, text_of
from trials import MOST_JOBS, Trial, Wrong

ROOT = os.path.dirname(os.path.dirname(os.path.realpath(__file__)))
KNOWN = ".ci/refused.txt"
EDIT_NAME = re.compile(r"[A-Za-z0-9_-][A-Za-z0-9_.-]*\.edit")
# What rt ci says of a crate, but for its tests. A kept one was proved by an earlier rt ci on this machine, by the same checksums.
OF_A_CRATE = re.compile(rb"rt: (\w+) (proved|is kept: .*|NOT PROVED.*)\n?")
# The memory that is left to others, and how many seconds a check may take to fill most of its own.
RESERVE, FILLING = 4_000_000_000, 60
# In which order checks begin: those of a library that is built by hand, of edits that must be tried, and of others.
BUILD, FIRST, LATER = range(3)
# For how many minutes more than the others a check of what must be tried may begin.
MORE = 45


class Voice:
    """Prints what is said here, or keeps it till rt ci has ended."""

    def __init__(self):
        self.kept, self.speaking = None, threading.Lock()

    def say(self, text):
        with self.speaking:
            if self.kept is None:
                print(f"wrong bodies: {text}", flush=True)
            else:
                self.kept.append(text)

    def wait(self):
        self.kept = []

    def go_on(self):
        with self.speaking:
            kept, self.kept = self.kept or [], None
        for it in kept:
            self.say(it)


voice = Voice()
say = voice.say


# -- what was seen refused


class Refused(Known):
    """The file .ci/refused.txt."""

    def __init__(self):
        super().__init__(text_of(KNOWN) if os.path.isfile(KNOWN) else "")
        self.writing = threading.Lock()

    def note_each(self, edits, fresh):
        """Notes what trials of these edits showed, where what that rests on is as it was. fresh: each edit's key as it is now."""
        with self.writing:
            for it in edits:
                if it.verdict:
                    self.note(it.label, it.key if it.verdict == "refused" and fresh.get(it.label) == it.key else None)
            with open(KNOWN, "w", encoding="utf-8") as it:
                it.write(self.text())


# -- the folders wrong/


def edits_of(crate):
    """Returns the files of the crate's edits, and what else is wrong with its folder wrong/."""
    folder = f"{crate.folder}/wrong"
    if not os.path.lexists(folder):
        return [], []
    names = sorted(os.listdir(folder)) if os.path.isdir(folder) else []
    files = [f"{folder}/{it}" for it in names if EDIT_NAME.fullmatch(it) and os.path.isfile(f"{folder}/{it}")]
    faults = [f"crates/{crate.name}/wrong/{it}: no edit, which is a file NAME.edit" for it in names if f"{folder}/{it}" not in files]
    return files, faults if names else [f"crates/{crate.name}/wrong: no folder with edits"]


def strays(every):
    """Returns the folders wrong/ of which no crate's edits are read."""
    names = {it.name for it in every}
    found = (it for it in sorted(os.listdir(f"{ROOT}/crates")) if os.path.lexists(f"{ROOT}/crates/{it}/wrong"))
    return [f"crates/{it}/wrong: crates.txt has no line for this crate" for it in found if it not in names]


# -- processors, and what is proved


class Aside(threading.Thread):
    """A call beside the others, which ends with this run."""

    def __init__(self, call, *words):
        super().__init__(daemon=True)
        self.call, self.words, self.given, self.error = call, words, None, None
        self.start()

    def run(self):
        try:
            self.given = self.call(*self.words)
        except BaseException as error:
            self.error = error

    def result(self):
        self.join()
        if self.error:
            raise self.error
        return self.given


class Lanes:
    """Lends processors to checks where memory is free, first to the crate with the most to do."""

    def __init__(self, is_beside_rt_ci, until):
        fixed = os.environ.get("RT_JOBS", "")
        self.number = int(fixed) if fixed.isdigit() and int(fixed) else rt.processors()
        self.is_beside, self.changed, self.counted = is_beside_rt_ci, threading.Condition(), itertools.count()
        # the time from which no check begins
        self.until = until
        # how many crates are still tried, each by one check after the other
        self.trials = 0
        # a check is its turn, its work turned round, its number and its memory; one that runs has its processors and its beginning
        self.waiting, self.running = [], {}

    @contextlib.contextmanager
    def lent(self, turn, work, need, most=MOST_JOBS):
        """Waits for a processor and for memory, and gives how many processors the check may use."""
        mine = (turn, -work, next(self.counted), need)
        with self.changed:
            self.waiting.append(mine)
            while self.first() != mine and not self.is_late(turn):
                # (nothing tells when others free memory)
                self.changed.wait(5)
            jobs = 0 if self.is_late(turn) else self.share(turn, need, most)
            self.waiting.remove(mine)
            if not jobs:
                self.changed.notify_all()
                raise Stopped
            self.running[mine] = jobs, time.monotonic()
            self.changed.notify_all()
        try:
            yield jobs
        finally:
            with self.changed:
                del self.running[mine]
                self.changed.notify_all()

    def is_late(self, turn=FIRST):
        # (what must be tried may begin later than the rest)
        return turn >= FIRST and time.monotonic() >= self.until + (60 * MORE if turn == FIRST else 0)

    def take_all(self):
        """Lends all processors from now on, and not half of them."""
        with self.changed:
            self.is_beside = False
            self.changed.notify_all()

    def idle(self):
        number = max(self.number // 2, 1) if self.is_beside else self.number
        return number - sum(jobs for jobs, _ in self.running.values())

    def room(self):
        """Returns the memory that is free, but for a reserve and for what checks that have just begun will take."""
        filling = [(need, jobs) for (*_, need), (jobs, began) in self.running.items() if time.monotonic() - began < FILLING]
        return rt.free() - RESERVE - sum(need * (1 + 0.6 * (jobs - 1)) for need, jobs in filling)

    def first(self):
        """Returns the first of those waiting that may begin, or None."""
        if self.idle() < 1:
            return None
        room = self.room() if self.running or self.is_beside else float("inf")
        return next((it for it in sorted(self.waiting) if it[-1] <= room), None)

    def end_trial(self):
        with self.changed:
            self.trials -= 1
            self.changed.notify_all()

    def share(self, turn, need, most):
        """Returns how many processors a check may take: those that no other waits for, where their memory is free."""
        if turn >= FIRST and (self.is_beside or self.trials >= self.number):
            # (a second job costs 28 to 60 % more of their time, and ends it no sooner)
            return 1
        return max(1, min(most, self.idle() // len(self.waiting), 1 + int((self.room() / need - 1) / 0.6)))


class Proved:
    """Which crates are proved, as far as it is known."""

    def __init__(self):
        self.changed, self.known = threading.Condition(), {}

    def tell(self, name, is_proved):
        with self.changed:
            self.known[name] = is_proved and self.known.get(name, True)
            self.changed.notify_all()

    def is_refuted(self, crate):
        return not self.known.get(crate.name, True)

    def lacking(self, crates):
        """Waits till all of these are known to be proved, or one is known not to be. Returns those that are not."""
        with self.changed:
            refuted = lambda: [it.name for it in crates if self.is_refuted(it)]
            self.changed.wait_for(lambda: refuted() or all(it.name in self.known for it in crates))
            return refuted()


# -- rt ci, beside which they are tried


def is_untouched(crate, since):
    """Returns whether nothing has written to the crate's files since then."""
    read = [f"{ROOT}/crates.txt", *rtlib.files_of(crate.folder)]
    read += [at for part in rtlib.PARTS for at, _, _ in os.walk(f"{crate.folder}/{part}")]
    # (unlike the time of the last write, that of the last change cannot be set)
    return all(os.stat(it).st_ctime < since for it in read)


def is_made_since(crate, since):
    """Returns whether rt ci, begun at that time, proved or kept the crate as it stands here and left what was made of it."""
    made = f"{crate.folder}/out/" + (crate.name if crate.is_program else f"rlib/{crate.name}.rlib/format")
    # rt ci writes no stamp: with one, the library is from a developer's own check
    is_own = os.path.isfile(made) and not os.path.exists(f"{crate.folder}/out/rlib/stamp")
    # (a link to what an earlier run made has the time of its last change from this run, not that of its last write)
    return is_own and os.stat(made).st_ctime >= since and is_untouched(crate, since)


def take(crate, since, is_below):
    """Takes a copy of the library that rt ci says it proved, where others stand on it. Returns whether it is of this run."""
    try:
        is_made = is_made_since(crate, since)
        if is_made and is_below:
            shutil.copytree(f"{crate.folder}/out/rlib", os.path.dirname(crate.rlib))
    except OSError:
        # (at its end rt ci puts back what a developer's checks kept)
        return False
    return is_made


def echo(line):
    sys.stdout.buffer.write(line)
    sys.stdout.buffer.flush()


def listen(every, since, proved):
    """Prints what rt ci says till it ends, and takes what it proves."""
    crates, below = {it.name.encode(): it for it in every}, {dep.name for it in every if edits_of(it)[0] for dep in it.below()}
    for line in sys.stdin.buffer:
        echo(line)
        said = OF_A_CRATE.fullmatch(line)
        if said and said[1] in crates:
            crate = crates[said[1]]
            is_proved = not said[2].startswith(b"NOT PROVED")
            proved.tell(crate.name, is_proved and (crate.name in proved.known or take(crate, since, crate.name in below)))
    for it in every:
        proved.tell(it.name, it.name in proved.known)


# -- all crates together


class Stopped(Exception):
    """No further check of a crate's edits is to begin: it would show nothing, or be too late."""


class Run:
    """What the trials of all crates share. since: the time from which rt ci is followed, or None. room: this run's folder."""

    def __init__(self, since, room, until):
        self.since, self.room, self.refused = since, room, Refused()
        self.lanes, self.proved = Lanes(since is not None, until), Proved()

    def build(self, crate):
        """Builds a library where it is not up to date, and tells whether it is proved."""
        is_proved = not self.proved.lacking(crate.below())
        if is_proved and not crate.is_built():
            made = copy.copy(crate)
            # (the edits of several crates wait for it)
            with self.lanes.lent(BUILD, 0, rt.need(crate)) as jobs, tempfile.TemporaryFile("w+", errors="replace") as made.out:
                started, is_proved = time.monotonic(), not made.build_rlib(["--jobs", str(jobs)], anew=False)
                made.out.seek(0)
                last = made.out.read().rstrip().rpartition("\n")[2]
            say(f"{crate.name}: its library was {'' if is_proved else 'NOT '}built, in {time.monotonic() - started:.0f} s: {last}")
        self.proved.tell(crate.name, is_proved)

    def try_crate(self, wrong, edits):
        """Tries these edits of a crate. Each gets a verdict, but for those that come too late."""
        crate, lacking = wrong.crate, self.proved.lacking(wrong.crate.below())
        with tempfile.TemporaryDirectory(prefix="kept-", dir=self.room) as kept:
            own = f"{crate.folder}/{rtlib.KEPT[1]}"
            if self.since is None and os.path.isdir(own):
                # the crate's proof with no edit may rest on what a developer's checks kept, as rt check does
                shutil.copytree(own, kept, dirs_exist_ok=True)
            trial = Trial(wrong, edits, lambda turn, most: self.lend(crate, turn, edits, most), kept, say)
            with contextlib.suppress(Stopped):
                if not lacking:
                    trial.run(self.since is not None)
        self.lanes.end_trial()
        why = f"the library {lacking[0]} is not proved" if lacking else self.is_unfit(crate)
        for it in edits:
            if why or not it.verdict and not self.lanes.is_late(it.turn):
                it.judge("BAD EDIT", why or "no check judged it")
        self.note(crate, edits)

    def note(self, crate, edits):
        """Notes what was seen of these edits of a crate."""
        if edits:
            self.refused.note_each(edits, keys_of([Wrong(crate, edits_of(crate)[0])]))

    @contextlib.contextmanager
    def lend(self, crate, turn, edits, most):
        """Gives one of the checks of a crate's edits its processors, unless it is known by then that the crate is not proved."""
        if self.since is None:
            # what the checks before showed is not lost with a run that is ended (beside rt ci it stands only once that has proved the crate)
            self.note(crate, [it for it in edits if it.verdict])
        with self.lanes.lent(turn, len(edits) * crate.count(rb"\n"), rt.need(crate), most) as jobs:
            if self.since is not None and self.proved.is_refuted(crate):
                raise Stopped
            yield jobs

    def is_unfit(self, crate):
        """Waits till rt ci has proved the crate itself, where it is followed. Returns why the verdicts do not stand, or ""."""
        if self.since is None:
            return ""
        if self.proved.lacking([crate]):
            return "the crate itself is not proved"
        return "" if is_untouched(crate, self.since) else "the crate was changed while it was tried"

    def take_stock(self, given, every):
        """Reads all edits, and gives each its standing, and a turn where it is to be tried. Beside rt ci it counts one gate more."""
        wrongs = [Wrong(it, edits_of(it)[0]) for it in every]
        keys = keys_of(wrongs)
        self.refused.keep(keys)
        self.refused.gates += given.follow
        numbers = {it.crate.name: len(it.edits) for it in wrongs if it.edits}
        lot = sum_of(keys)
        chosen = drawn(lot, numbers) if given.minutes is not None else set()
        most = Standing.HELD if given.all else Standing.DUE if given.due else Standing.MUST
        for wrong in wrongs:
            for it in wrong.edits:
                it.key = keys.get(it.label)
                it.standing = self.refused.standing(it.label, it.key)
            also = few(lot, wrong.edits) if wrong.crate.name in chosen else []
            for it in wrong.edits:
                is_tried = not it.verdict and (it.standing <= most or it in also)
                it.turn = (FIRST if it.standing == Standing.MUST else LATER) if is_tried else None
        wrongs = [it for it in wrongs if not given.crates or it.crate.name in given.crates]
        found = [it.standing for wrong in wrongs for it in wrong.edits]
        say(f"{found.count(Standing.MUST)} must be tried, {found.count(Standing.DUE)} are due, {found.count(Standing.HELD)} are held")
        if chosen:
            say(f"drawn: {', '.join(it.crate.name for it in wrongs if it.crate.name in chosen)}")
        return wrongs

    def try_each(self, given, every):
        """Tries what is to be tried. Returns the edits, and what else failed."""
        wrongs = self.take_stock(given, every)
        failed = strays(every) + [fault for it in wrongs for fault in edits_of(it.crate)[1]]
        tried = [(wrong, [it for it in wrong.edits if it.turn is not None]) for wrong in wrongs]
        tried = [it for it in tried if it[1]]
        below = {it.name: it for wrong, _ in tried for it in wrong.crate.below()} if self.since is None else {}
        self.lanes.trials = len(tried)
        built = [Aside(self.build, it) for it in sorted(below.values(), key=lambda it: len(it.below()))]
        for it in [*built, *[Aside(self.try_crate, *it) for it in tried]]:
            it.result()
        return [it for wrong in wrongs for it in wrong.edits], failed


def keys_of(wrongs):
    """Returns the keys of edits that were read, by their labels, as the files stand now."""
    basis = Basis()
    return {it.label: basis.key(wrong.crate, it) for wrong in wrongs for it in wrong.edits if it.texts}


def try_all(given, since, room):
    """Tries what is to be tried, beside rt ci where it is followed."""
    every = rtlib.crates_below(ROOT)
    unknown = {*given.crates} - {it.name for it in every}
    if unknown:
        sys.exit(f"wrong_bodies: there is no crate {', '.join(sorted(unknown))}")
    # (held till the end, so that no other rt changes the libraries; rt ci holds them where it is followed)
    held = None if given.follow else rtlib.lock(every)
    rtlib.Crate.below, rtlib.Crate.stamp = listed_once(rtlib.Crate.below), read_once(rtlib.Crate.stamp)
    # (the first call sets a signal's handler, which only the main thread may)
    rtlib.guarded()
    for it in every if given.follow else []:
        it.rlib = f"{room}/{it.name}/{it.name}.rlib"
    until = float("inf") if given.minutes is None else time.monotonic() + 60 * given.minutes
    run = Run(since if given.follow else None, room, until)
    trials = Aside(run.try_each, given, every)
    if given.follow:
        listen(every, since, run.proved)
        say(f"rt ci ended after {time.time() - since:.0f} s")
        run.lanes.take_all()
        voice.go_on()
    found = trials.result()
    del held
    return found


def follow(given, since, room):
    """Tries all beside rt ci. Whatever happens, what rt ci says is printed to its end."""
    os.nice(10)
    voice.wait()
    try:
        return try_all(given, since, room)
    except (Exception, SystemExit):
        for line in sys.stdin.buffer:
            echo(line)
        voice.go_on()
        traceback.print_exc()
        sys.exit(1)


def report(given, edits, failed):
    """Says what failed, what was left untried, and in the last line how many passed. Returns whether all is well."""
    tried = [it for it in edits if it.verdict]
    refused = [it for it in tried if it.verdict == "refused"]
    left = {standing: [it for it in edits if not it.verdict and it.standing == standing] for standing in Standing}
    for it in refused if given.show else []:
        say(f"{it.label}: refused: {it.why[:300]}")
    failed = failed + [f"{it.label}: {it.verdict}: {it.why[:500]}" for it in tried if it not in refused]
    failed += [f"{it.label}: must be tried, and was not after {given.minutes:g} minutes" for it in left[Standing.MUST]]
    for it in failed:
        say(it)
    say(f"{len(edits)} edits: {len(tried)} tried, {len(left[Standing.HELD])} held, {len(left[Standing.DUE])} left due")
    print(f"{len(refused) + len(left[Standing.HELD])} passed, {len(failed)} failed")
    return edits and not failed


def main():
    since = time.time()
    parser = argparse.ArgumentParser(description=__doc__, formatter_class=argparse.RawDescriptionHelpFormatter)
    parser.add_argument("--follow", action="store_true", help="try them beside rt ci, whose output is the input")
    parser.add_argument("--due", action="store_true", help="try also what is due")
    parser.add_argument("--all", action="store_true", help="try every one")
    parser.add_argument("--minutes", type=float, metavar="M", help="begin no check after M minutes; beside what must be tried, try an eighth of all")
    parser.add_argument("--show", action="store_true", help="print what the check said of each edit")
    parser.add_argument("crates", nargs="*", metavar="CRATE")
    given = parser.parse_args()
    os.chdir(ROOT)
    # (what it started ends with it, and its folder is removed)
    signal.signal(signal.SIGTERM, signal.default_int_handler)
    with tempfile.TemporaryDirectory(prefix="wrong-bodies-", ignore_cleanup_errors=True) as room:
        found = (follow if given.follow else try_all)(given, since, room)
    return 0 if report(given, *found) else 1


if __name__ == "__main__":
    sys.exit(main())
