"""Judges the edits of one crate by what checks of copies of it say."""
import copy
import os
import re
import shutil
import signal
import tempfile
import time
import typing

from sources import likely_names_of, module_of, names_of, path_of, read, rt, rtlib, source_of, text_of

# What the check says of a function that fails through another one.
THROUGH = re.compile(r"(it|a call of) .*which (is|are) not proved")
# What it says in a proof file of a theorem that failed elsewhere.
CITES = re.compile(r"was not admitted|is not admitted")
# What it says first of a function that fails by one that shares its proof.
IN_A_CYCLE = re.compile(r"in `[^`]*`, of this cycle of calls")
# A place in src/ where it could not read the text.
ERROR = re.compile(r"(?m)^(?:\./)?(src/\S+\.rt):(\d+):\d+: error")
# More jobs seldom make a check faster.
MOST_JOBS = 4
# So many twins stand in one check, where no function has more: a check of 70 of `zanz` would take more memory than a small machine has.
MOST_TWINS = 40
# The edits of a function that has so few are tried in as many rounds: side by side its own body would be proved once more.
MOST_ROUNDS = 2


# -- one edit


class Edit:
    def __init__(self, crate, file):
        self.label, self.text = f"{crate.name}/{os.path.basename(file).removesuffix('.edit')}", text_of(file)
        self.verdict, self.why = None, ""
        # what is known of it, and in which turn it is tried, the lowest first, or None
        self.key, self.standing, self.turn = None, None, None
        # the functions whose bodies it changes, each with the new one, and whether it changes more than bodies
        self.bodies, self.is_wider = {}, False
        self.texts, why = rt.read_edit(file, crate.folder)
        if why:
            self.judge("BAD EDIT", why)

    def judge(self, verdict, why):
        self.verdict, self.why = verdict, why

    def compare(self, sources):
        """Finds what it changes. sources: the crate's files that were read so far, by their paths."""
        for path, text in self.texts.items():
            if not path.startswith("src/"):
                self.is_wider = True
                continue
            old, new = sources[path], source_of(path, text)
            after = [new.body(it) for it in new.functions]
            if new.bare is None or new.bare != old.bare:
                self.is_wider = True
                by_name = {(it.name, it.owner): new.body(it) for it in new.functions}
                after = [by_name.get((it.name, it.owner), b"") for it in old.functions]
            self.bodies.update((it, body) for it, body in zip(old.functions, after) if body != old.body(it))

    def function(self):
        """Returns the one function whose body alone it changes, where one of another name can stand beside that, or None."""
        only = [*self.bodies][0] if len(self.bodies) == 1 and not self.is_wider else None
        has_twin = only and not only.cycle and not only.is_open and not (only.owner and only.owner.of_trait)
        return only if has_twin else None

    def places(self):
        """Returns what at most one edit of a round may change: a function, or a cycle of calls."""
        return {(it.path, it.cycle or it.body) for it in self.bodies}


# -- what a check said


class Said(typing.NamedTuple):
    """What the check said of a function, and the first error in a proof file of its own."""

    words: str
    error: str

    def fails_itself(self):
        """Returns whether an obligation of its own was not proved, and not only one of what it calls."""
        if self.words.startswith(("proved", "assumed")):
            return False
        reasons = [it for it in re.split(r"; |: ", self.words)[1:] if not IN_A_CYCLE.fullmatch(it)]
        return bool(self.error) or not reasons or not all(THROUGH.match(it) for it in reasons)

    def is_unsure(self):
        return self.words.startswith("could not tell")

    def text(self):
        return self.words + (f" ({self.error})" if self.error else "")


def said_in(output):
    """Returns what the check said of each function, by the check's name for it."""
    errors = re.findall(r"(?m)^(?:\./)?proofs/(\S+)/\w+\.antt:\d+:\d+: error: (.*)", output)
    errors = [it for it in errors if not CITES.search(it[1])]
    rows = re.findall(r"(?m)^fn (\S+): (.*)", output)
    return {name: Said(words, own_error(name, errors)) for name, words in rows}


def own_error(name, errors):
    """Returns the first error in the function's own proof, given each with its folder, or "". A cycle's proof names the function."""
    *above, last = name.split("::")[1:]
    folder, cycles = "/".join([*above, last]), "/".join([*above, "+"])
    is_own = lambda at, text: at == folder or at.startswith(cycles) and f"`{last}-" in text
    return next((text for at, text in errors if is_own(at, text)), "")


def unreadable(output, status, texts):
    """Returns why the check did not get as far as proving the edited copy, or ""."""
    lines = output.rstrip("\n").split("\n")
    wrong = next((it for it in lines if rt.unread(it, texts)), "")
    if wrong or rtlib.STALE.search(output):
        return wrong or "the kept work of a library could not be used"
    last = {0: ("logic=proved", "only="), 1: ("logic=not-proved", "only=")}
    return "" if lines[-1].startswith(last.get(status, ())) else lines[-1] or "the check said nothing"


def checked(crate, texts, flags, kept):
    """Checks a copy of the crate with these texts, of which some may be of files that it does not have."""
    with tempfile.TemporaryDirectory(prefix="beside-") as room:
        made = copy.copy(crate)
        made.folder = f"{room}/{crate.name}"
        shutil.copytree(crate.folder, made.folder, ignore=shutil.ignore_patterns("out"))
        for it in texts:
            os.makedirs(os.path.dirname(f"{made.folder}/{it}"), exist_ok=True)
        return rt.checked(made, texts, flags, kept)


# -- the edits of one crate


class Wrong:
    """The edits of a crate, as its files stand when they are read."""

    def __init__(self, crate, files):
        self.crate, self.edits = crate, [Edit(crate, it) for it in files]
        readable = [it for it in self.edits if not it.verdict]
        paths = {path for it in readable for path in it.texts if path.startswith("src/")}
        texts = {it: text_of(f"{crate.folder}/{it}") for it in sorted(paths)}
        read([*texts.values(), *(text for it in readable for path, text in it.texts.items() if path in texts)])
        self.sources = {path: source_of(path, text) for path, text in texts.items()}
        for it in readable:
            it.compare(self.sources)


def groups(edits):
    """Returns those of these edits that are tried side by side, by their checks: all of a function in one, and few enough for its memory."""
    mates, found, number = {}, [], MOST_TWINS
    for it in edits:
        if it.function():
            mates.setdefault(it.function(), []).append(it)
    for its in mates.values():
        if len(its) <= MOST_ROUNDS:
            continue
        number += len(its) + 1
        if number > MOST_TWINS:
            found.append([])
            number = len(its) + 1
        found[-1] += its
    return found


class Trial:
    """Judges edits of one crate. What its checks prove is kept in a folder of this run."""

    def __init__(self, wrong, edits, lend, kept, say):
        self.crate, self.sources, self.edits = wrong.crate, wrong.sources, edits
        self.lend, self.kept, self.say, self.turn = lend, kept, say, min(it.turn for it in edits)

    def check(self, texts, only=()):
        """Checks a copy of the crate with these texts in place of its own. Returns what was said, and the status."""
        words = [word for it in sorted(set(only)) for word in ("--only", it)]
        # (one function has one job's work)
        with self.lend(self.turn, len(set(only)) or MOST_JOBS) as jobs:
            ran = checked(self.crate, texts, ["--jobs", str(jobs), *words], self.kept)
            if ran.returncode == -signal.SIGKILL:
                # most likely for memory
                ran = checked(self.crate, texts, ["--jobs", "1", *words], self.kept)
        return ran.stdout, ran.returncode

    def run(self, is_proved):
        """Judges every edit, those of the first turn first. Where rt ci has not just proved the crate, its own proof comes first."""
        output, status = ("", 0) if is_proved else self.check({})
        if status:
            for it in self.edits:
                it.judge("BAD EDIT", f"the crate itself is not proved: {output.rstrip().rpartition(chr(10))[2][:200]}")
            return
        for self.turn in sorted({it.turn for it in self.edits}):
            self.judge_all([it for it in self.edits if it.turn == self.turn])

    def judge_all(self, edits):
        started, left = time.monotonic(), [it for it in edits if not it.verdict]
        beside = [it for group in groups(left) for it in self.side_by_side(group)]
        left = [it for it in left if it not in beside]
        alone = [it for it in left if it.is_wider or not it.bodies]
        left = [it for it in left if it not in alone]
        rounds = 0
        while left:
            now, rounds = self.next_round(left), rounds + 1
            apart = self.together(now)
            settled = [it for it in now if it.verdict or it in apart]
            # (where none is settled, each fails through another)
            alone += apart if settled else left
            left = [it for it in left if it not in settled] if settled else []
        for it in alone:
            self.judge_alone(it)
        seconds = time.monotonic() - started
        self.say(f"{self.crate.name}: {len(edits)} edits, {len(beside)} side by side, {rounds} rounds, {len(alone)} alone, in {seconds:.0f} s")

    def side_by_side(self, edits):
        """Refuses these edits in one check, as far as that can be. Returns those that it refused.

        Each stands beside the function that it changes as a twin with its contract and its proof files. So does a twin with the function's own body: where
        that is not proved, its twins fail through something else than their bodies, and nothing of them counts.
        """
        mates = {}
        for it in edits:
            mates.setdefault(it.function(), []).append(it)
        twins = {(of, at): of._replace(name=f"{of.name}_twin{at}") for of, its in mates.items() for at in range(len(its) + 1)}
        bodies = {(of, at): it.bodies[of] for of, its in mates.items() for at, it in enumerate(its, 1)}
        texts, proofs = {}, {}
        for path in {it.path for it in mates}:
            its = [(of, it.name, bodies.get((of, at)) or self.sources[path].body(of)) for (of, at), it in twins.items() if of.path == path]
            texts[path] = self.sources[path].with_twins(its)
        for (of, _), it in twins.items():
            proofs.update(self.proofs_of(of, it))
        if not edits:
            return []
        output, status = self.check({**texts, **proofs}, [path_of(it) for it in twins.values()])
        why = unreadable(output, status, texts)
        if why:
            self.say(f"{self.crate.name}: its edits are not tried side by side: {why[:200]}")
            return []
        said = said_in(output)
        is_proved = lambda names: names and all(said[it].words.startswith("proved") for it in names)
        sure = [of for of in mates if is_proved(names_of(twins[of, 0], said))]
        for of in mates.keys() - sure:
            self.say(f"{self.crate.name}: {of.name} is not proved under another name, so its edits are tried in rounds")
        for of in sure:
            for at, it in enumerate(mates[of], 1):
                failing = {name: said[name] for name in names_of(twins[of, at], said) if said[name].fails_itself()}
                if failing and not all(it.is_unsure() for it in failing.values()):
                    it.judge("refused", "; ".join(f"{name}: {its.text()}" for name, its in failing.items()))
        return [it for it in edits if it.verdict]

    def proofs_of(self, function, twin):
        """Returns the function's own proof files as its twin's, by their paths."""
        above = ["proofs", *module_of(function), *([function.owner.of_type] if function.owner else [])]
        folder, found = "/".join([*above, function.name]), {}
        dotted = re.compile(re.escape(f".{'.'.join([*above, function.name])}.").replace("/", "."))
        for at, _, files in os.walk(f"{self.crate.folder}/{folder}"):
            for it in files:
                file = f"{at}/{it}"
                path = os.path.relpath(file, self.crate.folder).replace(folder, "/".join([*above, twin.name]), 1)
                found[path] = dotted.sub(f".{'.'.join([*above, twin.name])}.", text_of(file))
        return found

    def next_round(self, left):
        """Returns the first of these edits for each place."""
        taken, now = set(), []
        for edit in left:
            if not edit.places() & taken:
                now.append(edit)
                taken |= edit.places()
        return now

    def together(self, edits):
        """Checks one copy with these edits, and judges those of which that says enough. Returns those to try alone."""
        texts = self.copy_with(edits)
        only = [path_of(it) for edit in edits for it in edit.bodies]
        output, status = self.check(texts, [] if "" in only else only)
        if status == 2 and "--only" in output:
            output, status = self.check(texts)
        if unreadable(output, status, texts):
            # some edit made the copy unreadable: those at the lines of its errors go alone
            wrong = [(path, int(line)) for path, line in ERROR.findall(output)]
            at_fault = [it for it in edits if self.touches(it, wrong)]
            return at_fault or self.in_halves(edits)
        said = said_in(output)
        owned = self.owned(edits, said)
        astray = next((it for it in said if said[it].fails_itself() and it not in owned), None)
        if astray:
            # some edit reaches further than the functions that it changes: halves show which
            self.say(f"{self.crate.name}: {len(edits)} edits together break {astray}, which none of them changes")
            return self.in_halves(edits)
        return [it for it in edits if not self.judge_by(it, said)]

    def in_halves(self, edits):
        if len(edits) == 1:
            return edits
        half = len(edits) // 2
        return self.together(edits[:half]) + self.together(edits[half:])

    def copy_with(self, edits):
        """Returns the texts of the files that these edits change, with all of their bodies."""
        bodies = {}
        for edit in edits:
            for function, body in edit.bodies.items():
                bodies.setdefault(function.path, {})[function] = body
        return {path: self.sources[path].with_bodies(its) for path, its in bodies.items()}

    def touches(self, edit, places):
        """Returns whether one of these lines is in a function that the edit changes."""
        return any(path == it.path and it.lines[0] <= line <= it.lines[1] for it in edit.bodies for path, line in places)

    def owned(self, edits, said):
        """Returns the check's names for all that these edits change, and for what shares a proof with it."""
        changed = [it for edit in edits for it in edit.bodies]
        mates = [it for of in changed if of.cycle for it in self.sources[of.path].functions if it.cycle == of.cycle]
        return {name for it in changed + mates for name in likely_names_of(it, said)}

    def judge_by(self, edit, said):
        """Judges an edit by what the check of a round said. Returns False where it is to be tried alone."""
        names = [names_of(it, said) for it in edit.bodies]
        own = {name: said[name] for its in names for name in its}
        failing = {name: it for name, it in own.items() if it.fails_itself()}
        if not all(names) or failing and all(it.is_unsure() for it in failing.values()):
            return False
        if failing:
            edit.judge("refused", "; ".join(f"{name}: {it.text()}" for name, it in failing.items()))
        elif all(it.words == "proved" for it in own.values()):
            edit.judge("NOT REFUSED", f"{', '.join(own)}: proved")
        return True

    def is_refused_by_its_own(self, edit):
        """Judges an edit of bodies alone by a check of its functions with nothing else changed, where that refuses it."""
        if not edit.bodies or edit.is_wider:
            return False
        output, status = self.check(edit.texts, [path_of(it) for it in edit.bodies])
        said = {} if unreadable(output, status, edit.texts) else said_in(output)
        names = [name for it in edit.bodies for name in likely_names_of(it, said)]
        failing = [name for name in names if said[name].fails_itself() and not said[name].is_unsure()]
        if failing:
            edit.judge("refused", f"alone; {said[failing[0]].text()}")
        return bool(failing)

    def judge_alone(self, edit):
        """Judges an edit by a check of the whole crate with nothing else changed."""
        if self.is_refused_by_its_own(edit):
            return
        output, status = self.check(edit.texts)
        wrong = unreadable(output, status, edit.texts)
        said = said_in(output)
        failing = {name: it for name, it in said.items() if it.fails_itself()}
        own = [name for it in edit.bodies for name in likely_names_of(it, said) if name in failing and not said[name].is_unsure()]
        first = next((it for it in output.split("\n") if re.match(r"(note: )?\S+:\d+:\d+:", it)), output.strip())
        if wrong:
            edit.judge("BAD EDIT", f"it did not reach the prover: {wrong}")
        elif status == 0:
            edit.judge("NOT REFUSED", "the crate is still proved with this edit")
        elif not edit.bodies or own:
            edit.judge("refused", f"alone; {failing[own[0]].text() if own else first}")
        else:
            edit.judge("REFUSED ELSEWHERE", f"only {', '.join(failing) or 'no function'} is not proved: {first}")
