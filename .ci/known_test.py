#!/usr/bin/env python3
"""What makes a wrong body one that must be tried, or that is due, on two small crates of which nothing is proved; which crates are drawn, and
which of their wrong bodies; what is believed of those that stand side by side; how many processors a check may take; and how a stamp and a list are made."""
import os
import sys
import tempfile
import types
import unittest

sys.dont_write_bytecode = True
from known import BELIEVED, OF_ONE, PARTS, Basis, Key, Known, Standing, drawn, few
from rt_once import listed_once, read_once
from sources import rtlib
from trials import MOST_ROUNDS, MOST_TWINS, Trial, Wrong, groups
from wrong_bodies import BUILD, FIRST, LATER, Lanes

MUST, DUE, HELD = Standing
KIT = "kit-1 logic a"
FILES = {
    "crates.txt": "low:\nhigh: low\n",
    "crates/low/src/lib.rt": "// low\npub const MOST: u8 = 3;\npub fn one() -> u8\nensures it { result == 1 }\n{\n    1\n}\n",
    "crates/low/src/kept.rt": "ghost use Rattle.low.specs.Kept.{kept};\npub struct Kept {\n    pub at: Place,\n}\nimpl Model for Kept {\n    ghost Value = { kept };\n}\n",
    "crates/low/src/place.rt": "ghost use Rattle.low.specs.Place.{place};\npub struct Place {\n    pub at: u8,\n}\nimpl Model for Place {\n    ghost Value = { place };\n}\n",
    "crates/low/src/found.rt": "ghost use Rattle.low.specs.inside.Found.{found};\npub struct Found {\n    pub at: u8,\n}\nimpl Model for Found {\n    ghost Value = { found };\n}\n",
    "crates/low/src/lost.rt": "ghost use Rattle.low.specs.Lost.{lost};\npub struct Lost {\n    pub at: u8,\n}\nimpl Model for Lost {\n    ghost Value = { lost };\n}\n",
    "crates/low/src/turn.rt": "ghost use Rattle.low.specs.Turned.{turned};\npub struct Turn {\n    pub at: u8,\n}\nimpl Turn {\n"
    "    pub fn turn(&self) -> u8\n    ensures it { result == turned }\n    {\n        1\n    }\n}\n",
    "crates/low/specs/Lib.antt": "pub mod Word\npub mod Deep\npub mod Kept\npub mod Place\npub mod Proved\npub mod Lost\npub mod Turned\npub mod inside\n",
    "crates/low/specs/Word.antt": "-- a word\nuse Rattle.low.specs.Deep.{deep}\nuse Rattle.low.specs.Lost.{lost}\nword : ℕ\nword = deep\nother : ℕ\nother = lost\n",
    "crates/low/specs/Deep.antt": "deep : ℕ\ndeep = 1\n",
    "crates/low/specs/Kept.antt": "kept : ℕ\nkept = 1\n",
    "crates/low/specs/Place.antt": "place : ℕ\nplace = 1\n",
    "crates/low/specs/Proved.antt": "proved : ℕ\nproved = 1\n",
    "crates/low/specs/Lost.antt": "lost : ℕ\nlost = 1\n",
    "crates/low/specs/Turned.antt": "turned : ℕ\nturned = 1\n",
    "crates/low/specs/inside.antt": "pub mod Found\n",
    "crates/low/specs/inside/Found.antt": "found : ℕ\nfound = 1\n",
    "crates/low/proofs/Lemmas.antt": "lemma : ℕ\nlemma = 1\n",
    "crates/low/proofs/one/Answers.antt": "answer = 1\n",
    "crates/high/src/lib.rt": "ghost use Rattle.low.specs.Word.{word, other};\nghost use Rattle.high.specs.Two.{two, second};\nuse low::Kept;\n"
    "pub fn two(kept: Kept) -> u8\nensures it { result == word + two }\n{\n    // as it is\n    one() + 1\n}\npub fn three() -> u8 {\n    3\n}\n"
    "#[cycle(turns)]\nfn there() -> u8 {\n    back() + 5\n}\n#[cycle(turns)]\nfn back() -> u8 {\n    there() + 6\n}\n",
    "crates/high/src/last.rt": "pub const LAST: u8 = 9;\n",
    "crates/high/specs/Lib.antt": "pub mod Two\n",
    "crates/high/specs/Two.antt": "use Rattle.low.specs.declared.found.Found.{Found}\ntwo : ℕ\ntwo = Found\nsecond : ℕ\nsecond = 4\n",
    "crates/high/proofs/Lemmas.antt": "-- a lemma\nlemma : ℕ\nlemma = 2\n",
    "crates/high/proofs/Others.antt": "another : ℕ\nanother = 2\n",
    "crates/high/proofs/two/Answers.antt": "use Rattle.low.specs.Proved.{proved}\nuse Rattle.high.proofs.Lemmas.{lemma}\nanswer = 2\n",
    "crates/high/proofs/three/Answers.antt": "answer = 3\n",
    "crates/high/proofs/+turns/Answers.antt": "answer = 4\n",
    "crates/high/wrong/one_more.edit": "file: src/lib.rt\nold: one() + 1\nnew: one() + 2\n",
    "crates/high/wrong/turned.edit": "file: src/lib.rt\nold: back() + 5\nnew: back() + 6\n",
    "crates/high/wrong/another_last.edit": "file: src/last.rt\nold: LAST: u8 = 9\nnew: LAST: u8 = 8\n",
}
# the standings of the three edits where something is reached by the first and by the third, which reaches all
SOME = [MUST, DUE, MUST]
BODY, CYCLE, CONSTANT = "high/one_more", "high/turned", "high/another_last"


def keys(files, identity=KIT):
    """The keys of the wrong bodies in a repository of these files, under a kit."""
    with tempfile.TemporaryDirectory(prefix="known-") as top:
        for path, text in files.items():
            os.makedirs(os.path.dirname(f"{top}/{path}"), exist_ok=True)
            with open(f"{top}/{path}", "w", encoding="utf-8") as it:
                it.write(text)
        basis = Basis(identity)
        wrongs = [Wrong(it, [f"{it.folder}/wrong/{name}" for name in os.listdir(f"{it.folder}/wrong")]) for it in rtlib.crates_below(top) if it.name == "high"]
        return {it.label: basis.key(wrong.crate, it) for wrong in wrongs for it in wrong.edits}


class Keys(unittest.TestCase):
    def setUp(self):
        self.known = Known()
        for label, key in keys(FILES).items():
            self.known.note(label, key)

    def standings(self, found):
        return [self.known.standing(it, found.get(it)) for it in (BODY, CYCLE, CONSTANT)]

    def changed(self, path, old, new, files=FILES):
        """The standings of the three after a change of one file."""
        self.assertEqual(files[path].count(old), 1)
        return self.standings(keys({**files, path: files[path].replace(old, new)}))

    def changed_in(self, path, old, new, what="crates/low/specs/Lost.antt", before="= 1", after="= 2"):
        """The standings of the three after a change of a definition, or of what is named, where another file has this text."""
        files = {**FILES, path: FILES[path].replace(old, new)}
        self.assertNotEqual(files, FILES)
        self.known = Known()
        for label, key in keys(files).items():
            self.known.note(label, key)
        return self.changed(what, before, after, files)

    def test_in_the_crate(self):
        code = "crates/high/src/lib.rt"
        self.assertEqual(self.changed(code, "\n    3", "\n    4"), [HELD, HELD, MUST])
        self.assertEqual(self.changed(code, "// as it is", "// as it was"), [HELD, HELD, MUST])
        self.assertEqual(self.changed(code, "    // as", "    let a = 0;\n    // as"), [MUST, HELD, MUST])
        self.assertEqual(self.changed(code, "there() + 6", "there() + 7"), [HELD, MUST, MUST])
        self.assertEqual(self.changed(code, "word + two", "two"), SOME)
        self.assertEqual(self.changed("crates/high/specs/Two.antt", "two = Found", "two = 3"), SOME)
        self.assertEqual(self.changed("crates/high/proofs/Lemmas.antt", "= 2", "= 3"), SOME)
        self.assertEqual(self.changed("crates/high/proofs/Lemmas.antt", "-- a", "-- another"), [HELD, HELD, MUST])
        self.assertEqual(self.changed("crates/high/proofs/three/Answers.antt", "3", "4"), [HELD, HELD, MUST])
        self.assertEqual(self.changed("crates/high/proofs/two/Answers.antt", "2", "4"), [MUST, HELD, MUST])
        self.assertEqual(self.changed("crates/high/proofs/+turns/Answers.antt", "4", "5"), [HELD, MUST, MUST])
        self.assertEqual(self.changed("crates/high/wrong/one_more.edit", "+ 2", "+ 3"), [MUST, HELD, HELD])

    def test_in_the_crate_what_is_not_reached_is_due(self):
        due = [DUE, DUE, MUST]
        self.assertEqual(self.changed("crates/high/src/lib.rt", "three()", "three(a: u8)"), due)
        self.assertEqual(self.changed("crates/high/src/last.rt", "pub const", "pub const MORE: u8 = 1;\npub const"), due)
        self.assertEqual(self.changed("crates/high/specs/Two.antt", "second = 4", "second = 3"), due)
        self.assertEqual(self.changed("crates/high/specs/Lib.antt", "pub mod Two", "pub mod Two\npub mod Three"), due)
        self.assertEqual(self.changed("crates/high/proofs/Others.antt", "= 2", "= 3"), due)
        self.assertEqual(self.changed("crates.txt", "high: low", "high: low base64"), due)

    def test_what_a_body_names_in_the_crate(self):
        code, last, three = "crates/high/src/lib.rt", "crates/high/src/last.rt", ("crates/high/src/lib.rt", "three() -> u8", "three(a: u8) -> u8")
        more = (last, "pub const", "pub const MORE: u8 = 1;\npub const")
        self.assertEqual(self.changed_in(code, "// as it is\n", "three();\n", *three), SOME)
        self.assertEqual(self.changed_in(code, "// as it is\n", "LAST;\n", *more), SOME)
        self.assertEqual(self.changed_in(code, "kept: Kept", "kept: [Kept; LAST]", *more), SOME)
        self.assertEqual(self.changed_in("crates/high/wrong/one_more.edit", "new: one()", "new: three()", *three), SOME)
        self.assertEqual(self.changed_in(code, "back() + 5", "three() + back() + 5", *three), [DUE, MUST, MUST])
        self.assertEqual(self.changed_in(code, "there() + 6", "three() + there() + 6", *three), [DUE, MUST, MUST])
        self.assertEqual(self.changed_in(code, "\n    3", "\n    LAST", *more), [DUE, DUE, MUST])

    def test_below_it(self):
        self.assertEqual(self.changed("crates/low/src/lib.rt", "result == 1", "result == 2"), [DUE] * 3)
        self.assertEqual(self.changed("crates/low/src/lib.rt", "MOST: u8 = 3", "MOST: u8 = 4"), [DUE] * 3)
        self.assertEqual(self.changed("crates/low/src/lib.rt", "\n    1\n", "\n    2\n"), [HELD] * 3)
        self.assertEqual(self.changed("crates/low/src/lib.rt", "// low", "// lower"), [HELD] * 3)
        self.assertEqual(self.changed("crates/low/proofs/Lemmas.antt", "= 1", "= 2"), [DUE] * 3)
        self.assertEqual(self.changed("crates/low/proofs/one/Answers.antt", "1", "2"), [HELD] * 3)

    def test_definitions_below_it(self):
        reached = ["Deep", "Kept", "Place", "Proved", "inside/Found"]
        self.assertEqual([self.changed(f"crates/low/specs/{it}.antt", "= 1", "= 2") for it in reached], [SOME] * len(reached))
        self.assertEqual(self.changed("crates/low/specs/Word.antt", "word = deep", "word = 2"), SOME)
        self.assertEqual(self.changed("crates/low/specs/Word.antt", "word = deep", "word = lost"), SOME)
        self.assertEqual(self.changed("crates/low/specs/Word.antt", "other = lost", "other = 2"), [DUE] * 3)
        self.assertEqual(self.changed("crates/low/specs/Lost.antt", "= 1", "= 2"), [DUE] * 3)
        self.assertEqual(self.changed("crates/low/specs/Word.antt", "-- a", "-- one"), [HELD] * 3)
        self.assertEqual(self.changed("crates/low/specs/Lib.antt", "pub mod Lost", "pub mod Lost\npub mod New"), [DUE] * 3)
        self.assertEqual(self.changed("crates/low/specs/inside.antt", "pub mod Found", "pub mod Found\nfound = 1"), SOME)

    def test_what_has_a_name_in_another_module_too(self):
        for line, wanted in [("pub use Rattle.low.specs.Lost.{lost}", SOME), ("pub use Rattle.low.specs.Lost.{other}", [DUE] * 3), ("pub use Rattle.low.specs.Lost as it", SOME)]:
            self.assertEqual(self.changed_in("crates/low/specs/Deep.antt", "deep = 1", f"deep = lost\n{line}"), wanted)

    def test_definitions_that_cannot_be_told_apart_are_one(self):
        word, other = "crates/low/specs/Word.antt", ("crates/low/specs/Word.antt", "other = lost", "other = 2")
        for old, new in [("-- a word", "{- a word -}"), ("word :", "mutual\nword :"), ("other : ℕ\nother =", "◌other◌ : ℕ\na ◌other◌ b ="), ("other : ℕ\nother =", "  other =")]:
            changed = (word, "= lost", "= 2")
            self.assertEqual(self.changed_in(word, old, new, *changed), SOME)
        self.assertEqual(self.changed_in("crates/high/src/lib.rt", "word + two", "word + two + other", *other), SOME)

    def test_what_names_a_definition(self):
        two, code = "crates/high/specs/Two.antt", "crates/high/src/lib.rt"
        for path in ("Nowhere.{it}", "{Lost}", "contracts.lost.Lost.{it}", "declared.lost.{Lost}", "Lost.{lost as it}"):
            self.assertEqual(self.changed_in(two, "two : ℕ\ntwo = Found", f"use Rattle.low.specs.{path}\ntwo : ℕ\ntwo = it Lost.lost"), SOME)
        for path in ("contracts.one.{it}", "contracts.found.Found.{it}"):
            self.assertEqual(self.changed_in(two, "two : ℕ\ntwo = Found", f"use Rattle.low.specs.{path}\ntwo : ℕ\ntwo = it"), [DUE] * 3)
        for path in ("low as low", "{low}"):
            self.assertEqual(self.changed_in(two, "two : ℕ\ntwo = Found", f"use Rattle.{path}\ntwo : ℕ\ntwo = low.specs.Lost.lost"), SOME)
        self.assertEqual(self.changed_in("crates/high/proofs/two/Answers.antt", "= 2", "= Rattle.low.specs.Lost.lost"), SOME)
        self.assertEqual(self.changed_in("crates/high/proofs/Lemmas.antt", "= 2", "= Rattle.low.specs.Lost.lost"), SOME)
        self.assertEqual(self.changed_in("crates/low/src/lib.rt", "// low", "pub use lost::Lost as Kept;"), SOME)
        self.assertEqual(self.changed_in(code, "// as it is\n", "Lost::three();\n"), SOME)
        self.assertEqual(self.changed_in(code, "use low::Kept", "use low::Lost as Kept"), SOME)
        self.assertEqual(self.changed_in(code, "\n    3", "\n    Lost::three()"), [DUE, DUE, MUST])
        self.assertEqual(self.changed_in(code, "// as it is", "// as Lost is"), [DUE] * 3)
        self.assertEqual(self.changed_in("crates/high/proofs/Lemmas.antt", "-- a", "-- Rattle has a"), [DUE] * 3)
        self.assertEqual(self.changed_in("crates/low/src/lib.rt", "\n    1\n", "\n    Lost::one()\n"), [DUE] * 3)
        self.assertEqual(self.changed_in("crates/high/wrong/one_more.edit", "+ 2", "+ Lost::two()"), [MUST, DUE, DUE])

    def test_a_method_counts_once_its_type_does(self):
        code, turned = "crates/high/src/lib.rt", ("crates/low/specs/Turned.antt", "= 1", "= 2")
        self.assertEqual(self.changed_in(code, "// as it is\n", "it.turn();\n", *turned), [DUE] * 3)
        self.assertEqual(self.changed_in(code, "// as it is\n", "let it: Turn = it.turn();\n", *turned), SOME)
        files = {**FILES, "crates/low/src/kept.rt": FILES["crates/low/src/kept.rt"].replace("at: Place", "at: Turn")}
        for body, wanted in [("// as it is\n", [DUE] * 3), ("kept.at.turn();\n", SOME)]:
            files[code] = FILES[code].replace("// as it is\n", body)
            self.known = Known()
            for label, key in keys(files).items():
                self.known.note(label, key)
            self.assertEqual(self.changed(*turned, files), wanted)

    def test_what_another_crate_cannot_name_is_not_reached_by_its_word(self):
        named = {**FILES, "crates/high/src/lib.rt": FILES["crates/high/src/lib.rt"].replace("// as it is\n", "Lost::three();\n")}
        for shown, wanted in [("pub struct Lost", SOME), ("pub struct Alone", [DUE] * 3), ("use place::Place as Lost;\npub struct Alone", [DUE] * 3)]:
            text = FILES["crates/low/src/lost.rt"].replace("pub struct Lost", shown).replace("for Lost", "for Lost" if wanted == SOME else "for Alone")
            files = {**named, "crates/low/src/lost.rt": text}
            self.known = Known()
            for label, key in keys(files).items():
                self.known.note(label, key)
            self.assertEqual(self.changed("crates/low/specs/Lost.antt", "= 1", "= 2", files), wanted)

    def test_what_only_a_crate_can_use_of_its_types_is_not_reached_from_above(self):
        model = "ghost use Rattle.low.specs.Lost.{lost};\npub struct Kept {\n    at: u8,\n}\nimpl Model for Kept {\n    ghost Value = { ℕ };\n    ghost view = { seen };\n    ghost invariant = { held };\n}\n"
        lost = ("crates/low/specs/Lost.antt", "= 1", "= 2")
        for old, new, wanted in [
            ("seen", "lost", [DUE] * 3),
            ("held", "lost s.at", [DUE] * 3),
            ("at: u8", "at: Lost", [DUE] * 3),
            ("ℕ", "lost", SOME),
            ("at: u8", "pub at: Lost", SOME),
            ("at: u8", "at: Lost,\n    pub other: u8", SOME),
            ("at: u8,", "at: u8,\n    ghost it: { lost },", SOME),
            ("Model for Kept", "Other for Kept", SOME),
        ]:
            text = model.replace(old, new).replace("seen", "lost" if "Other" in new else "seen")
            files = {**FILES, "crates/low/src/kept.rt": text}
            self.known = Known()
            for label, key in keys(files).items():
                self.known.note(label, key)
            self.assertEqual(self.changed(*lost, files), wanted, (old, new))

    def test_what_only_a_crate_can_use_of_its_types_is_reached_in_it(self):
        code = "ghost use Rattle.high.specs.Two.{second};\npub struct Kept {\n    at: u8,\n}\nimpl Model for Kept {\n    ghost Value = { ℕ };\n    ghost invariant = { second };\n}\n"
        files = {**FILES, "crates/high/src/kept.rt": code}
        self.known = Known()
        for label, key in keys(files).items():
            self.known.note(label, key)
        self.assertEqual(self.changed("crates/high/specs/Two.antt", "second = 4", "second = 3", files), SOME)

    def test_under_another_kit(self):
        self.assertEqual(self.standings(keys(FILES, "kit-1 logic a")), [HELD] * 3)
        self.assertEqual(self.standings(keys(FILES, "kit-2 logic a")), [DUE] * 3)
        self.assertEqual(self.standings(keys(FILES, "kit-1 logic b")), [MUST] * 3)
        self.assertEqual(self.standings(keys(FILES, "a kit that says it otherwise")), [MUST] * 3)


class Refused(unittest.TestCase):
    def test_it_is_read_back(self):
        known = Known()
        known.note("a/x", Key("1" * 16, "2" * 16, "kit-1"))
        again = Known(known.text() + "# Seen elsewhere.\na/y 12\na/z\n\n")
        self.assertEqual(again.keys, known.keys)
        self.assertEqual(again.comments, [*known.comments, "# Seen elsewhere."])
        self.assertEqual(Known(again.text()).text(), again.text())

    def test_what_was_not_refused_must_be_tried(self):
        known, key = Known(), Key("1" * 16, "2" * 16, "kit-1")
        self.assertEqual(known.standing("a/x", key), MUST)
        known.note("a/x", key)
        self.assertEqual([known.standing("a/x", key), known.standing("a/x", None)], [HELD, MUST])
        known.note("a/x", None)
        self.assertEqual(known.standing("a/x", key), MUST)


    def test_it_is_believed_at_so_many_gates(self):
        known, key = Known(), Key("1" * 16, "2" * 16, "kit-1")
        known.gates = 3
        known.note("a/x", key)
        known.gates += BELIEVED
        self.assertEqual(known.standing("a/x", key), HELD)
        known = Known(known.text())
        known.gates += 1
        self.assertEqual(known.standing("a/x", key), MUST)
        known.note("a/x", key)
        self.assertEqual(Known(known.text()).standing("a/x", key), HELD)


class Drawn(unittest.TestCase):
    def test_a_part_is_drawn_and_each_crate_by_some_lot(self):
        numbers = {f"crate_{it}": 5 for it in range(32)}
        each = [drawn(f"lot {it}", numbers) for it in range(60)]
        self.assertEqual({len(it) for it in each}, {len(numbers) // PARTS})
        self.assertEqual(set().union(*each), {*numbers})
        self.assertEqual(drawn("lot 1", numbers), each[1])
        self.assertEqual(drawn("lot 1", {}), set())

    def test_of_each_function_some_are_tried_and_each_by_some_lot(self):
        edit = lambda name, *places: types.SimpleNamespace(label=name, places=lambda: {*places})
        edits = [*(edit(f"one_{it}", "one") for it in range(OF_ONE + 4)), edit("two", "two"), edit("a constant")]
        each = [{it.label for it in few(f"lot {lot}", edits)} for lot in range(60)]
        self.assertEqual({sum(it.startswith("one") for it in found) for found in each}, {OF_ONE})
        self.assertTrue(all({"two", "a constant"} <= found for found in each))
        self.assertEqual(set().union(*each), {it.label for it in edits})
        both = few("lot 1", [edit(f"both_{it}", "one", "two") for it in range(OF_ONE + 1)])
        self.assertEqual(len(both), OF_ONE)


class Twins(unittest.TestCase):
    def refused(self, control, twin):
        """The edits that are refused side by side where the check says this of the function's own body and of the edit's, and the texts that it was given."""
        given = {}
        with tempfile.TemporaryDirectory(prefix="known-") as top:
            for path, text in FILES.items():
                os.makedirs(os.path.dirname(f"{top}/{path}"), exist_ok=True)
                with open(f"{top}/{path}", "w", encoding="utf-8") as it:
                    it.write(text)
            crate = next(it for it in rtlib.crates_below(top) if it.name == "high")
            wrong = Wrong(crate, [f"{crate.folder}/wrong/{name}" for name in sorted(os.listdir(f"{crate.folder}/wrong"))])
            for it in wrong.edits:
                it.turn = FIRST
            trial = Trial(wrong, wrong.edits, None, None, lambda _: None)

            def check(texts, only):
                given.update(texts)
                return f"fn high::two_twin0: {control}\nfn high::two_twin1: {twin}\nlogic=not-proved functions=2", 1

            trial.check = check
            return [it.label for it in trial.side_by_side([it for it in wrong.edits if it.function()])], given

    def test_a_twin_has_the_contract_and_the_proof_files_of_its_function(self):
        found, texts = self.refused("proved", "not proved (`returns`)")
        self.assertEqual([BODY], found)
        text = texts["src/lib.rt"]
        self.assertIn("pub fn two(kept: Kept) -> u8\nensures it { result == word + two }\n{\n    // as it is\n    one() + 1\n}", text)
        self.assertIn("pub fn two_twin0(kept: Kept) -> u8\nensures it { result == word + two }\n{\n    // as it is\n    one() + 1\n}", text)
        self.assertIn("pub fn two_twin1(kept: Kept) -> u8\nensures it { result == word + two }\n{\n    // as it is\n    one() + 2\n}", text)
        self.assertEqual({"src/lib.rt", "proofs/two_twin0/Answers.antt", "proofs/two_twin1/Answers.antt"}, {*texts})

    def test_nothing_counts_where_the_own_body_is_not_proved_under_another_name(self):
        self.assertEqual([], self.refused("not proved (`returns`)", "not proved (`returns`)")[0])

    def test_those_of_a_function_with_few_are_not_tried_so_and_the_others_in_checks_that_are_not_too_large(self):
        edits = lambda name, number: [types.SimpleNamespace(function=lambda: name) for _ in range(number)]
        self.assertEqual([], groups(edits("one", MOST_ROUNDS) + edits(None, 9)))
        large = groups(edits("one", MOST_TWINS) + edits("two", 3) + edits("three", 3))
        self.assertEqual([MOST_TWINS, 6], [len(it) for it in large])

    def test_what_is_proved_or_fails_through_another_is_not_refused(self):
        self.assertEqual([], self.refused("proved", "proved")[0])
        self.assertEqual([], self.refused("proved", "no proof: it calls `high::one`, which is not proved")[0])


class Shares(unittest.TestCase):
    def test_a_trial_takes_one_processor_unless_few_are_left(self):
        lanes = Lanes(False, float("inf"))
        lanes.number, lanes.waiting, lanes.room = 4, [None], lambda: 1e12
        shares = lambda: [lanes.share(it, 1e9, 4) for it in (BUILD, FIRST, LATER)]
        lanes.trials = 4
        self.assertEqual(shares(), [4, 1, 1])
        lanes.trials = 3
        self.assertEqual(shares(), [4, 4, 4])
        lanes.is_beside = True
        self.assertEqual(shares(), [2, 1, 1])


class Stamps(unittest.TestCase):
    def test_a_stamp_reads_each_crate_once_and_the_next_stamp_anew(self):
        class Crate:
            read = []
            text = "1"

            def __init__(self, name, *deps):
                self.name, self.deps = name, deps

            def stamp(self):
                self.read.append(self.name)
                return [self.name, self.text, *[it.stamp() for it in self.deps]]

        low = Crate("low")
        middle = Crate("middle", low)
        high = Crate("high", low, middle)
        wanted = high.stamp()
        self.assertEqual(Crate.read.count("low"), 2)
        Crate.stamp, Crate.read = read_once(Crate.stamp), []
        self.assertEqual(high.stamp(), wanted)
        self.assertEqual(sorted(Crate.read), ["high", "low", "middle"])
        Crate.text = "2"
        self.assertNotEqual(high.stamp(), wanted)

    def test_what_is_below_a_crate_is_listed_once_and_each_has_a_list_of_its_own(self):
        class Crate:
            listings = 0

            def __init__(self, *deps):
                self.deps = deps

            def below(self):
                Crate.listings += 1
                found = []
                for dep in self.deps:
                    found += [it for it in [*dep.below(), dep] if it not in found]
                return found

        low = Crate()
        middle = Crate(low)
        high = Crate(low, middle)
        wanted = high.below()
        self.assertEqual(wanted, [low, middle])
        Crate.below, Crate.listings = listed_once(Crate.below), 0
        high.below().clear()
        self.assertEqual(high.below(), wanted)
        self.assertEqual(middle.below(), [low])
        self.assertEqual(Crate.listings, 3)


if __name__ == "__main__":
    unittest.main()
