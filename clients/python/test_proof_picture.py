#!/usr/bin/env python3
"""Tests of proof_picture: what is read of proofs, inputs and explanations, and what is drawn of it. Where Graphviz is there, it draws.

    clients/python/test_proof_picture.py

Prints `N tests of the pictures pass` and ends with 0, or what failed and ends with 1.
"""
from __future__ import annotations

import io
import re
import shutil
import subprocess
import sys
import unittest
from pathlib import Path

sys.path.insert(0, str(Path(__file__).resolve().parent))

import proof_picture
from proof_picture import Picture, dot_of, read_text, take_answer

TWO = "proof 2\n1 label : a says (p => q)\n2 label : a.b says p\n3 deduce 1 2 : a says q\nend\n"


def answered(text: str, answer: str) -> Picture:
    picture = read_text(text)
    take_answer(picture, answer)
    return picture


def box(picture: Picture, number: int) -> str:
    """What is drawn of a line."""
    found = re.search(rf"^    line{number} \[(.*)\];$", dot_of(picture), re.MULTILINE)
    assert found
    return found[1]


def arrows(picture: Picture) -> list[str]:
    return re.findall(r"^    (\w+ -> \w+ \[.*\]);$", dot_of(picture), re.MULTILINE)


class Reading(unittest.TestCase):
    def test_a_line(self) -> None:
        for text in ["proof 2 ; 1 exists_i 1 [a.b] : exists ?x : p ; end", "proof 1\n1\texists_i 1[ a.b ]:  exists ?x : p  \n end\n"]:
            line = read_text(text).lines[0]
            self.assertEqual((line.number, line.rule, line.references, (line.term or "").strip(), line.formula), (1, "exists_i", (1,), "a.b", "exists ?x : p"))
        term = read_text('proof 2;1 forall_e 1 ["a]: b"] : p("a]: b");end').lines[0]
        self.assertEqual((term.term, term.formula), ('"a]: b"', 'p("a]: b")'))

    def test_the_input_of_check(self) -> None:
        head = "nexus check 1\nsubject a\nlabel a says (p => q)\nlabel a says goal\ngoal a says q\n"
        picture = read_text(head + TWO)
        self.assertEqual((picture.heading, len(picture.lines)), ("goal a says q", 3))

    def test_what_is_no_proof(self) -> None:
        for text in [
            "", "proof 2", "proof 2 ; end", "proof 3 ; 1 hyp : p ; end", "proof 2 ; 1 hyp : p", "proof 2 ; 2 hyp : p ; end", "proof 2 ; 1 hyp p ; end",
            "proof 2 ; 1 : p ; end", "proof 2 ; 1 hyp : ; end", "proof 2 ; 1 hyp : p ; 1 hyp : p ; end", "proof 2 ; 1 hyp : p ; end ; x",
            "nexus check 1\nsubject a\nproof 2\n1 hyp : p\nend\n", "denied", "allowed", "policy",
        ]:  # fmt: skip
            with self.subTest(text), self.assertRaises(ValueError):
                read_text(text)

    def test_explanations(self) -> None:
        """What a call was answered, with what was found of each line."""
        picture = read_text("allowed 12\nobject 1 fs\ngoal 3 : fs says may(bob)\nproof 12\n1 label : fs says may(bob) ; held 5 9\n")
        self.assertEqual(picture.heading, "allowed 12\nobject 1 fs\ngoal 3 : fs says may(bob)\nproof 12")
        self.assertEqual((picture.lines[0].found, picture.lines[0].is_wrong), ("entry 5, handed over by 9", False))
        for found, told, is_wrong, is_asked in [
            ("held 5 5", "entry 5", False, True), ("missing", "missing", True, True), ("NotGoal", "NotGoal", True, True), ("0 yes", "port 0: yes", False, True),
            ("0 no", "port 0: no", True, True), ("3 not asked", "port 3: not asked", False, False), ("not bound", "not bound", True, True),
        ]:  # fmt: skip
            with self.subTest(found):
                line = read_text(f"denied 4 NotBound 1\nobject 1 a\ngoal -\nproof 4\n1 ask : a.c says ok ; {found}\n").lines[0]
                self.assertEqual((line.found, line.is_wrong, line.is_asked), (told, is_wrong, is_asked))
        for text in ["refused 4 NoSuchObject\n", "denied 11 NoProof\nobject 1 fs\ngoal 3 : fs says may(bob)\nproof -\n"]:
            self.assertEqual(read_text(text), Picture([], text.rstrip("\n")))
        for row in ["1 ask : a says ok ; maybe", "2 hyp : p", "1 hyp p"]:
            with self.subTest(row), self.assertRaises(ValueError):
                read_text(f"allowed 4\nobject 1 a\ngoal -\nproof 4\n{row}\n")

    def test_answers(self) -> None:
        for answer, number, found in [
            ("denied Line 3 WrongShape", 3, "WrongShape"), ("denied 12 Line 2 NotAsk", 2, "NotAsk"), ("denied LabelMissing 2", 2, "LabelMissing"),
            ("denied 4 AuthorityNo 1", 1, "AuthorityNo"), ("down 4 2", 2, "no answer"),
        ]:  # fmt: skip
            with self.subTest(answer):
                wrong = [(line.number, line.found) for line in answered(TWO, answer).lines if line.is_wrong]
                self.assertEqual(wrong, [(number, found)])
        for answer in ["allowed", "allowed 4 1 0", "denied 4 NoProof", "denied GoalUnset"]:
            self.assertFalse(any(line.is_wrong for line in answered(TWO, answer).lines))
        for answer in ["", "yes", "denied", "denied Line 4 NotGoal", "denied Line 0 NotGoal", "denied Line 1 NotGood", "denied Nothing 1", "refused line 1", "down 4"]:
            with self.subTest(answer), self.assertRaises(ValueError):
                answered(TWO, answer)


class Drawing(unittest.TestCase):
    def test_who_said_it(self) -> None:
        picture = read_text(TWO)
        self.assertIn("<B>a says</B><BR/>(p =&gt; q)", box(picture, 1))
        self.assertIn("<B>a.b says</B><BR/>p", box(picture, 2))
        self.assertIn("<BR/>a says q>", box(picture, 3))
        asked = read_text('proof 2;1 ask : "the clock".c says TimeNow < 5;end')
        self.assertIn("<B>&quot;the clock&quot;.c is asked</B><BR/>TimeNow &lt; 5", box(asked, 1))

    def test_the_faulty_line_is_red(self) -> None:
        picture = answered(TWO, "denied Line 3 NotGoal")
        self.assertEqual(['color="#b00000"' in box(picture, number) for number in [1, 2, 3]], [False, False, True])
        self.assertIn('<FONT COLOR="#b00000"><B>NotGoal</B></FONT>', box(picture, 3))

    def test_the_last_line_is_thick(self) -> None:
        self.assertEqual(["penwidth=2.5" in box(read_text(TWO), number) for number in [1, 2, 3]], [False, False, True])

    def test_arrows(self) -> None:
        self.assertEqual(arrows(read_text(TWO)), ['line1 -> line3 [label="1"]', 'line2 -> line3 [label="2"]'])
        for text, wanted in [
            ("1 hyp : p;2 imp_i 1 1 : p => p", ['line1 -> line2 [label="1,2"]']),
            ("1 hyp : p;2 true_i : true;3 imp_i 1 2 : p => true", ['line1 -> line3 [label="1", style="dashed"]', 'line2 -> line3 [label="2"]']),
            ("1 and_l 2 : p;2 and_l 0 : p", ['line2 -> line1 [label=""]', 'none2_0 -> line2 [label=""]']),
            ("1 sf_refl : a speaksfor a", []),
        ]:
            with self.subTest(text):
                self.assertEqual(arrows(read_text(f"proof 2;{text};end")), wanted)

    def test_long_formulas_are_broken_at_blanks(self) -> None:
        formula = "a says (" + " and ".join(["p"] * 40) + ")"
        drawn = box(read_text(f"proof 2;1 hyp : {formula};end"), 1)
        rows = re.sub(r"<FONT.*?</FONT><BR/>", "", drawn.split("=<", 1)[1].split(">, ", 1)[0]).split("<BR/>")
        self.assertEqual(" ".join(rows), formula)
        self.assertLessEqual(max(map(len, rows)), 38)

    def test_the_longest_proof(self) -> None:
        text = "proof 2" + "".join(f";{k} true_i : true" for k in range(1, 257)) + ";end"
        self.assertEqual(dot_of(read_text(text)).count("true_i"), 256)

    def test_graphviz(self) -> None:
        if shutil.which("dot") is None:
            self.skipTest("there is no dot")
        words = [sys.executable, "-B", proof_picture.__file__, "--answer", "denied Line 3 NotGoal"]
        drawn = subprocess.run(words, input=TWO.encode(), stdout=subprocess.PIPE, timeout=60)
        told = re.findall(r"<text[^>]*>(.*?)</text>", drawn.stdout.decode())
        self.assertEqual((drawn.returncode, {"a says", "a.b says", "(p =&gt; q)", "NotGoal"} - set(told)), (0, set()))
        ended = subprocess.run(words, input=b"proof\xff", stdout=subprocess.PIPE, stderr=subprocess.PIPE, timeout=60)
        self.assertEqual((ended.returncode, ended.stdout), (2, b""))


def main() -> int:
    told = io.StringIO()
    result = unittest.TextTestRunner(stream=told).run(unittest.defaultTestLoader.loadTestsFromModule(sys.modules[__name__]))
    if not result.wasSuccessful():
        print(told.getvalue(), end="")
        return 1
    print(f"{result.testsRun - len(result.skipped)} tests of the pictures pass")
    return 0


if __name__ == "__main__":
    sys.exit(main())
