"""The package's own calls."""

import json
import unittest

from lrkit import Counts, GrammarFault, Lexeme, LexemeFault, LexerFault, LexingFault, LrkitError, Parser, Step, SyntaxFault, TextError, report

GRAMMAR = "%token NUM\n%left '+'\n%left '*'\n%%\nE: E '+' E | E '*' E | NUM;\n"
LEXER = '%%\n[0-9]+ "NUM"\n\\+ "+"\n\\* "*"\n[ \\n]+ ;\n'


class Package(unittest.TestCase):
    def setUp(self) -> None:
        self.parser = Parser.from_text(GRAMMAR, LEXER)

    def tearDown(self) -> None:
        self.parser.close()

    def test_tree(self) -> None:
        tree = self.parser.parse("1 + 2 * 3")
        self.assertEqual(tree.sexp(), "(E (E 1) + (E (E 2) * (E 3)))")
        self.assertEqual([it.text for it in tree.lexemes()], ["1", "+", "2", "*", "3"])
        self.assertEqual((tree.start, tree.end, tree.text), (0, 9, "1 + 2 * 3"))

    def test_error(self) -> None:
        with self.assertRaises(SyntaxFault) as caught:
            self.parser.parse("1 + * 2")
        fault = caught.exception
        self.assertEqual((fault.start, fault.end, fault.token, fault.expected), (4, 5, "*", ["NUM"]))
        self.assertEqual(str(fault), "unexpected '*' at 4, expected NUM")
        with self.assertRaises(SyntaxFault) as caught:
            self.parser.parse("1 2")
        self.assertEqual(sorted(caught.exception.expected), ["", "*", "+"])

    def test_errors(self) -> None:
        found = self.parser.errors("1 + * 2", edits=1)
        self.assertEqual(found, [TextError(4, 5, "*", ["NUM"], [[Step("delete", "*", 4, 5)], [Step("insert", "NUM")]])])
        self.assertEqual(str(found[0].repairs[0][0]), "delete *")
        self.assertEqual(self.parser.errors("1 + 2"), [])
        self.assertEqual(self.parser.errors("1 + * 2", edits=0), [TextError(4, 5, "*", ["NUM"])])
        self.assertEqual([(it.start, it.token, it.expected, it.repairs) for it in self.parser.errors("1 + é 2")], [(4, None, [], [])])
        lexemes = self.parser.lex("1 + * 2")
        self.assertEqual(self.parser.lexeme_errors(lexemes, "1 + * 2", 1), found)
        self.assertEqual(self.parser.parse_lexemes_json(lexemes, "1 + * 2", 1), self.parser.parse_json("1 + * 2", "", 1))
        self.assertEqual(json.loads(self.parser.parse_json("1 +", "sum.txt", 1))["errors"][0]["expected"], ["NUM"])

    def test_characters(self) -> None:
        with self.assertRaises(LexingFault) as caught:
            self.parser.parse("1 + é 2")
        self.assertEqual((caught.exception.start, caught.exception.expected), (4, ["NUM"]))
        parser = Parser.from_text("%token W\n%%\nS: W | S W;\n", '%%\n[^ ]+ "W"\n[ ]+ ;\n')
        self.assertEqual([(it.start, it.end, it.text) for it in parser.parse("äö é").lexemes()], [(0, 2, "äö"), (3, 4, "é")])
        self.assertEqual(parser.lex("äö é"), [Lexeme("W", 0, 2), Lexeme("W", 3, 1)])
        self.assertEqual(parser.parse_lexemes(parser.lex("äö é"), "äö é").sexp(), "(S (S äö) é)")

    def test_lexemes(self) -> None:
        parser = Parser.from_text(GRAMMAR)
        lexemes = [Lexeme("NUM", 0, 1), Lexeme("+", 2, 1), Lexeme("NUM", 4, 1)]
        self.assertEqual(parser.parse_lexemes(lexemes, "1 + 2").sexp(), "(E (E 1) + (E 2))")
        self.assertEqual(sorted(parser.expected(lexemes[:1])), ["", "*", "+"])
        self.assertEqual(parser.expected(lexemes[:2]), ["NUM"])
        with self.assertRaises(LexemeFault):
            parser.parse_lexemes([Lexeme("NUM", 5, 1), Lexeme("+", 2, 1)])
        with self.assertRaises(KeyError):
            parser.parse_lexemes([Lexeme("none", 0, 1)])
        with self.assertRaises(LrkitError):
            parser.parse("1")

    def test_lexeme_lists(self) -> None:
        parser = Parser.from_text("%token A B\n%%\nS: | S A | S B;\n")
        self.assertEqual(parser.parse_lexemes([]).sexp(), "(S)")
        text = "äöäbb" * 5000
        lexemes = [it for at in range(0, len(text), 5) for it in (Lexeme("A", at, 3), Lexeme("B", at + 3, 2))]
        found = list(parser.parse_lexemes(tuple(lexemes), text).lexemes())
        self.assertEqual([(it.name, it.start, it.end, it.text) for it in found], [(it.token, it.start, it.start + it.length, text[it.start : it.start + it.length]) for it in lexemes])
        with self.assertRaises(KeyError) as caught:
            parser.parse_lexemes([Lexeme("A", 0, 1), Lexeme("first", 1, 1), Lexeme("other", 2, 1)])
        self.assertEqual(caught.exception.args, ("first",))
        for lexeme in (Lexeme("A", -1, 1), Lexeme("A", 0, -1), Lexeme("A", 1 << 64, 1)):
            with self.assertRaises(LexemeFault):
                parser.parse_lexemes([lexeme])
        with self.assertRaises(LexemeFault):
            parser.parse_lexemes([Lexeme("A", -1, 1)], text)

    def test_errors_of_lists(self) -> None:
        parser = Parser.from_text(GRAMMAR)
        text = "é + 22 22"
        lexemes = [Lexeme("NUM", 0, 1), Lexeme("+", 2, 1), Lexeme("NUM", 4, 2), Lexeme("NUM", 7, 2)]
        with self.assertRaises(SyntaxFault) as caught:
            parser.parse_lexemes(lexemes, text)
        fault = caught.exception
        self.assertEqual((fault.start, fault.end, fault.token, sorted(fault.expected)), (7, 9, "NUM", ["", "*", "+"]))
        with self.assertRaises(SyntaxFault) as caught:
            parser.parse_lexemes([])
        self.assertEqual((caught.exception.token, caught.exception.expected), ("", ["NUM"]))

    def test_counts(self) -> None:
        self.assertEqual(self.parser.counts, Counts(tokens=4, rules=2, productions=4, shift_reduce=0, reduce_reduce=0))
        self.assertEqual(Parser.from_text("%% E: E '+' E | 'n';").counts.shift_reduce, 1)

    def test_refusals(self) -> None:
        with self.assertRaises(GrammarFault) as caught:
            Parser.from_text("%% S: T;")
        self.assertIn("grammar:1:7: error", str(caught.exception))
        with self.assertRaises(LexerFault) as caught_too:
            Parser.from_text(GRAMMAR, "%%\n[ \"NUM\"\n")
        self.assertIn("lexer:2:", str(caught_too.exception))
        self.parser.close()
        with self.assertRaises(LrkitError):
            self.parser.parse("1")

    def test_report(self) -> None:
        found = report("%% E: E '+' E | 'n';", "sums.y")
        self.assertEqual(found.outcome, 1)
        self.assertIn("sums.y:1:", found.text)
        self.assertEqual(report("%% S: 'a';").outcome, 0)
        self.assertEqual(report("%% S").outcome, 2)

    def test_report_with_states(self) -> None:
        states = report("%% S: 'a' S | ;", states=True).text.split("States:\n")[1]
        self.assertEqual(states.splitlines()[:5], ["0: [S -> . 'a' S, {'$'}]", "   [S -> ., {'$'}]", "   [^ -> . S, {'$'}]", "   S -> 1", "   'a' -> 2"])

    def test_report_as_json(self) -> None:
        found = report("%% E: E '+' E | 'n';", "sums.y", json=True)
        made = json.loads(found.text)
        self.assertEqual((found.outcome, made["status"], made["counts"]["shift_reduce"]), (1, 1, 1))
        self.assertEqual(json.loads(report("%% S", json=True).text)["errors"][0]["severity"], "error")


if __name__ == "__main__":
    unittest.main()
