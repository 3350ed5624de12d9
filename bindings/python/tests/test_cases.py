"""The cases of bindings/cases."""

import os
import threading
import unittest
from typing import Dict, Iterator, List

import lrkit

CASES = os.path.join(os.path.dirname(os.path.abspath(__file__)), "..", "..", "cases", "cases.txt")


def cases() -> Iterator[Dict[str, str]]:
    """Yields the cases: what each mark's lines have, with an LF between them."""
    with open(CASES, encoding="utf-8", newline="") as it:
        blocks = it.read().split("\n\n")
    for block in filter(None, blocks):
        parts: Dict[str, List[str]] = {}
        for line in block.split("\n"):
            parts.setdefault(line[0], []).append(line[1:])
        yield {mark: "\n".join(lines) for mark, lines in parts.items()}


def shown(tree: lrkit.Node) -> str:
    """Writes a tree as a line for each node."""
    lines, left = [], [(tree, 0)]
    while left:
        node, depth = left.pop()
        lines.append(" " * depth + (f"{node.name} {node.text}" if node.is_lexeme else node.name))
        left.extend((child, depth + 1) for child in reversed(node.children))
    return "\n".join(lines)


def errors(parser: lrkit.Parser, text: str, edits: int) -> str:
    """Writes all errors: a line for each, for the first eight tokens that may come there, and for each repair."""
    found = parser.errors(text, edits)
    if len(found) == 1 and found[0].token is None:
        return f"!unlexed {len(text[: found[0].start].encode())}"
    assert parser.lexeme_errors(parser.lex(text), text, edits) == found
    lines = []
    for error in found:
        names = [it or "$" for it in error.expected]
        more = [f"+{len(names) - 8}"] if len(names) > 8 else []
        lines += [f"error {len(text[: error.start].encode())}", " ".join(["expected", *names[:8], *more])]
        for repair in error.repairs:
            lines.append("repair " + ", ".join(f"{it.edit} {it.token if it.start is None else text[it.start : it.end]}" for it in repair))
    return "\n".join(lines)


def parsed(parser: lrkit.Parser, case: Dict[str, str]) -> str:
    """Returns what a parser answers to a text."""
    kind, *edits = case["@"].split()
    if kind == "errors":
        return errors(parser, case["<"], int(edits[0]))
    if kind == "object":
        return parser.parse_json(case["<"], "g.txt", int(edits[0])).rstrip("\n")
    return shown(parser.parse(case["<"]))


def answer(case: Dict[str, str]) -> str:
    """Returns what the library answers, as a case says it."""
    if case["@"] == "report":
        return f"!outcome {lrkit.report(case['|'], 'g.y').outcome}"
    try:
        if case["@"] == "import":
            return lrkit.import_text(case["|"])
        with lrkit.Parser.from_text(case["|"], case["$"]) as parser:
            return parsed(parser, case)
    except lrkit.FileFault:
        return "!file 0"
    except lrkit.GrammarFault:
        return "!grammar 0"
    except lrkit.LexingFault as fault:
        return f"!unlexed {len(case['<'][: fault.start].encode())}"
    except lrkit.SyntaxFault as fault:
        return f"!syntax {len(case['<'][: fault.start].encode())}"


class Cases(unittest.TestCase):
    def test_each(self) -> None:
        count = 0
        for case in cases():
            with self.subTest(case["="]):
                self.assertEqual(answer(case), f"!{case['!']}" if "!" in case else case.get(">", ""))
            count += 1
        self.assertGreaterEqual(count, 200)

    def test_threads(self) -> None:
        wrong: List[str] = []

        def run() -> None:
            wrong.extend(case["="] for case in cases() if answer(case) != (f"!{case['!']}" if "!" in case else case.get(">", "")))

        threads = [threading.Thread(target=run) for _ in range(8)]
        for it in threads:
            it.start()
        for it in threads:
            it.join()
        self.assertEqual(wrong, [])


if __name__ == "__main__":
    unittest.main()
