"""Prints the report on each grammar file, Bison's too: `python3 check_grammar.py FILE ..`."""

import sys

from lrkit import import_text, report


def main() -> int:
    worst = 0
    for path in sys.argv[1:]:
        with open(path, encoding="utf-8") as it:
            text = it.read()
        found = report(text, path)
        if found.outcome == 2:
            found = report(import_text(text), path)
        print(found.text, end="")
        worst = max(worst, found.outcome)
    return worst


if __name__ == "__main__":
    sys.exit(main())
