"""Values of lines, by a parser."""

from lrkit import Node, ParseFault, Parser

GRAMMAR = """%token NUM
%left '+' '-'
%left '*' '/'
%%
E: E '+' E | E '-' E | E '*' E | E '/' E | '(' E ')' | NUM;
"""
LEXER = r"""%%
[0-9]+ "NUM"
\+ "+"
- "-"
\* "*"
/ "/"
\( "("
\) ")"
[ \t\n]+ ;
"""


def value(node: Node) -> float:
    """Computes the value of a node."""
    parts = node.children
    if node.is_lexeme:
        return float(node.text)
    if len(parts) == 1:
        return value(parts[0])
    if parts[0].name == "(":
        return value(parts[1])
    left, right = value(parts[0]), value(parts[2])
    return {"+": left + right, "-": left - right, "*": left * right, "/": left / right if right else 0.0}[parts[1].name]


def main() -> None:
    parser = Parser.from_text(GRAMMAR, LEXER)
    for line in ("1 + 2 * 3", "(1 + 2) * 3", "2 * (3 +"):
        try:
            print(f"{line}: {value(parser.parse(line)):g}")
        except ParseFault as fault:
            print(f"{line}: {fault}")


if __name__ == "__main__":
    main()
