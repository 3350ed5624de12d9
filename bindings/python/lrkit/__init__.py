"""LR parsers from Yacc grammars, with a checked table.

    from lrkit import Parser, SyntaxFault

    parser = Parser.from_text(grammar, lexer)
    try:
        tree = parser.parse("1 + 2 * 3")
        print(tree.sexp())
    except SyntaxFault as fault:
        print(fault.start, fault.expected)

Offsets count characters of the text that was passed. The package calls the library `liblrkit.so`: it is looked for where the
variable LRKIT_LIBRARY says, then beside this file, then where the system looks.
"""

from ._errors import FileFault, GrammarFault, LexemeFault, LexerFault, LexingFault, LrkitError, ParseFault, SyntaxFault
from ._parser import Counts, Lexeme, Parser, Report, import_text, report
from ._repairs import Step, TextError
from ._tree import Node

__all__ = [
    "Counts", "FileFault", "GrammarFault", "LexemeFault", "Lexeme", "LexerFault", "LexingFault", "LrkitError", "Node", "ParseFault", "Parser", "Report",
    "Step", "SyntaxFault", "TextError", "import_text", "report",
]
__version__ = "0.1.0"
