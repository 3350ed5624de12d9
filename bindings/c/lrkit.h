/* lrkit: LR parsers from Yacc grammars, with a checked table.
 *
 * Offsets and lengths count bytes. A text is a pointer and a length; it need not end in a zero byte, and a length of 0 goes with
 * any pointer that is not null. Rooms (`out`, `nodes`, `lexemes`, `tokens`, `marks`) are the caller's, with how many elements they have: a
 * call writes at their front, as many as its answer's `count` says, and leaves the rest alone. Where the status is LRKIT_ROOM,
 * nothing is written to the room, and `count` is how many elements are wanted.
 *
 * What the caller must uphold, since nothing checks it:
 * - each pointer is aligned and not null, and has as many elements behind it as the call is passed;
 * - no two of the memories that a call is given overlap, unless it only reads both;
 * - a parser is one that lrkit_parser_new made with status LRKIT_OK, and is freed once;
 * - a parser is in one call at a time, and calls from several threads are ordered by a lock or a join;
 * - no call comes from a signal handler, or from the child of a fork of a program with threads;
 * - malloc, realloc and free are those of one allocator, which aligns as C asks.
 */
#ifndef LRKIT_H
#define LRKIT_H

#include <stddef.h>
#include <stdint.h>

#ifdef __cplusplus
extern "C" {
#endif

/* How a call ended. lrkit_error_text has a text for each. */
enum lrkit_status {
    LRKIT_OK = 0,
    LRKIT_MEMORY = 1,   /* malloc returned null; nothing is written */
    LRKIT_NOT_UTF8 = 2, /* a text is not UTF-8 */
    LRKIT_ROOM = 3,     /* the room is too small: nothing is written to it, and the count says how much is wanted */
    LRKIT_GRAMMAR = 4,  /* the grammar's text gives no parser */
    LRKIT_LEXER = 5,    /* the lexer's text gives no lexer */
    LRKIT_FILE = 6,     /* the Bison file can't be imported */
    LRKIT_UNLEXED = 7,  /* no lexeme is at a place of the text */
    LRKIT_SYNTAX = 8,   /* the lexemes are no sentence */
    LRKIT_LEXEMES = 9,  /* a lexeme is of no token, or starts before the one in front of it */
    LRKIT_UNKNOWN = 10, /* there is no such name or number */
    LRKIT_NO_LEXER = 11 /* the parser was made without a lexer */
};

/* What a call answers: one of lrkit_status, and a count of what it wrote or wants room for. */
typedef struct {
    uint32_t status;
    size_t count;
} lrkit_answer;

/* A parser. Only the library reads and writes what is in it. */
typedef struct {
    void *at;
} lrkit_parser;

/* A lexeme: the number of its token, and its bytes in the text. */
typedef struct {
    uint32_t token;
    size_t start;
    size_t length;
} lrkit_lexeme;

/* A node of a tree. Each comes right behind its children and what is below them; the root is the last one. */
typedef struct {
    uint32_t kind;     /* 0 a lexeme, 1 a production */
    uint32_t number;   /* the token's number, or the production's */
    size_t start;      /* the byte offset at which it begins */
    size_t end;        /* the byte offset at which it ends */
    size_t children;   /* how many children it has; 0 for a lexeme */
} lrkit_node;

/* A part of a text, and the token that is there: UINT32_MAX where the lexer has none, the end token behind the last lexeme. */
typedef struct {
    uint32_t token;
    size_t start;
    size_t end;
} lrkit_place;

/* What a mark says of an error of a parse. */
enum lrkit_mark_kind {
    LRKIT_ERROR = 0,    /* an error, at the lexeme that can't come there; behind the last lexeme, at the end token */
    LRKIT_EXPECTED = 1, /* a token that may come there; each such mark is behind its error's */
    LRKIT_REPAIR = 2,   /* the beginning of a repair: its steps are the marks behind it, up to the next repair or error */
    LRKIT_INSERT = 3,   /* a step: insert a lexeme of the token in front of the next lexeme */
    LRKIT_DELETE = 4,   /* a step: delete this lexeme, which is the next one */
    LRKIT_SHIFT = 5     /* a step: keep this lexeme, which is the next one */
};

/* A part of what is said of an error. The errors of a parse are one list of marks: each error, the tokens that may come there by
 * ascending numbers, and its repairs, those with the fewest edits first. */
typedef struct {
    uint32_t kind;     /* one of lrkit_mark_kind */
    uint32_t token;    /* the token's number; UINT32_MAX for LRKIT_REPAIR, and for an error of the lexer */
    size_t start;      /* the bytes of the lexeme; 0 for LRKIT_EXPECTED, LRKIT_REPAIR and LRKIT_INSERT */
    size_t end;
} lrkit_mark;

/* What a grammar and its table have. */
typedef struct {
    size_t tokens;         /* the end token is the last one */
    size_t rules;          /* with the one that the kit adds for the start */
    size_t productions;    /* with those that the kit adds */
    size_t shift_reduce;   /* conflicts that no precedence settles */
    size_t reduce_reduce;
} lrkit_counts;

/* Writes the text of a status, in UTF-8 without a zero byte. LRKIT_UNKNOWN where it is none. */
lrkit_answer lrkit_error_text(uint32_t status, uint8_t *out, size_t room);

/* The form of a report. */
enum lrkit_form {
    LRKIT_TEXT = 0,  /* for a person */
    LRKIT_JSON = 1,  /* one JSON object and a line feed (docs/report.schema.json) */
    LRKIT_STATES = 2 /* for a person, with the closed states at the end: items, lookaheads, edges */
};

/* Writes the checker's report on a grammar's text, with places at `path` (docs/PROGRAMS.md), in a form of lrkit_form; LRKIT_UNKNOWN for
 * another number. `*outcome` is 0 where there is a parser whose conflicts are expected, 1 where there are others, 2 where there is no
 * parser. */
lrkit_answer lrkit_report(const uint8_t *text, size_t text_len, const uint8_t *path, size_t path_len, uint32_t form, uint32_t *outcome, uint8_t *out, size_t room);

/* Writes the text of a Bison or Yacc file in the kit's syntax (docs/COMING_FROM_BISON.md). With LRKIT_FILE it writes why there is none. */
lrkit_answer lrkit_import(const uint8_t *file, size_t file_len, uint8_t *out, size_t room);

/* Makes a parser of a grammar's text and a lexer's, or of the grammar alone where `lexer_len` is 0. With LRKIT_GRAMMAR or LRKIT_LEXER
 * there is no parser, and `message` has the report that says why, if it fits; `count` is its length either way. What `*parser` held
 * before is not freed. */
lrkit_answer lrkit_parser_new(const uint8_t *grammar, size_t grammar_len, const uint8_t *lexer, size_t lexer_len, lrkit_parser *parser, uint8_t *message, size_t room);

/* Frees a parser. */
void lrkit_parser_free(lrkit_parser *parser);

/* Writes how many tokens, rules, productions and conflicts there are. */
lrkit_answer lrkit_parser_counts(lrkit_parser *parser, lrkit_counts *counts);

/* Writes the number of the token of a name. LRKIT_UNKNOWN where there is none. */
lrkit_answer lrkit_token(lrkit_parser *parser, const uint8_t *name, size_t name_len, uint32_t *number);

/* Writes the name of a node's kind and number: a token's for 0, that of a production's rule for 1. The end token has an empty name. */
lrkit_answer lrkit_name(lrkit_parser *parser, uint32_t kind, uint32_t number, uint8_t *out, size_t room);

/* Lexes a text. With LRKIT_UNLEXED `*place` is where no lexeme is, and `count` lexemes in front of it are written. Where there is no room for
 * these the status is LRKIT_ROOM, and `*place` is written all the same. */
lrkit_answer lrkit_lex(lrkit_parser *parser, const uint8_t *text, size_t text_len, lrkit_lexeme *lexemes, size_t room, lrkit_place *place);

/* Parses lexemes, and writes the nodes of their tree. With LRKIT_SYNTAX `*place` is the first lexeme that can't come there. */
lrkit_answer lrkit_parse(lrkit_parser *parser, const lrkit_lexeme *lexemes, size_t lexemes_len, lrkit_node *nodes, size_t room, lrkit_place *place);

/* Lexes and parses a text, and writes the nodes of its tree. With LRKIT_UNLEXED or LRKIT_SYNTAX `*place` is the first error. */
lrkit_answer lrkit_parse_text(lrkit_parser *parser, const uint8_t *text, size_t text_len, lrkit_node *nodes, size_t room, lrkit_place *place);

/* Does the same by the texts of a grammar and a lexer, and keeps no parser. With LRKIT_GRAMMAR or LRKIT_LEXER nothing is written:
 * lrkit_parser_new says why. */
lrkit_answer lrkit_parse_once(const uint8_t *grammar, size_t grammar_len, const uint8_t *lexer, size_t lexer_len, const uint8_t *text, size_t text_len, lrkit_node *nodes, size_t room, lrkit_place *place);

/* Writes the numbers of the tokens that may come behind lexemes, ascending; the end token is the last one, where they are a sentence.
 * LRKIT_SYNTAX where the lexemes themselves have an error: pass those in front of it. */
lrkit_answer lrkit_expected(lrkit_parser *parser, const lrkit_lexeme *lexemes, size_t lexemes_len, uint32_t *tokens, size_t room);

/* Parses lexemes and goes on behind each error, and writes the marks of all errors, as `lrkit-parse --repairs` lists them
 * (docs/PROGRAMS.md, "Repairs"). A repair has at most `edits` insertions and deletions; an error has eight at most. The parse goes on by
 * the first repair, and ends at an error without one; with 0 edits that is the first error. With LRKIT_OK there is no error, and `count`
 * is 0; with LRKIT_SYNTAX it counts the marks. The calls above know of the first error alone, and of no repairs. */
lrkit_answer lrkit_parse_errors(lrkit_parser *parser, const lrkit_lexeme *lexemes, size_t lexemes_len, size_t edits, lrkit_mark *marks, size_t room);

/* Lexes a text and does the same. With LRKIT_UNLEXED there is one mark, of the error of the lexer. */
lrkit_answer lrkit_parse_text_errors(lrkit_parser *parser, const uint8_t *text, size_t text_len, size_t edits, lrkit_mark *marks, size_t room);

/* Parses lexemes of a text in this way, and writes one JSON object and a line feed: that of `lrkit-parse --json`, with the nodes of the
 * tree or all errors (docs/parse.schema.json). Its path is empty. The status is LRKIT_OK with errors too. */
lrkit_answer lrkit_parse_json(lrkit_parser *parser, const lrkit_lexeme *lexemes, size_t lexemes_len, const uint8_t *text, size_t text_len, size_t edits, uint8_t *out, size_t room);

/* Lexes a text and does the same, with this path in the object. */
lrkit_answer lrkit_parse_text_json(lrkit_parser *parser, const uint8_t *text, size_t text_len, const uint8_t *path, size_t path_len, size_t edits, uint8_t *out, size_t room);

#ifdef __cplusplus
}
#endif

#endif
