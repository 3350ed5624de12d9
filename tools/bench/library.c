/* Parses a text's lexemes, and the text, once each by a parser that is made before: `bench GRAMMAR LEXER TEXT`. The last line is the
 * count of lexemes. `bench GRAMMAR` makes a parser of the grammar alone, and frees it. */
#include "lrkit.h"

#include <stdio.h>
#include <stdlib.h>

typedef struct {
    uint8_t *at;
    size_t len;
} text;

static text read_all(const char *path) {
    text found = {NULL, 0};
    FILE *file = fopen(path, "rb");
    if (!file || fseek(file, 0, SEEK_END)) exit(2);
    found.len = (size_t)ftell(file);
    rewind(file);
    found.at = malloc(found.len + 1);
    if (!found.at || fread(found.at, 1, found.len, file) != found.len) exit(2);
    fclose(file);
    return found;
}

int main(int count, char **words) {
    if (count != 2 && count != 4) return 64;
    text grammar = read_all(words[1]), lexer = {(uint8_t *)"", 0};
    if (count == 4) lexer = read_all(words[2]);
    uint8_t message[4096];
    lrkit_parser parser;
    lrkit_place place;
    if (lrkit_parser_new(grammar.at, grammar.len, lexer.at, lexer.len, &parser, message, sizeof message).status) return 1;
    if (count == 2) {
        lrkit_parser_free(&parser);
        return 0;
    }
    text input = read_all(words[3]);
    lrkit_lexeme *lexemes = malloc((input.len + 1) * sizeof *lexemes);
    lrkit_node *nodes = malloc(16 * (input.len + 1) * sizeof *nodes);
    lrkit_answer lexed = lrkit_lex(&parser, input.at, input.len, lexemes, input.len + 1, &place);
    lrkit_answer parsed = lrkit_parse(&parser, lexemes, lexed.count, nodes, 16 * (input.len + 1), &place);
    lrkit_answer whole = lrkit_parse_text(&parser, input.at, input.len, nodes, 16 * (input.len + 1), &place);
    if (lexed.status || parsed.status || whole.status || whole.count != parsed.count) return 1;
    printf("%zu lexemes, %zu nodes\n", lexed.count, parsed.count);
    lrkit_parser_free(&parser);
    return 0;
}
