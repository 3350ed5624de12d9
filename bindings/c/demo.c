/* Values of lines of sums and products, by a parser of lrkit. */
#include "lrkit.h"

#include <stdio.h>
#include <stdlib.h>
#include <string.h>

#define TEXT(x) (const uint8_t *)(x), strlen(x)

static const char *grammar = "%token NUM\n%left '+' '-'\n%left '*' '/'\n%%\nE: E '+' E | E '-' E | E '*' E | E '/' E | '(' E ')' | NUM;\n";
static const char *lexer = "%%\n[0-9]+ \"NUM\"\n\\+ \"+\"\n- \"-\"\n\\* \"*\"\n/ \"/\"\n\\( \"(\"\n\\) \")\"\n[ \\t\\n]+ ;\n";

/* Computes the value of a tree: each node takes its children from the stack. */
static double value(const char *text, const lrkit_node *nodes, size_t count) {
    double stack[64];
    char signs[64];
    size_t top = 0;
    for (size_t i = 0; i < count; i++) {
        const lrkit_node *node = &nodes[i];
        if (node->kind == 0) {
            signs[top] = text[node->start];
            stack[top++] = strtod(text + node->start, NULL);
            continue;
        }
        top -= node->children;
        double *child = stack + top;
        if (node->children == 3 && signs[top] == '(') child[0] = child[1];
        else if (node->children == 3) switch (signs[top + 1]) {
            case '+': child[0] += child[2]; break;
            case '-': child[0] -= child[2]; break;
            case '*': child[0] *= child[2]; break;
            default: child[0] /= child[2];
        }
        signs[top++] = 'E';
    }
    return stack[0];
}

/* Prints where a text has errors, what may come there, and by which steps each could be repaired. */
static void explain(lrkit_parser *parser, const char *text) {
    static const char *before[] = {"error at byte", "; expected:", "; repair:", " insert", " delete", " shift"};
    lrkit_mark marks[128];
    lrkit_answer found = lrkit_parse_text_errors(parser, TEXT(text), 3, marks, 128);
    if (found.status != LRKIT_SYNTAX && found.status != LRKIT_UNLEXED) printf("%s", found.status == LRKIT_MEMORY ? "out of memory" : "too many errors");
    for (size_t i = 0; (found.status == LRKIT_SYNTAX || found.status == LRKIT_UNLEXED) && i < found.count; i++) {
        const lrkit_mark *mark = &marks[i];
        uint8_t name[128];
        if (mark->kind != LRKIT_EXPECTED || marks[i - 1].kind != LRKIT_EXPECTED) printf("%s", before[mark->kind]);
        if (mark->kind == LRKIT_ERROR) printf(" %zu", mark->start);
        if (mark->kind == LRKIT_ERROR || mark->kind == LRKIT_REPAIR) continue;
        lrkit_answer said = lrkit_name(parser, 0, mark->token, name, sizeof name);
        printf(" %.*s", said.status == LRKIT_OK ? (int)said.count : 0, name);
    }
    printf("\n");
}

int main(void) {
    setvbuf(stdout, NULL, _IONBF, 0); /* so stdio asks for no memory, where each request is refused in turn */
    const char *lines[] = {"1 + 2 * 3", "(1 + 2) * 3", "2 * (3 +", "1 ? 2"};
    lrkit_parser parser;
    uint8_t message[1024];
    lrkit_answer made = lrkit_parser_new(TEXT(grammar), TEXT(lexer), &parser, message, sizeof message);
    if (made.status != LRKIT_OK) {
        lrkit_answer said = made.count ? made : lrkit_error_text(made.status, message, sizeof message);
        fprintf(stderr, "%.*s\n", (int)(said.count < sizeof message ? said.count : 0), message);
        return 1;
    }
    int status = 0;
    for (size_t i = 0; i < sizeof lines / sizeof *lines && !status; i++) {
        lrkit_node nodes[64];
        lrkit_place place;
        lrkit_answer parsed = lrkit_parse_text(&parser, TEXT(lines[i]), nodes, 64, &place);
        if (parsed.status == LRKIT_MEMORY) {
            fprintf(stderr, "out of memory\n");
            status = 6;
            break;
        }
        printf("%s: ", lines[i]);
        if (parsed.status == LRKIT_OK) printf("%g\n", value(lines[i], nodes, parsed.count));
        else explain(&parser, lines[i]);
    }
    lrkit_parser_free(&parser);
    return status;
}
