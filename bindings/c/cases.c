/* Runs the cases of ../cases/cases.txt: `cases FILE [THREADS]`. Each thread runs all of them, with parsers of its own. The last line is
 * `N cases, M wrong`; where malloc returns null it is `out of memory`, with status 6. */
#include "lrkit.h"

#include <fcntl.h>
#include <pthread.h>
#include <stdio.h>
#include <stdlib.h>
#include <string.h>
#include <unistd.h>

typedef struct {
    char *at;
    size_t len, room;
} text;

typedef struct {
    text name, kind, grammar, lexer, input, wanted, error;
    int has_wanted;
} test;

static test *tests;
static size_t tests_len;
/* Whether memory was refused. */
static int refused;

/* Memory of the runner's own, which is never given back, so that each call of malloc is the library's. */
static char arena[256u << 20];
static size_t taken;

static void *take(size_t size) {
    size_t at = __atomic_fetch_add(&taken, (size + 15) / 16 * 16, __ATOMIC_RELAXED);
    if (at + size > sizeof arena) _exit(2);
    return arena + at;
}

static void append(text *to, const char *from, size_t len) {
    if (to->len + len + 1 > to->room) {
        to->room = 2 * (to->len + len + 1);
        char *more = take(to->room);
        if (to->at) memcpy(more, to->at, to->len);
        to->at = more;
    }
    memcpy(to->at + to->len, from, len);
    to->len += len;
    to->at[to->len] = 0;
}

/* Adds a line, with an LF in front of it unless it is the first one. */
static void append_line(text *to, const char *from, size_t len) {
    if (to->at) append(to, "\n", 1);
    append(to, from, len);
}

static const uint8_t *bytes(const text *of) { return (const uint8_t *)(of->at ? of->at : ""); }

static void read_tests(const char *path) {
    int file = open(path, O_RDONLY);
    text all = {0};
    char block[4096];
    ssize_t n;
    if (file < 0) exit(2);
    while ((n = read(file, block, sizeof block)) > 0) append(&all, block, (size_t)n);
    close(file);
    tests = take((all.len / 4 + 1) * sizeof *tests);
    test *now = NULL;
    for (char *line = all.at; line && *line;) {
        char *end = strchr(line, '\n');
        size_t len = end ? (size_t)(end - line) : strlen(line);
        if (len && line[0] == '=') now = &tests[tests_len++];
        if (len && now) {
            text *to = line[0] == '=' ? &now->name : line[0] == '@' ? &now->kind : line[0] == '|' ? &now->grammar : line[0] == '$' ? &now->lexer
                     : line[0] == '<' ? &now->input : line[0] == '>' ? &now->wanted : &now->error;
            append_line(to, line + 1, len - 1);
            now->has_wanted |= line[0] == '>';
        }
        line = end ? end + 1 : NULL;
    }
}

/* Adds the lines of the node at an index and of what is below it: the root is the last one, so the walk goes from the end. */
static void show(lrkit_parser *parser, const text *input, const lrkit_node *nodes, size_t count, text *out) {
    size_t *sizes = take((count + 1) * sizeof *sizes), *stack = take((count + 1) * 2 * sizeof *stack), top = 0;
    for (size_t i = 0; i < count; i++) {
        sizes[i] = 1;
        for (size_t child = 0; child < nodes[i].children; child++) sizes[i] += sizes[i - sizes[i]];
    }
    stack[top++] = count - 1;
    stack[top++] = 0;
    while (top) {
        size_t depth = stack[--top], at = stack[--top];
        uint8_t name[512];
        lrkit_answer said = lrkit_name(parser, nodes[at].kind, nodes[at].number, name, sizeof name);
        if (at != count - 1) append(out, "\n", 1);
        for (size_t i = 0; i < depth; i++) append(out, " ", 1);
        append(out, (char *)name, said.status == LRKIT_OK ? said.count : 0);
        if (nodes[at].kind == 0) {
            append(out, " ", 1);
            append(out, input->at + nodes[at].start, nodes[at].end - nodes[at].start);
        }
        size_t child = at;
        for (size_t i = 0; i < nodes[at].children; i++) {
            stack[top++] = child - 1;
            stack[top++] = depth + 1;
            child -= sizes[child - 1];
        }
    }
}

/* Parses into rooms that are too small first. */
static lrkit_answer parse(lrkit_parser *parser, const test *of, lrkit_node **nodes, lrkit_place *place) {
    lrkit_node none;
    lrkit_answer found = lrkit_parse_text(parser, bytes(&of->input), of->input.len, &none, 0, place);
    *nodes = NULL;
    if (found.status != LRKIT_ROOM) return found;
    *nodes = take(found.count * sizeof **nodes);
    return lrkit_parse_text(parser, bytes(&of->input), of->input.len, *nodes, found.count, place);
}

static int says(const test *of, const char *kind, size_t number) {
    char shown[64];
    snprintf(shown, sizeof shown, "%s %zu", kind, number);
    return of->error.at && strcmp(shown, of->error.at) == 0;
}

static int run_errors(lrkit_parser *parser, const test *of, size_t edits);
static int run_object(lrkit_parser *parser, const test *of, size_t edits);

/* Runs a case, and returns 1 where it is right, 0 where it is wrong, -1 where memory was refused. */
static int run(const test *of) {
    lrkit_answer found;
    text made = {0};
    int right = 0;
    if (strcmp(of->kind.at, "report") == 0) {
        uint32_t outcome = 9, same = 9;
        uint8_t none;
        found = lrkit_report(bytes(&of->grammar), of->grammar.len, (const uint8_t *)"g.y", 3, LRKIT_TEXT, &outcome, &none, 0);
        if (found.status == LRKIT_MEMORY) return -1;
        size_t shown = found.count;
        made.at = take(shown);
        right = found.status == LRKIT_ROOM && says(of, "outcome", outcome);
        found = lrkit_report(bytes(&of->grammar), of->grammar.len, (const uint8_t *)"g.y", 3, LRKIT_TEXT, &outcome, (uint8_t *)made.at, shown);
        if (found.status == LRKIT_MEMORY) return -1;
        right &= found.status == LRKIT_OK && found.count == shown;
        found = lrkit_report(bytes(&of->grammar), of->grammar.len, (const uint8_t *)"g.y", 3, LRKIT_JSON, &same, &none, 0);
        if (found.status == LRKIT_MEMORY) return -1;
        right &= found.status == LRKIT_ROOM && same == outcome;
        found = lrkit_report(bytes(&of->grammar), of->grammar.len, (const uint8_t *)"g.y", 3, LRKIT_STATES, &same, &none, 0);
        if (found.status == LRKIT_MEMORY) return -1;
        return right && found.status == LRKIT_ROOM && same == outcome && (found.count > shown || (outcome == 2 && found.count == shown));
    }
    if (strcmp(of->kind.at, "import") == 0) {
        size_t room = 16 * of->grammar.len + 4096;
        made.at = take(room);
        found = lrkit_import(bytes(&of->grammar), of->grammar.len, (uint8_t *)made.at, room);
        right = found.status == LRKIT_MEMORY ? -1 : found.status == LRKIT_FILE ? says(of, "file", 0)
              : found.status == LRKIT_OK && of->has_wanted && found.count == of->wanted.len && memcmp(made.at, bytes(&of->wanted), found.count) == 0;
        return right;
    }
    lrkit_parser parser;
    lrkit_place place;
    lrkit_node *nodes;
    uint8_t message[4096];
    found = lrkit_parser_new(bytes(&of->grammar), of->grammar.len, bytes(&of->lexer), of->lexer.len, &parser, message, sizeof message);
    if (found.status != LRKIT_OK) return found.status == LRKIT_MEMORY ? -1 : found.status == LRKIT_GRAMMAR && says(of, "grammar", 0);
    if (strncmp(of->kind.at, "errors ", 7) == 0 || strncmp(of->kind.at, "object ", 7) == 0) {
        size_t edits = (size_t)atoi(of->kind.at + 7);
        right = of->kind.at[0] == 'e' ? run_errors(&parser, of, edits) : run_object(&parser, of, edits);
        lrkit_parser_free(&parser);
        return right;
    }
    found = parse(&parser, of, &nodes, &place);
    if (found.status == LRKIT_MEMORY) right = -1;
    else if (found.status == LRKIT_UNLEXED) right = says(of, "unlexed", place.start);
    else if (found.status == LRKIT_SYNTAX) right = says(of, "syntax", place.start);
    else if (found.status == LRKIT_OK && of->has_wanted) {
        show(&parser, &of->input, nodes, found.count, &made);
        right = made.len == of->wanted.len && memcmp(bytes(&made), bytes(&of->wanted), made.len) == 0;
        if (!right) fprintf(stderr, "%s: found\n%s\n", of->name.at, made.at);
    }
    lrkit_parser_free(&parser);
    return right;
}

/* Adds what the marks say, a line for each error, for the tokens that may come there, and for each repair. */
static void show_marks(lrkit_parser *parser, const text *input, const lrkit_mark *marks, size_t count, text *out) {
    static const char *edits[] = {"insert ", "delete ", "shift "};
    lrkit_counts counts = {0};
    uint8_t name[512];
    char line[64];
    size_t expected = 0;
    lrkit_parser_counts(parser, &counts);
    for (size_t i = 0; i < count; i++) {
        const lrkit_mark *mark = &marks[i];
        if (mark->kind == LRKIT_ERROR) {
            snprintf(line, sizeof line, "error %zu", mark->start);
            append_line(out, line, strlen(line));
            if (i + 1 < count && marks[i + 1].kind == LRKIT_EXPECTED) append(out, "\nexpected", 9);
            expected = 0;
        } else if (mark->kind == LRKIT_EXPECTED) {
            if (expected++ < 8) {
                lrkit_answer said = lrkit_name(parser, 0, mark->token, name, sizeof name);
                append(out, " ", 1);
                append(out, mark->token + 1 == counts.tokens ? "$" : (char *)name, mark->token + 1 == counts.tokens ? 1 : said.count);
            }
            if (expected > 8 && (i + 1 == count || marks[i + 1].kind != LRKIT_EXPECTED)) {
                snprintf(line, sizeof line, " +%zu", expected - 8);
                append(out, line, strlen(line));
            }
        } else if (mark->kind == LRKIT_REPAIR) append(out, "\nrepair", 7);
        else {
            append(out, marks[i - 1].kind == LRKIT_REPAIR ? " " : ", ", marks[i - 1].kind == LRKIT_REPAIR ? 1 : 2);
            append(out, edits[mark->kind - LRKIT_INSERT], strlen(edits[mark->kind - LRKIT_INSERT]));
            if (mark->kind == LRKIT_INSERT) append(out, (char *)name, lrkit_name(parser, 0, mark->token, name, sizeof name).count);
            else append(out, input->at + mark->start, mark->end - mark->start);
        }
    }
}

/* Finds the errors of a text into rooms that are too small first, and by its lexemes too. Returns whether both calls find the same. */
static int find_errors(lrkit_parser *parser, const test *of, size_t edits, lrkit_answer *found, lrkit_mark **marks) {
    lrkit_mark none, *others;
    lrkit_place place;
    *found = lrkit_parse_text_errors(parser, bytes(&of->input), of->input.len, edits, &none, 0);
    *marks = take((found->count + 1) * sizeof **marks);
    if (found->status == LRKIT_ROOM) *found = lrkit_parse_text_errors(parser, bytes(&of->input), of->input.len, edits, *marks, found->count);
    if (found->status == LRKIT_MEMORY || found->status == LRKIT_UNLEXED) return 1;
    lrkit_lexeme *lexemes = take((of->input.len + 1) * sizeof *lexemes);
    lrkit_answer lexed = lrkit_lex(parser, bytes(&of->input), of->input.len, lexemes, of->input.len + 1, &place);
    if (lexed.status == LRKIT_MEMORY) *found = lexed;
    if (lexed.status != LRKIT_OK) return lexed.status == LRKIT_MEMORY;
    others = take((found->count + 1) * sizeof *others);
    lrkit_answer same = lrkit_parse_errors(parser, lexemes, lexed.count, edits, others, found->count);
    if (same.status == LRKIT_MEMORY) *found = same;
    if (same.status != found->status || same.count != found->count) return same.status == LRKIT_MEMORY;
    for (size_t i = 0; i < found->count; i++) {
        const lrkit_mark *a = &(*marks)[i], *b = &others[i];
        if (a->kind != b->kind || a->token != b->token || a->start != b->start || a->end != b->end) return 0;
    }
    return 1;
}

/* Runs a case of errors, and returns as `run` does. */
static int run_errors(lrkit_parser *parser, const test *of, size_t edits) {
    lrkit_mark *marks;
    lrkit_answer found;
    text made = {0};
    int same = find_errors(parser, of, edits, &found, &marks);
    if (found.status == LRKIT_MEMORY) return -1;
    if (found.status == LRKIT_UNLEXED) return found.count == 1 && marks[0].kind == LRKIT_ERROR && marks[0].token == UINT32_MAX && says(of, "unlexed", marks[0].start);
    if (found.status != (of->has_wanted ? LRKIT_SYNTAX : LRKIT_OK)) return 0;
    show_marks(parser, &of->input, marks, found.count, &made);
    int right = same && made.len == of->wanted.len && memcmp(bytes(&made), bytes(&of->wanted), made.len) == 0;
    if (!right) fprintf(stderr, "%s: found\n%s\n", of->name.at, made.at ? made.at : "");
    return right;
}

/* Runs a case of an object, and returns as `run` does. */
static int run_object(lrkit_parser *parser, const test *of, size_t edits) {
    uint8_t none, *out;
    lrkit_answer found = lrkit_parse_text_json(parser, bytes(&of->input), of->input.len, (const uint8_t *)"g.txt", 5, edits, &none, 0);
    if (found.status == LRKIT_MEMORY) return -1;
    size_t room = found.count;
    out = take(room + 1);
    found = lrkit_parse_text_json(parser, bytes(&of->input), of->input.len, (const uint8_t *)"g.txt", 5, edits, out, room);
    if (found.status == LRKIT_MEMORY) return -1;
    int right = found.status == LRKIT_OK && found.count == of->wanted.len + 1 && memcmp(out, bytes(&of->wanted), of->wanted.len) == 0 && out[room - 1] == '\n';
    if (!right) fprintf(stderr, "%s: found\n%.*s\n", of->name.at, (int)found.count, (char *)out);
    return right;
}

static void *run_all(void *at) {
    size_t *wrong = at;
    for (size_t i = 0; i < tests_len; i++) {
        int right = run(&tests[i]);
        if (right < 0) refused = 1;
        if (right != 0) continue;
        fprintf(stderr, "wrong:%s\n", tests[i].name.at);
        ++*wrong;
    }
    return NULL;
}

int main(int count, char **words) {
    setvbuf(stdout, NULL, _IONBF, 0); /* so stdio asks for no memory, where each request is refused in turn */
    if (count < 2) return 64;
    read_tests(words[1]);
    size_t wrong[64] = {0}, sum = 0;
    int threads = count > 2 ? atoi(words[2]) : 1;
    pthread_t all[64];
    for (int i = 1; i < threads && i < 64; i++)
        if (pthread_create(&all[i], NULL, run_all, &wrong[i])) return 2;
    run_all(&wrong[0]);
    for (int i = 1; i < threads && i < 64; i++) pthread_join(all[i], NULL);
    for (int i = 0; i < 64; i++) sum += wrong[i];
    if (refused) {
        fprintf(stderr, "out of memory\n");
        return 6;
    }
    printf("%zu cases, %zu wrong\n", tests_len, sum);
    return sum != 0;
}
