// The worker: it has the library, so that a large grammar freezes nothing. It takes one request at a time, and posts each part of the
// answer as soon as it is there.
import { Library, Refusal, STATUS } from "./library.js";

/** The states of a grammar with at most so many are listed. */
const MOST_STATES = 400;

/** The name under which reports show the grammar's places. */
const PATH = "grammar.y";

/** Cuts a text of token names into lexemes, where there is no lexer; a word that is no token's name is a fault. */
function wordsOf(parser, bytes) {
    const isSpace = (byte) => byte === 0x20 || byte === 0x0a || byte === 0x0d;
    const lexemes = [];
    for (let start = 0; start < bytes.length; ) {
        if (isSpace(bytes[start])) {
            start += 1;
            continue;
        }
        let end = start;
        while (end < bytes.length && !isSpace(bytes[end])) end += 1;
        const token = parser.token(bytes.slice(start, end));
        if (token === undefined) return { status: STATUS.UNLEXED, lexemes, fault: { token: null, start, end } };
        lexemes.push({ token, start, length: end - start });
        start = end;
    }
    return { status: STATUS.OK, lexemes, fault: null };
}

/** Collects names by their kind and number, each asked of the library once. */
class Names {
    constructor(parser, counts) {
        this.parser = parser;
        this.end = counts.tokens - 1;
        this.known = new Map();
    }

    of(kind, number) {
        if (kind === 0 && number === this.end) return "$";
        const key = `${kind} ${number}`;
        if (!this.known.has(key)) this.known.set(key, this.parser.name(kind, number));
        return this.known.get(key);
    }
}

/** Returns which tokens may come at a fault: behind the lexemes in front of it. */
function expectedAt(parser, names, lexemes, fault) {
    const before = lexemes.filter((it) => it.start + it.length <= fault.start && it.start < fault.start);
    return parser.expected(before).map((it) => names.of(0, it));
}

/** Parses a text: the nodes of its tree with their names, or its first error. */
function parseOf(parser, names, text, hasLexer) {
    const bytes = new TextEncoder().encode(text);
    const lexed = hasLexer ? parser.lex(bytes) : wordsOf(parser, bytes);
    if (lexed.fault) {
        return { error: { kind: hasLexer ? "lexer" : "name", ...lexed.fault, token: lexed.fault.token === null ? null : names.of(0, lexed.fault.token), expected: [] } };
    }
    const { status, nodes, fault } = parser.parse(lexed.lexemes);
    if (fault) {
        const expected = expectedAt(parser, names, lexed.lexemes, fault);
        return { error: { kind: "parser", ...fault, token: names.of(0, fault.token), expected } };
    }
    if (status !== STATUS.OK) throw new Refusal(parser.library.errorText(status));
    return { nodes: nodes.map((it) => ({ ...it, name: names.of(it.kind, it.number) })) };
}

/** Returns the names of the tokens, and of each production's rule, as the library has them. */
function namesOf(names, counts) {
    const list = (count, kind) => Array.from({ length: count }, (_, i) => names.of(kind, i));
    return { tokens: list(counts.tokens, 0), rules: list(counts.productions, 1) };
}

/** Calls a function with a parser and its names, or returns what the library says where there is none. */
function withParser(grammar, lexer, call) {
    const made = library.parser(grammar, lexer);
    if (!made.parser) return made;
    const counts = made.parser.counts();
    call(made.parser, new Names(made.parser, counts), counts);
    made.parser.free();
    return null;
}

/** Answers one request by posting its parts, and `done` at the end. */
function answer({ id, grammar, lexer, text }) {
    const post = (part, value) => postMessage({ id, part, value });
    const found = JSON.parse(library.report(grammar, PATH, 1).text);
    post("report", { found, words: library.report(grammar, PATH, 0).text });
    const hasLexer = lexer.trim() !== "";
    const refused = withParser(grammar, hasLexer ? lexer : "", (parser, names, counts) => {
        post("names", namesOf(names, counts));
        post("parse", parseOf(parser, names, text, hasLexer));
    });
    if (refused) {
        const isLexer = refused.status === STATUS.LEXER;
        if (isLexer) withParser(grammar, "", (_, names, counts) => post("names", namesOf(names, counts)));
        post("parse", { refused: isLexer ? "lexer" : "grammar", message: refused.message });
    }
    if (found.counts?.states <= MOST_STATES) post("states", library.report(grammar, PATH, 2).text);
    post("done", null);
}

/** Returns the bytes of a file that is compressed by gzip. */
async function unpacked(bytes) {
    const stream = new Blob([bytes]).stream().pipeThrough(new DecompressionStream("gzip"));
    return new Response(stream).arrayBuffer();
}

let library = null;

onmessage = async ({ data }) => {
    try {
        if (data.module) {
            library = await Library.load(await unpacked(data.module));
            postMessage({ part: "ready" });
        } else if (data.file !== undefined) {
            postMessage({ id: data.id, part: "import", value: library.import(data.file) });
        } else {
            answer(data);
        }
    } catch (error) {
        const value = error instanceof WebAssembly.RuntimeError ? `the library ended: ${error.message}` : String(error.message ?? error);
        postMessage({ id: data.id, part: "failed", value });
    }
};
