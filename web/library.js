// The library as a WebAssembly module: texts go in as UTF-8, and answers come out as plain values. bindings/c/lrkit.h says what each
// call does. Pointers and sizes have eight bytes there, so they are BigInts here until they are read.

/** The numbers of enum lrkit_status that the page asks about. */
export const STATUS = { OK: 0, MEMORY: 1, ROOM: 3, GRAMMAR: 4, LEXER: 5, FILE: 6, UNLEXED: 7, SYNTAX: 8 };

/** How many bytes C's structs have. */
const SIZE = { answer: 16, parser: 8, lexeme: 24, node: 32, place: 24, counts: 40 };

/** How many bytes of room a first call gets. Where they are too few, the answer says how many elements are wanted. */
const FIRST_ROOM = 1 << 20;

const NO_TOKEN = 0xffffffff;

/** An answer that is an error: of no use to go on with. */
export class Refusal extends Error {}

export class Library {
    /** Makes a library of the bytes of its module. */
    static async load(bytes) {
        const { instance } = await WebAssembly.instantiate(bytes, {});
        return new Library(instance.exports);
    }

    constructor(exports) {
        this.calls = exports;
        this.held = []; // blocks to free when the call that they are for has ended
    }

    /** Takes memory, which is freed when the call ends. */
    take(bytes) {
        const at = this.calls.page_alloc(BigInt(bytes));
        if (at === 0n) throw new Refusal("out of memory");
        this.held.push(at);
        return at;
    }

    /** Runs a function that takes memory, and frees all of that afterwards. */
    freeing(call) {
        const outer = this.held;
        this.held = [];
        try {
            return call();
        } finally {
            for (const at of this.held) this.calls.page_free(at);
            this.held = outer;
        }
    }

    /** Passes a text: its address and its length, two arguments of a call. */
    text(text) {
        const bytes = typeof text === "string" ? new TextEncoder().encode(text) : text;
        const at = this.take(bytes.length + 1);
        new Uint8Array(this.calls.memory.buffer).set(bytes, Number(at));
        return [at, BigInt(bytes.length)];
    }

    view() {
        return new DataView(this.calls.memory.buffer);
    }

    size(at) {
        return Number(this.view().getBigUint64(Number(at), true));
    }

    number(at) {
        return this.view().getUint32(Number(at), true);
    }

    /** Calls an export that writes nothing into a room, and returns its status and count. */
    ask(name, ...words) {
        const answer = this.take(SIZE.answer);
        this.calls[name](answer, ...words);
        return { status: this.number(answer), count: this.size(answer + 8n) };
    }

    /** Calls an export that writes elements of a given size, a second time where the first room is too small. */
    fill(name, element, ...words) {
        for (let room = Math.floor(FIRST_ROOM / element); ; ) {
            const out = this.take(room * element);
            const { status, count } = this.askInto(name, words, out, room);
            if (status !== STATUS.ROOM) return { status, count, out };
            room = count;
        }
    }

    /** Puts a room where the arguments name it by null, or behind them, and calls. */
    askInto(name, words, out, room) {
        const given = words.includes(null) ? words.flatMap((it) => (it === null ? [out, BigInt(room)] : [it])) : [...words, out, BigInt(room)];
        return this.ask(name, ...given);
    }

    /** Calls an export that writes a text. */
    string(name, ...words) {
        const { status, count, out } = this.fill(name, 1, ...words);
        const bytes = new Uint8Array(this.calls.memory.buffer, Number(out), count);
        return { status, text: new TextDecoder("utf-8", { ignoreBOM: true }).decode(bytes) };
    }

    /** Returns the checker's report on a grammar: for a person by the form 0, as JSON by 1, for a person with the states by 2. */
    report(grammar, path, form) {
        return this.freeing(() => {
            const outcome = this.take(4);
            const { status, text } = this.string("lrkit_report", ...this.text(grammar), ...this.text(path), form, outcome);
            if (status !== STATUS.OK) throw new Refusal(this.errorText(status));
            return { text, outcome: this.number(outcome) };
        });
    }

    /** Returns the text of a status. */
    errorText(status) {
        return this.freeing(() => this.string("lrkit_error_text", status).text);
    }

    /** Returns a Bison file's text in the kit's syntax, or why there is none. */
    import(file) {
        return this.freeing(() => this.string("lrkit_import", ...this.text(file)));
    }

    /** Makes a parser; the lexer's text may be empty. Returns the parser, or the report on why there is none. */
    parser(grammar, lexer) {
        return this.freeing(() => {
            const at = this.calls.page_alloc(BigInt(SIZE.parser));
            if (at === 0n) throw new Refusal("out of memory");
            const room = 1 << 16;
            const message = this.take(room);
            const { status, count } = this.ask("lrkit_parser_new", ...this.text(grammar), ...this.text(lexer), at, message, BigInt(room));
            if (status === STATUS.OK) return { status, parser: new Parser(this, at) };
            this.calls.page_free(at);
            const bytes = new Uint8Array(this.calls.memory.buffer, Number(message), count <= room ? count : 0);
            return { status, message: new TextDecoder().decode(bytes) || this.errorText(status) };
        });
    }
}

/** A parser of the library, to be freed once. */
export class Parser {
    constructor(library, at) {
        this.library = library;
        this.at = at;
    }

    free() {
        this.library.calls.lrkit_parser_free(this.at);
        this.library.calls.page_free(this.at);
    }

    /** Returns how many tokens, rules, productions and conflicts there are. */
    counts() {
        const { library } = this;
        return library.freeing(() => {
            const at = library.take(SIZE.counts);
            library.ask("lrkit_parser_counts", this.at, at);
            const [tokens, rules, productions, shiftReduce, reduceReduce] = [0n, 8n, 16n, 24n, 32n].map((it) => library.size(at + it));
            return { tokens, rules, productions, shiftReduce, reduceReduce };
        });
    }

    /** Returns the name of a token (kind 0), or of a production's rule (kind 1). */
    name(kind, number) {
        return this.library.freeing(() => this.library.string("lrkit_name", this.at, kind, number).text);
    }

    /** Returns the number of the token of a name, or nothing. */
    token(name) {
        const { library } = this;
        return library.freeing(() => {
            const number = library.take(4);
            const { status } = library.ask("lrkit_token", this.at, ...library.text(name), number);
            return status === STATUS.OK ? library.number(number) : undefined;
        });
    }

    place(at) {
        const { library } = this;
        const token = library.number(at);
        return { token: token === NO_TOKEN ? null : token, start: library.size(at + 8n), end: library.size(at + 16n) };
    }

    /** Lexes the bytes of a text. With a fault, the lexemes are those in front of it. */
    lex(bytes) {
        const { library } = this;
        return library.freeing(() => {
            const place = library.take(SIZE.place);
            const { status, count, out } = library.fill("lrkit_lex", SIZE.lexeme, this.at, ...library.text(bytes), null, place);
            const lexemes = [];
            for (let i = 0; i < count; i++) {
                const at = out + BigInt(i * SIZE.lexeme);
                lexemes.push({ token: library.number(at), start: library.size(at + 8n), length: library.size(at + 16n) });
            }
            return { status, lexemes, fault: status === STATUS.OK ? null : this.place(place) };
        });
    }

    /** Passes lexemes: their address and how many they are. */
    passed(lexemes) {
        const at = this.library.take(lexemes.length * SIZE.lexeme + 8);
        const view = this.library.view();
        lexemes.forEach(({ token, start, length }, i) => {
            const to = Number(at) + i * SIZE.lexeme;
            view.setUint32(to, token, true);
            view.setBigUint64(to + 8, BigInt(start), true);
            view.setBigUint64(to + 16, BigInt(length), true);
        });
        return [at, BigInt(lexemes.length)];
    }

    /** Parses lexemes: the nodes of their tree, each behind its children, or the place of the first error. */
    parse(lexemes) {
        const { library } = this;
        return library.freeing(() => {
            const place = library.take(SIZE.place);
            const { status, count, out } = library.fill("lrkit_parse", SIZE.node, this.at, ...this.passed(lexemes), null, place);
            const nodes = [];
            for (let i = 0; status === STATUS.OK && i < count; i++) {
                const at = out + BigInt(i * SIZE.node);
                const [start, end, children] = [8n, 16n, 24n].map((it) => library.size(at + it));
                nodes.push({ kind: library.number(at), number: library.number(at + 4n), start, end, children });
            }
            return { status, nodes, fault: status === STATUS.SYNTAX ? this.place(place) : null };
        });
    }

    /** Returns the numbers of the tokens that may come behind lexemes. */
    expected(lexemes) {
        const { library } = this;
        return library.freeing(() => {
            const { count, out } = library.fill("lrkit_expected", 4, this.at, ...this.passed(lexemes));
            return Array.from({ length: count }, (_, i) => library.number(out + BigInt(i * 4)));
        });
    }
}
