// Reads the rules out of a grammar's text, for their pictures. The library has no call that lists them, so this is a reader of the page's
// own, for valid texts alone (docs/FILE_GRAMMAR.md); `agrees` holds what it read against the names that the library has.

/** Where a quoted token is closed: at the first equal quote behind its first character. */
function closingQuote(text, at) {
    return text.indexOf(text[at], at + 2);
}

class Reader {
    constructor(text) {
        this.text = text;
        this.at = 0;
    }

    isNext(word) {
        return this.text.startsWith(word, this.at);
    }

    /** Skips white space and comments. */
    gap() {
        for (;;) {
            const white = /[ \t\r\n]*/y;
            white.lastIndex = this.at;
            this.at += white.exec(this.text)[0].length;
            if (this.isNext("//")) this.skipTo("\n");
            else if (this.isNext("/*")) this.skipPast("*/", 2);
            else return;
        }
    }

    skipTo(word) {
        const found = this.text.indexOf(word, this.at);
        this.at = found < 0 ? this.text.length : found;
    }

    skipPast(word, from = 0) {
        this.at += from;
        this.skipTo(word);
        this.at = Math.min(this.at + word.length, this.text.length);
    }

    /** Takes what a pattern matches here. */
    take(pattern) {
        const here = new RegExp(pattern, "y");
        here.lastIndex = this.at;
        const found = here.exec(this.text);
        this.at += found ? found[0].length : 0;
        return found ? found[0] : null;
    }

    /** Takes a name or a quoted token, or nothing. */
    symbol() {
        if (this.isNext("'") || this.isNext('"')) {
            const start = this.at;
            const end = closingQuote(this.text, start);
            if (end < 0) return null;
            this.at = end + 1;
            return { name: this.text.slice(start + 1, end), isQuoted: true };
        }
        const name = this.take("[A-Za-z_.][A-Za-z0-9_.]*");
        return name === null ? null : { name, isQuoted: false };
    }

    /** Skips a text in braces, of which every one counts. */
    braces() {
        let depth = 0;
        do {
            depth += this.isNext("{") - this.isNext("}");
            this.at += 1;
        } while (depth > 0 && this.at < this.text.length);
    }

    /** Skips up to the first colon that is not next to another one. */
    colon() {
        while (this.at < this.text.length) {
            const run = this.take(":+");
            if (run === ":") return;
            if (run === null) this.at += 1;
        }
    }
}

/** Skips the settings of tools that a text may begin with, in which a `}` may be between quotes. */
function skipSection(reader) {
    if (reader.take("%grmtools") === null) return;
    while (reader.at < reader.text.length && !reader.isNext("}")) {
        if (reader.isNext('"')) reader.skipPast('"', 1);
        else if (reader.isNext("//") || reader.isNext("/*")) reader.gap();
        else reader.at += 1;
    }
    reader.at += 1;
    reader.gap();
}

/** Reads the declarations up to the `%%`, and returns the names that `%token` declares. */
function declaredTokens(reader) {
    const declared = new Set();
    let word = "";
    while (reader.at < reader.text.length && !reader.isNext("%%")) {
        const next = reader.take("%[A-Za-z_-]*");
        if (next !== null) {
            word = next;
            if (["%actiontype", "%parse-param", "%parse-generics"].includes(word)) reader.skipTo("\n");
        } else if (word === "%epp" && reader.symbol() !== null) {
            reader.gap();
            reader.take("\"(\\\\.|[^\"\\\\])*\"|'(\\\\.|[^'\\\\])*'");
        } else {
            const symbol = reader.symbol();
            if (symbol === null) reader.at += 1;
            else if (word === "%token") declared.add(symbol.name);
        }
        reader.gap();
    }
    reader.at += 2;
    reader.gap();
    return declared;
}

/** Reads an alternative up to the `|` or `;` that ends it. */
function readAlternative(reader, isToken) {
    const symbols = [];
    for (reader.gap(); reader.at < reader.text.length && !reader.isNext("|") && !reader.isNext(";"); reader.gap()) {
        if (reader.take("%empty") !== null) continue;
        if (reader.take("%prec") !== null) {
            reader.gap();
            reader.symbol();
            continue;
        }
        if (reader.isNext("{")) {
            reader.braces();
            continue;
        }
        const symbol = reader.symbol();
        if (symbol === null) return null;
        symbols.push({ name: symbol.name, isToken: isToken(symbol), isOptional: reader.take("\\?") !== null });
    }
    return symbols;
}

/** Reads the rule at the reader's place: its name and alternatives, or nothing where none is. */
function readRule(reader, isToken) {
    const name = reader.take("[A-Za-z_.][A-Za-z0-9_.]*");
    if (name === null) return null;
    reader.gap();
    if (reader.take("->") !== null) reader.colon();
    else if (reader.take(":") === null) return null;
    const alternatives = [];
    do {
        const symbols = readAlternative(reader, isToken);
        if (symbols === null) return null;
        alternatives.push(symbols);
    } while (reader.take("\\|") !== null);
    return reader.take(";") === null ? null : { name, alternatives };
}

/** Returns the rules of a valid grammar's text in their order, and the rule of each alternative; or nothing where it cannot read them. */
export function rulesOf(text) {
    const reader = new Reader(text);
    reader.gap();
    skipSection(reader);
    const declared = declaredTokens(reader);
    const isToken = (symbol) => symbol.isQuoted || declared.has(symbol.name);
    const rules = new Map();
    const order = [];
    while (reader.at < text.length && !reader.isNext("%%")) {
        const rule = readRule(reader, isToken);
        if (rule === null) return null;
        rule.alternatives.forEach(() => order.push(rule.name));
        if (rules.has(rule.name)) rules.get(rule.name).alternatives.push(...rule.alternatives);
        else rules.set(rule.name, rule);
        reader.gap();
    }
    return { rules: [...rules.values()], order };
}

/** Checks that the alternatives are those of the library's productions, by the names of their rules, and that its tokens are tokens. */
export function agrees(read, names) {
    const tokens = new Set(names.tokens);
    const known = read.rules.every((rule) => rule.alternatives.every((symbols) => symbols.every((it) => !it.isToken || tokens.has(it.name))));
    return known && read.order.length <= names.rules.length && read.order.every((name, i) => name === names.rules[i]);
}
