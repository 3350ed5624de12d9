// The link that carries grammar, lexer and text in its fragment, and places in a text.

const FIELDS = ["grammar", "lexer", "text"];

/** Writes texts as a fragment. */
export function fragmentOf(texts) {
    return `#${FIELDS.map((it) => `${it}=${encodeURIComponent(texts[it])}`).join("&")}`;
}

/** Reads the texts of a fragment, or nothing where it has none. */
export function textsOf(fragment) {
    const found = {};
    for (const part of fragment.replace(/^#/, "").split("&")) {
        const [name, value] = part.split("=", 2);
        if (!FIELDS.includes(name) || value === undefined) continue;
        try {
            found[name] = decodeURIComponent(value);
        } catch {
            return null; // half a letter: the link was cut off
        }
    }
    return found.grammar === undefined ? null : { lexer: "", text: "", ...found };
}

/** How many bytes of UTF-8 a character takes. */
function bytesOf(character) {
    const code = character.codePointAt(0);
    return code < 0x80 ? 1 : code < 0x800 ? 2 : code < 0x10000 ? 3 : 4;
}

/** Finds where bytes of a text are: the index of the string's unit, line and column, from 1, in characters. */
export function placesOf(text, offsets) {
    const found = new Map();
    let [byte, index, line, column] = [0, 0, 1, 1];
    const wanted = [...new Set(offsets)].sort((one, other) => one - other);
    const reach = () => {
        while (wanted.length > 0 && wanted[0] <= byte) found.set(wanted.shift(), { index, line, column });
    };
    for (const character of text) {
        reach();
        byte += bytesOf(character);
        index += character.length;
        [line, column] = character === "\n" ? [line + 1, 1] : [line, column + 1];
    }
    byte = Infinity;
    reach();
    return offsets.map((it) => found.get(it));
}
