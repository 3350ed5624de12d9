// The report on a grammar: counts, messages, conflicts and their states, by docs/report.schema.json. Headings and examples of conflicts are
// taken from the report's text, so that they are word for word those of `lrkit-check`.
import { element } from "./elements.js";

/** Makes the place of a range, as `LINE:COLUMN`, which selects it in the text when it is pressed. */
export function placeOf(range, select) {
    const { start, end } = range;
    return element("button", { type: "button", class: "place", title: "select this place", click: () => select(start.byte, end.byte) }, `${start.line}:${start.column}`);
}

/** Shows a message: its place, how grave it is, and what may help. */
function messageOf(message, select) {
    const parts = message.range ? [placeOf(message.range, select), " "] : [];
    parts.push(element("strong", {}, `${message.severity}: `), message.message);
    if (message.help) parts.push(element("div", { class: "help" }, `help: ${message.help}`));
    if (message.example) parts.push(element("pre", {}, message.example));
    return element("li", { class: message.severity }, ...parts);
}

/** Finds the blocks of conflicts in the text of a report: the heading of each, and the lines of its example. */
export function conflictBlocks(text) {
    const blocks = [];
    for (const block of text.split("\n\n")) {
        const lines = block.split("\n");
        const heading = /^.*?: (?:warning|note): ((?:shift|reduce)\/reduce conflict in .*)$/.exec(lines[0]);
        if (!heading) continue;
        const from = lines.findIndex((it) => it.startsWith("  Example:"));
        blocks.push({ heading: heading[1], example: from < 0 ? null : lines.slice(from).map((it) => it.slice(2)).join("\n").trimEnd() });
    }
    return blocks;
}

/** Shows an example: its first line has the symbols, and below each action are the productions that are open. */
function exampleOf(example) {
    if (example === null) return element("p", { class: "aside" }, "No example was found.");
    const [first, ...others] = example.split("\n");
    return element("pre", { class: "example", tabindex: 0 }, element("b", {}, first), "\n", others.join("\n"));
}

/** Shows a conflict with its example. */
function conflictOf(conflict, block, index, select) {
    const heading = block ? block.heading : `${conflict.kind} conflict`;
    const places = conflict.productions.filter((it) => it.range).map((it) => element("li", {}, placeOf(it.range, select), " reduce ", element("code", {}, it.production)));
    if (conflict.shift) places.push(element("li", {}, placeOf(conflict.shift, select), " shift"));
    return element("section", { class: "conflict", id: `conflict-${index}`, tabindex: -1 }, element("h3", {}, heading), element("ul", { class: "places" }, ...places), exampleOf(block ? block.example : null));
}

/** Returns the line of the counts, as the report's text has it. */
function countsOf(counts) {
    const lines = [`rules: ${counts.rules}, tokens: ${counts.tokens}, productions: ${counts.productions}, states: ${counts.states}`];
    if (counts.shift_reduce + counts.reduce_reduce > 0) {
        const expected = `expected ${counts.expected_shift_reduce} and ${counts.expected_reduce_reduce}`;
        lines.push(`conflicts: ${counts.shift_reduce} shift/reduce, ${counts.reduce_reduce} reduce/reduce, ${expected}`);
    }
    return lines.map((it) => element("p", { class: "counts" }, it));
}

/** Shows the messages and conflicts of a report. */
export function conflictsPane(report, blocks, select) {
    const messages = [...report.notes, ...report.errors, ...report.warnings].map((it) => messageOf(it, select));
    const parts = report.counts ? countsOf(report.counts) : [];
    if (messages.length > 0) parts.push(element("ul", { class: "messages" }, ...messages));
    parts.push(...report.conflicts.map((it, i) => conflictOf(it, blocks[i], i, select)));
    if (report.counts && report.conflicts.length === 0) parts.push(element("p", { class: "good" }, "No conflict is listed."));
    return parts;
}

/** Returns the closed states of a report's text that lists them: the items and the edges of each, as lines. */
export function statesOf(words) {
    const mark = "\nStates:\n";
    const states = [];
    for (const line of words.slice(words.indexOf(mark) + mark.length).split("\n")) {
        const first = /^\d+: *(.*)$/.exec(line);
        if (first) states.push({ items: [first[1]], edges: [] });
        else if (line.trimStart().startsWith("[")) states.at(-1).items.push(line.trimStart());
        else if (line !== "") states.at(-1).edges.push(/^ *(.*) -> (\d+)$/.exec(line).slice(1));
    }
    return states;
}

/** Shows the states, each with its items and edges and the conflicts that it is in; of many only those with conflicts. */
export function statesPane(report, blocks, states, goTo) {
    if (!report.counts) return [element("p", {}, "This grammar gives no parser, so it has no states.")];
    const conflicts = new Map();
    report.conflicts.forEach((it, i) => it.states.forEach((state) => conflicts.set(state, [...(conflicts.get(state) ?? []), i])));
    const linkTo = (id, words) => element("button", { type: "button", class: "link", click: () => goTo(id) }, words);
    const conflictIn = (i) => element("li", {}, linkTo(`conflict-${i}`, blocks[i] ? blocks[i].heading : report.conflicts[i].kind));
    const edgeOf = ([symbol, to]) => element("li", {}, element("code", {}, symbol), " to ", linkTo(`state-${to}`, `state ${to}`));
    const inside = ({ items, edges }) => [element("pre", { tabindex: 0 }, items.join("\n")), element("ul", { class: "edges" }, ...edges.map(edgeOf))];
    const numbers = states ? states.keys() : [...conflicts.keys()].sort((one, other) => one - other);
    const stateOf = (state) => element("section", { class: "state", id: `state-${state}`, tabindex: -1 }, element("h3", {}, `State ${state}`), element("ul", {}, ...(conflicts.get(state) ?? []).map(conflictIn)), ...(states ? inside(states[state]) : []));
    const heading = `${report.counts.states} states, ${conflicts.size} with conflicts.`;
    const aside = element("p", { class: "aside" }, "Items and edges of so many states: ", element("code", {}, "./lrkit-check GRAMMAR --states"));
    return [element("p", { class: "counts" }, heading), ...(states ? [] : [aside]), ...[...numbers].map(stateOf)];
}
