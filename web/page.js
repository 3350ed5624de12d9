// The page: what its controls do, and where each part of an answer is shown.
import { element } from "./elements.js";
import { fragmentOf, placesOf, textsOf } from "./link.js";
import { railroads } from "./railroads.js";
import { conflictBlocks, conflictsPane, statesOf, statesPane } from "./reports.js";
import { agrees, rulesOf } from "./rules.js";
import { MOST_NODES, treeOf, treePicture, treeText } from "./trees.js";
import { Work } from "./work.js";

/** Milliseconds from the last key to the request for an answer, and between two looks at the clock. */
const PAUSE = 250;
const TICK = 200;

const at = (id) => document.getElementById(id);
const inputs = { grammar: at("grammar"), lexer: at("lexer"), text: at("text") };
const examples = JSON.parse(at("example-texts").textContent);
const texts = () => ({ grammar: inputs.grammar.value, lexer: inputs.lexer.value, text: inputs.text.value });

let asked = null; // the texts that the answer is about
let pause = 0;

/** Selects bytes of an input, and shows them. */
function selectIn(name, start, end) {
    const input = inputs[name];
    const [from, to] = placesOf(input.value, [start, Math.max(start, end)]);
    input.focus();
    input.setSelectionRange(from.index, to.index);
    const line = input.scrollHeight / input.value.split("\n").length;
    input.scrollTop = Math.max(0, (from.line - 3) * line);
}

/** Shows one of the tabs. */
function showTab(tab) {
    for (const it of document.querySelectorAll("[role=tab]")) {
        const isShown = it === tab;
        it.setAttribute("aria-selected", isShown);
        it.tabIndex = isShown ? 0 : -1;
        at(it.getAttribute("aria-controls")).hidden = !isShown;
    }
}

function goTo(id) {
    const there = at(id);
    if (!there) return;
    showTab(at(there.closest("[role=tabpanel]").getAttribute("aria-labelledby")));
    there.scrollIntoView({ block: "start" });
    there.focus({ preventScroll: true });
}

function say(words, isWrong = false) {
    at("status").textContent = words;
    at("status").className = isWrong ? "error" : "";
}

/** Shows states, or none, beside the conflicts of the last report. */
let showStates = null;

/** Shows the messages, conflicts and states of a report, and its text. */
function showReport({ found: report, words }) {
    const blocks = conflictBlocks(words);
    at("conflicts").replaceChildren(...conflictsPane(report, blocks, (start, end) => selectIn("grammar", start, end)));
    showStates = (states) => at("states").replaceChildren(...statesPane(report, blocks, states, goTo));
    showStates(null);
    at("report").replaceChildren(element("pre", { id: "report-text", tabindex: 0 }, words));
    const count = report.conflicts.length;
    at("tab-conflicts").textContent = report.errors.length > 0 ? "Errors" : count > 0 ? `Conflicts (${count})` : "Conflicts";
}

/** Shows the pictures of the rules. */
function showRules(names) {
    const read = rulesOf(asked.grammar);
    const isRight = read !== null && agrees(read, names);
    const aside = "Read from the text by this page, and held against the names of the library's productions.";
    const parts = isRight ? [...railroads(read.rules), element("p", { class: "aside" }, aside)] : [element("p", { class: "error" }, "The page cannot read the rules of this text, so it draws none.")];
    at("rules").replaceChildren(...parts);
}

/** Returns a line of a text with marks below a place. */
function markedLine(text, from, to) {
    const line = text.split("\n")[from.line - 1] ?? "";
    const before = [...line].slice(0, from.column - 1).map((it) => (it === "\t" ? "\t" : " "));
    const marks = from.line === to.line ? Math.max(1, to.column - from.column) : 1;
    const number = String(from.line).padStart(5);
    return `${number} | ${line}\n      | ${before.join("")}${"^".repeat(marks)}`;
}

/** Returns what is wrong with a text, in words. */
function faultOf({ kind, token, start, end }) {
    const part = new TextDecoder().decode(new TextEncoder().encode(asked.text).subarray(start, end));
    if (kind === "name") return `'${part}' is no token's name`;
    if (kind === "lexer") return token === null ? "no rule of the lexer matches here" : `unexpected ${token}`;
    return token === "$" ? "the text ends here" : `unexpected '${part}'`;
}

/** Shows the first error of a text. */
function showFault(error) {
    const [from, to] = placesOf(asked.text, [error.start, error.end]);
    const place = element("button", { type: "button", class: "place", title: "select this place", click: () => selectIn("text", error.start, error.end) }, `${from.line}:${from.column}`);
    const parts = [element("p", { class: "error", id: "text-error" }, place, " ", element("strong", {}, "error: "), faultOf(error)), element("pre", { tabindex: 0 }, markedLine(asked.text, from, to))];
    if (error.expected.length > 0) {
        parts.push(element("p", {}, "May come here:"), element("ul", { class: "tokens", id: "expected" }, ...error.expected.map((it) => element("li", {}, it))));
    }
    at("tree").replaceChildren(...parts);
}

/** Shows the tree of a text, as a picture and as a text, or why there is none. */
function showParse(parse) {
    at("tab-tree").textContent = parse.nodes ? "Tree" : "Tree: error";
    if (parse.error) return showFault(parse.error);
    if (parse.refused) {
        if (parse.refused === "grammar") at("rules").replaceChildren(element("p", {}, "The grammar gives no parser, so its rules are not drawn."));
        const why = parse.refused === "lexer" ? "The lexer's text gives no lexer:" : "The grammar gives no parser:";
        return at("tree").replaceChildren(element("p", { class: "error" }, why), element("pre", { tabindex: 0 }, parse.message));
    }
    const tree = treeOf(parse.nodes, asked.text);
    const select = (start, end) => selectIn("text", start, end);
    const help = element("p", { class: "aside" }, "Arrow keys move between the nodes. Enter or a click selects a node's part of the text.");
    const picture = tree.length > MOST_NODES ? [element("p", {}, `${tree.length} nodes are too many to draw: at most ${MOST_NODES}.`)] : [element("div", { class: "wide picture" }, treePicture(tree, at("outputs").clientWidth, select)), help];
    const text = element("details", { open: tree.length <= 200 ? "" : null }, element("summary", {}, `As text, ${tree.length} nodes`), element("pre", { id: "tree-text", tabindex: 0 }, treeText(tree)));
    at("tree").replaceChildren(...picture, text);
}

/** Takes a part of an answer. */
function hear(part, value, took) {
    if (part === "report") showReport(value);
    else if (part === "names") showRules(value);
    else if (part === "parse") showParse(value);
    else if (part === "states") showStates(statesOf(value));
    else if (part === "done") say(`${Math.max(1, Math.round(took))} ms`);
    else if (part === "import") takeImport(value);
    else if (part === "failed") say(value, true);
    if (work.elapsed() === null) at("stop").hidden = true;
    document.body.dataset.part = part;
}

const module = Uint8Array.from(atob(at("module-bytes").textContent), (it) => it.charCodeAt(0));
const work = new Work(at("worker-source").textContent, module, hear);

/** Asks for the answer to what the inputs have. */
function ask() {
    clearTimeout(pause);
    asked = texts();
    at("link").href = fragmentOf(asked);
    document.body.dataset.part = "asked";
    work.ask(asked);
}

/** Puts the text of an imported file in place of it. */
function takeImport({ status, text }) {
    if (status !== 0) return say(`not imported: ${text}`, true);
    inputs.grammar.value = text;
    ask();
}

function stop() {
    if (work.elapsed() === null) return;
    work.stop();
    say("stopped", true);
    document.body.dataset.part = "stopped";
}

function fill({ grammar, lexer, text }) {
    Object.assign(inputs.grammar, { value: grammar, scrollTop: 0 });
    Object.assign(inputs.lexer, { value: lexer, scrollTop: 0 });
    Object.assign(inputs.text, { value: text, scrollTop: 0 });
    ask();
}

/** Moves between the tabs by the arrow keys, Home and End. */
function onTabKey(event) {
    const tabs = [...document.querySelectorAll("[role=tab]")];
    const now = tabs.indexOf(event.target);
    const to = { ArrowRight: now + 1, ArrowLeft: now - 1, Home: 0, End: tabs.length - 1 }[event.key];
    if (now < 0 || to === undefined) return;
    event.preventDefault();
    const tab = tabs[(to + tabs.length) % tabs.length];
    showTab(tab);
    tab.focus();
}

/** Shows how long a request takes, and the button that stops it, where it isn't over at once. */
function look() {
    const elapsed = work.elapsed();
    const isLong = elapsed !== null && elapsed > 2 * TICK;
    at("stop").hidden = !isLong;
    if (isLong) say(`working, ${(elapsed / 1000).toFixed(1)} s`);
}

function onFragment() {
    const found = textsOf(location.hash);
    if (found && fragmentOf(found) !== fragmentOf(texts())) fill(found);
}

for (const input of Object.values(inputs)) {
    input.addEventListener("input", () => {
        clearTimeout(pause);
        pause = setTimeout(ask, PAUSE);
    });
}
for (const { name } of examples) at("examples").append(element("option", { value: name }, name));
at("examples").addEventListener("change", () => fill(examples.find((it) => it.name === at("examples").value)));
at("import").addEventListener("click", () => work.ask({ file: inputs.grammar.value }));
at("stop").addEventListener("click", stop);
document.querySelector("[role=tablist]").addEventListener("keydown", onTabKey);
document.querySelector("[role=tablist]").addEventListener("click", (event) => event.target.role === "tab" && showTab(event.target));
document.addEventListener("keydown", (event) => {
    if (event.key === "Escape") stop();
    if (event.key === "Enter" && (event.ctrlKey || event.metaKey)) ask();
});
at("rules").addEventListener("click", (event) => {
    const link = event.target.closest("a");
    if (!link) return;
    event.preventDefault();
    goTo(link.getAttribute("href").slice(1));
});
addEventListener("hashchange", onFragment);
setInterval(look, TICK);
fill(textsOf(location.hash) ?? examples[0]);
