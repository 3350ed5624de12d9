// Trees: as a text, in the form of `lrkit-parse`, and as a picture in SVG. Nothing here calls itself, so a deep tree is no fault.
import { svg } from "./elements.js";

/** Pixels of a picture: of a column of text, of a line, between labels, between levels. */
const LETTER = 7.6;
const LINE = 20;
const SPACE = 14;
const LEVEL = 44;

/** How many columns of a token's text a label shows. */
const LONGEST = 24;

/** A tree that is wider than this many times the room for it is drawn as an outline. */
const WIDEST = 1.4;

/** Pictures of more nodes are too large to be of use. */
export const MOST_NODES = 5000;

/** Makes a tree of nodes that each come right behind their children: each node gets its parent, children, level and text, the root first. */
export function treeOf(nodes, text) {
    const bytes = new TextEncoder().encode(text);
    const decoder = new TextDecoder("utf-8", { ignoreBOM: true });
    const open = [];
    for (const node of nodes) {
        const below = node.children === 0 ? [] : open.splice(open.length - node.children);
        open.push({ isToken: node.kind === 0, name: node.name, start: node.start, end: node.end, text: node.kind === 0 ? decoder.decode(bytes.subarray(node.start, node.end)) : null, above: null, below, level: 0 });
    }
    const root = open.pop();
    const order = [];
    for (const left = [root]; left.length > 0; ) {
        const node = left.pop();
        order.push(node);
        for (let i = node.below.length; i-- > 0; ) {
            Object.assign(node.below[i], { above: node, level: node.level + 1 });
            left.push(node.below[i]);
        }
    }
    return order;
}

/** Writes a tree with a line for each node, indented by a space a level. */
export function treeText(tree) {
    return tree.map((it) => " ".repeat(it.level) + it.name + (it.isToken ? ` ${it.text}` : "") + "\n").join("");
}

function nodeLabel(node) {
    if (!node.isToken) return node.name;
    const shown = node.text.replace(/\s+/g, " ");
    const cut = [...shown].length > LONGEST ? [...shown].slice(0, LONGEST).join("") + "…" : shown;
    return cut === node.name || cut === "" ? node.name : `${node.name} ${cut}`;
}

/** Puts each node beside those of its level: a leaf behind the last one, another node over the middle of its children. */
function placeBeside(tree) {
    let right = SPACE;
    for (const node of tree) node.width = [...nodeLabel(node)].length * LETTER + 16;
    for (const node of tree) {
        if (node.below.length > 0) continue;
        node.x = right + node.width / 2;
        right += node.width + SPACE;
    }
    for (let i = tree.length; i-- > 0; ) {
        const { below } = tree[i];
        if (below.length > 0) tree[i].x = (below[0].x + below[below.length - 1].x) / 2;
    }
    partLabels(tree);
    let depth = 0;
    for (const node of tree) {
        node.y = node.level * LEVEL + LINE;
        depth = Math.max(depth, node.y);
    }
    return { width: Math.max(...tree.map((it) => it.x + it.width / 2)) + SPACE, height: depth + LINE };
}

/** Moves nodes to the right, with all below them, where the label of one would cover that of its neighbour on the left. */
function partLabels(tree) {
    const ends = [];
    const moved = new Map();
    for (const node of tree) {
        node.x += moved.get(node) ?? 0;
        const lack = (ends[node.level] ?? 0) + SPACE - (node.x - node.width / 2);
        const more = Math.max(0, lack);
        node.x += more;
        ends[node.level] = node.x + node.width / 2;
        for (const it of node.below) moved.set(it, (moved.get(node) ?? 0) + more);
    }
}

/** Puts each node below the one before it, further right by its level. */
function placeBelow(tree) {
    let width = 0;
    tree.forEach((node, i) => {
        node.width = [...nodeLabel(node)].length * LETTER + 16;
        node.y = i * (LINE + 6) + LINE;
        node.x = node.level * 18 + node.width / 2 + 4;
        width = Math.max(width, node.x + node.width / 2);
    });
    return { width: width + SPACE, height: tree.length * (LINE + 6) + LINE };
}

/** Draws a node: round for a token, which selects its part of the text. The root is what the Tab key comes to. */
function nodeOf(node, select) {
    const rect = svg("rect", { class: node.isToken ? "token" : "rule", x: node.x - node.width / 2, y: node.y - 11, width: node.width, height: 22, rx: node.isToken ? 11 : 3 });
    const label = svg("text", { x: node.x, y: node.y + 4 }, nodeLabel(node));
    node.drawn = svg("g", { class: "node", role: "treeitem", "aria-level": node.level + 1, tabindex: node.above ? -1 : 0, click: () => select(node.start, node.end) }, rect, label);
    return node.drawn;
}

/** Returns the node to which a key leads from one, if any: where they are beside each other, by where they are drawn, else line by line. */
function nodeAt(tree, node, isBeside, key) {
    if (key === "Home") return tree[0];
    if (key === "End") return tree[tree.length - 1];
    const row = isBeside ? tree.filter((it) => it.level === node.level) : tree;
    const at = row.indexOf(node);
    const along = [row[at - 1], row[at + 1]];
    const across = [node.above, node.below[0]];
    const [[up, down], [left, right]] = isBeside ? [across, along] : [along, across];
    return { ArrowUp: up, ArrowDown: down, ArrowLeft: left, ArrowRight: right }[key];
}

/** Moves between the nodes by the arrow keys, Home and End; Enter and Space do what a click does. */
function onNodeKey(event, tree, isBeside, select) {
    const node = tree.find((it) => it.drawn === event.target);
    if (!node || event.ctrlKey || event.metaKey || event.altKey || !/^(Arrow.*|Home|End|Enter| )$/.test(event.key)) return;
    event.preventDefault();
    if (event.key === "Enter" || event.key === " ") return select(node.start, node.end);
    const to = nodeAt(tree, node, isBeside, event.key);
    if (!to) return;
    node.drawn.setAttribute("tabindex", -1);
    to.drawn.setAttribute("tabindex", 0);
    to.drawn.focus();
    to.drawn.scrollIntoView({ block: "nearest", inline: "nearest" });
}

/** Draws the line from a node down to one of those below it. */
function edgeBeside(node, it) {
    return svg("path", { d: `M${node.x} ${node.y + 11}C${node.x} ${node.y + 27} ${it.x} ${it.y - 27} ${it.x} ${it.y - 11}` });
}

/** Draws the line of an outline to a node, from where that to the one before it ends. */
function edgeBelow(node, it, before) {
    const from = before ? before.y : node.y + 11;
    return svg("path", { d: `M${node.x - node.width / 2 + 8} ${from}V${it.y}H${it.x - it.width / 2}` });
}

/** Draws a tree for a width in pixels: from the top down, or, where that is too wide, as an outline. */
export function treePicture(tree, room, select) {
    const beside = placeBeside(tree);
    const isBeside = beside.width <= WIDEST * room;
    const { width, height } = isBeside ? beside : placeBelow(tree);
    const edges = tree.flatMap((node) => node.below.map((it, i) => (isBeside ? edgeBeside(node, it) : edgeBelow(node, it, node.below[i - 1]))));
    const keydown = (event) => onNodeKey(event, tree, isBeside, select);
    return svg("svg", { width: Math.ceil(width), height: Math.ceil(height), role: "tree", "aria-label": `tree of ${tree.length} nodes; its text is below`, keydown }, ...edges, ...tree.map((it) => nodeOf(it, select)));
}
