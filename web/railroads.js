// Rules as railroad pictures in SVG: a way from the left to the right for each alternative.
import { element, svg } from "./elements.js";

/** Pixels: of a column of text, around it in a box, between boxes, of either side, of a way's height and its bends. */
const COLUMN = 8;
const PADDING = 22;
const GAP = 16;
const SIDE = 26;
const HEIGHT = 38;
const BEND = 8;

const labelOf = (symbol) => symbol.name + (symbol.isOptional ? "?" : "");
const boxWidth = (symbol) => [...labelOf(symbol)].length * COLUMN + PADDING;
const wayWidth = (symbols) => symbols.reduce((sum, it) => sum + boxWidth(it) + GAP, GAP);

/** Draws the box of a symbol: round for a token, a link for a rule. */
function boxOf(symbol, x, y) {
    const width = boxWidth(symbol);
    const kind = `${symbol.isToken ? "token" : "rule"}${symbol.isOptional ? " optional" : ""}`;
    const rect = svg("rect", { class: kind, x, y: y - 13, width, height: 26, rx: symbol.isToken ? 13 : 3 });
    const text = svg("text", { x: x + width / 2, y: y + 5 }, labelOf(symbol));
    return symbol.isToken ? svg("g", {}, rect, text) : svg("a", { href: `#rule-${symbol.name}` }, rect, text);
}

/** Draws the way of an alternative: from that of the one above down to its own height, through its boxes, and up again. */
function wayOf(symbols, index, end) {
    const y = index * HEIGHT + HEIGHT / 2;
    const above = index > 1 ? y - HEIGHT - BEND : HEIGHT / 2;
    const [left, right] = [SIDE / 2, end + SIDE / 2];
    const straight = `M0 ${y}H${SIDE}M${end} ${y}H${end + SIDE}`;
    const down = `M${left} ${above}V${y - BEND}q0 ${BEND} ${BEND} ${BEND}H${SIDE}`;
    const up = `M${end} ${y}H${right - BEND}q${BEND} 0 ${BEND} ${-BEND}V${above}`;
    const sides = index === 0 ? straight : down + up;
    const parts = [svg("path", { d: sides })];
    let x = SIDE;
    for (const symbol of symbols) {
        parts.push(svg("path", { d: `M${x} ${y}h${GAP}` }), boxOf(symbol, x + GAP, y));
        x += GAP + boxWidth(symbol);
    }
    parts.push(svg("path", { d: `M${x} ${y}H${end}` }));
    return parts;
}

/** Draws the picture of a rule. */
function railroad(rule) {
    const end = SIDE + Math.max(...rule.alternatives.map(wayWidth));
    const height = rule.alternatives.length * HEIGHT;
    const label = rule.alternatives.map((it) => it.map(labelOf).join(" ") || "%empty").join(" | ");
    return svg("svg", { width: end + SIDE, height, role: "img", "aria-label": `${rule.name}: ${label}` }, ...rule.alternatives.flatMap((it, i) => wayOf(it, i, end)));
}

/** Draws the pictures of all rules, each below its name. */
export function railroads(rules) {
    return rules.map((rule) =>
        element("section", { id: `rule-${rule.name}`, class: "railroad", tabindex: -1 }, element("h3", {}, rule.name), element("div", { class: "wide", tabindex: 0, role: "group", "aria-label": `${rule.name}, picture` }, railroad(rule))),
    );
}
