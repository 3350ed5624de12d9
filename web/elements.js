// Elements of the page, made of their name, attributes and what is in them.

function filled(made, attributes, inside) {
    for (const [name, value] of Object.entries(attributes)) {
        if (typeof value === "function") made.addEventListener(name, value);
        else if (value !== null && value !== undefined) made.setAttribute(name, value);
    }
    made.append(...inside);
    return made;
}

/** Makes an element of HTML. An attribute that is a function listens to the event of that name. */
export function element(name, attributes, ...inside) {
    return filled(document.createElement(name), attributes, inside);
}

/** Makes an element of SVG. */
export function svg(name, attributes, ...inside) {
    return filled(document.createElementNS("http://www.w3.org/2000/svg", name), attributes, inside);
}
