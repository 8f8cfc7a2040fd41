// Elements made and filled: texts go in as text, never as markup.

const SVG = 'http://www.w3.org/2000/svg';

export const find = (id) => document.getElementById(id);

function filled(element, attributes, children) {
    for (const [name, value] of Object.entries(attributes)) {
        if (value !== null && value !== undefined) {
            element.setAttribute(name, value);
        }
    }
    element.append(...children);
    return element;
}

export const make = (name, attributes = {}, ...children) => filled(document.createElement(name), attributes, children);

export const draw = (name, attributes = {}, ...children) => filled(document.createElementNS(SVG, name), attributes, children);

function scrollTo(box, element) {
    const [outer, inner] = [box, element].map((one) => one.getBoundingClientRect());
    if (inner.top < outer.top) {
        box.scrollTop -= outer.top - inner.top;
    } else if (inner.bottom > outer.bottom) {
        box.scrollTop += Math.min(inner.bottom - outer.bottom, inner.top - outer.top);
    }
}

// Brings an element into view in the box that scrolls it, and moves nothing else. A second time when it is drawn, as only then its height is known.
export function reveal(box, element) {
    scrollTo(box, element);
    requestAnimationFrame(() => scrollTo(box, element));
}

// Calls a function when it was not asked for again for that many milliseconds.
export function settled(milliseconds, call) {
    let waiting;
    return () => {
        clearTimeout(waiting);
        waiting = setTimeout(call, milliseconds);
    };
}
