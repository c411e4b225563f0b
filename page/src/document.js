// Elements of the page.

const SVG = 'http://www.w3.org/2000/svg';

/** @param {Element} element @param {Record<string, any>} attributes @param {(Node | string)[]} children */
function fill(element, attributes, children) {
    for (const [name, value] of Object.entries(attributes)) {
        if (name === 'onclick') element.addEventListener('click', value);
        else if (value !== null && value !== false) element.setAttribute(name, value === true ? '' : String(value));
    }
    element.append(...children);
    return element;
}

/** Makes an element. @param {string} tag @param {Record<string, any>} attributes @param {(Node | string)[]} children */
export const make = (tag, attributes = {}, ...children) => fill(document.createElement(tag), attributes, children);

/** The same in a picture. @param {string} tag @param {Record<string, any>} attributes @param {any[]} children */
export const draw = (tag, attributes = {}, ...children) =>
    fill(document.createElementNS(SVG, tag), attributes, children);

/** @param {string} id @returns {any} */
export const byId = (id) => document.getElementById(id);

/** Puts these in place of what an element has. What had the focus keeps it, by its key. */
export function replace(/** @type {Element} */ element, /** @type {(Node | string)[]} */ ...children) {
    const focused = /** @type {any} */ (document.activeElement);
    const key = element.contains(focused) ? focused.dataset.key : null;
    element.replaceChildren(...children);
    if (key === null || key === undefined) return;
    const again = /** @type {HTMLElement | null} */ (element.querySelector(`[data-key="${CSS.escape(key)}"]`));
    (again ?? /** @type {HTMLElement} */ (element.closest('section')))?.focus({ preventScroll: true });
}
