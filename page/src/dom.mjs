// Nodes, always from texts and never from HTML.

/** @typedef {Node | string} Child */

/**
 * Makes an element with a text or children.
 * @param {string} name  with classes after points: p.bad
 * @param {...Child} children
 * @returns {HTMLElement}
 */
export const node = (name, ...children) => {
    const [tag, ...classes] = name.split('.').filter((it, at) => it || !at), it = document.createElement(tag);
    if (classes.length) it.className = classes.join(' ');
    it.append(...children);
    return it;
};

/**
 * Sets attributes of an element, and returns it.
 * @template {Element} T
 * @param {T} it
 * @param {{ [name: string]: string | number }} attributes
 */
export const having = (it, attributes) => {
    for (const [key, value] of Object.entries(attributes)) it.setAttribute(key, String(value));
    return it;
};

/**
 * Makes a button.
 * @param {string} text
 * @param {() => void} onclick
 * @param {string} [name]  with classes after points
 */
export const button = (text, onclick, name = 'button') => {
    const it = /** @type {HTMLButtonElement} */ (node(name, text));
    it.type = 'button';
    it.onclick = onclick;
    return it;
};

/**
 * Makes an element of a picture.
 * @param {string} name
 * @param {{ [name: string]: string | number }} attributes
 * @param {...(string | Node)} children
 */
export const shape = (name, attributes, ...children) => {
    const it = having(document.createElementNS('http://www.w3.org/2000/svg', name), attributes);
    it.append(...children);
    return it;
};

const ICONS = {
    check: 'M3 8.5 6.5 12 13 4.5', warn: 'M8 2.5 14.5 13.5h-13zM8 6.5v3.5M8 12v.1', down: 'M3.5 6 8 10.5 12.5 6',
    plus: 'M8 3v10M3 8h10'
};

/**
 * Makes a small picture.
 * @param {keyof typeof ICONS} name
 */
export const icon = (name) =>
    shape('svg', { viewBox: '0 0 16 16', 'aria-hidden': 'true', class: 'icon' }, shape('path', { d: ICONS[name] }));

/**
 * Makes a cell of the head of a table.
 * @param {'col' | 'row'} scope
 * @param {string} name  with classes after points
 * @param {...Child} children
 */
export const head = (scope, name, ...children) => having(node(name, ...children), { scope });

/**
 * Returns the element of the page with an id.
 * @param {string} id
 * @returns {any}
 */
export const $ = (id) => document.getElementById(id);

/**
 * Hands a file to the user.
 * @param {string} name
 * @param {string} type
 * @param {BlobPart[]} parts
 */
export const save = (name, type, parts) => {
    const address = URL.createObjectURL(new Blob(parts, { type })), it = /** @type {HTMLAnchorElement} */ (node('a'));
    it.href = address;
    it.download = name;
    it.click();
    setTimeout(() => URL.revokeObjectURL(address), 60000);
};
