// Keys that work wherever nobody types.

/**
 * Whether a key goes to a field.
 * @param {EventTarget | null} target
 */
const isTyping = (target) => target instanceof HTMLSelectElement || target instanceof HTMLTextAreaElement
    || target instanceof HTMLInputElement && !['radio', 'checkbox'].includes(target.type);

/**
 * Connects the keys. An action gets nothing and returns nothing; a key that has none stays the browser's.
 * @param {() => string} viewOf
 * @param {{ [view: string]: { [key: string]: () => void } }} actions  by view; those of `any` work in each
 */
export const connectKeys = (viewOf, actions) => {
    addEventListener('keydown', (event) => {
        if (event.ctrlKey || event.metaKey || event.altKey || event.defaultPrevented) return;
        if (isTyping(event.target)) {
            if (event.key === 'Escape') /** @type {HTMLElement} */ (event.target).blur();
            return;
        }
        // the graph, the list, and the picture of hands have arrows of their own
        const isOwn = event.target instanceof Element && event.target.closest('.graph, .list, #grid, .seg');
        if (isOwn && event.key.startsWith('Arrow')) return;
        const action = (actions[viewOf()] || {})[event.key] || actions.any[event.key];
        if (!action) return;
        event.preventDefault();
        action();
    });
};
