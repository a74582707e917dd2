// The files of a drop, with those of its folders, each with its path.

/** @typedef {{ path: string, file: File }} Source */

/**
 * Returns all files of a folder by its handle.
 * @param {any} handle
 * @param {string} path
 * @returns {Promise<Source[]>}
 */
const ofHandle = async (handle, path) => {
    if (handle.kind === 'file') return [{ path: path + handle.name, file: await handle.getFile() }];
    const all = [];
    for await (const it of handle.values()) all.push(...await ofHandle(it, `${path}${handle.name}/`));
    return all;
};

/**
 * Returns all files of a folder by its entry, for browsers that give no handle.
 * @param {any} entry
 * @returns {Promise<Source[]>}
 */
const ofEntry = async (entry) => {
    if (entry.isFile)
        return [{ path: entry.fullPath.replace(/^\//, ''), file: await new Promise((yes, no) => entry.file(yes, no)) }];
    const reader = entry.createReader(), all = [];
    for (;;) {
        /** @type {any[]} */
        const some = await new Promise((yes, no) => reader.readEntries(yes, no));
        if (!some.length) return all;
        for (const it of some) all.push(...await ofEntry(it));
    }
};

/**
 * Returns the files of a drop. The browser forgets a drop at once, so every item is asked before anything is awaited.
 * @param {DataTransfer} transfer
 * @returns {Promise<Source[]>}
 */
export const filesOfDrop = async (transfer) => {
    const asked = [...transfer.items].filter((it) => it.kind === 'file').map((item) => {
        const it = /** @type {any} */ (item), entry = it.webkitGetAsEntry ? it.webkitGetAsEntry() : null,
              file = it.getAsFile();
        if (!entry || !entry.isDirectory) return file ? [{ path: file.name, file }] : [];
        return it.getAsFileSystemHandle
            ? it.getAsFileSystemHandle().then((/** @type {any} */ handle) => ofHandle(handle, ''))
            : ofEntry(entry);
    });
    return (await Promise.all(asked)).flat();
};

/**
 * Returns the files of a field.
 * @param {HTMLInputElement} field
 * @returns {Source[]}
 */
export const filesOfField =
    (field) => [...field.files || []].map((file) => ({ path: file.webkitRelativePath || file.name, file }));
