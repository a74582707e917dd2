// What a call can fail with.

/** @typedef {import('../equity').Code} Code */

/** A call that has no answer. `code` says which kind, and `cause` what the program printed of it. */
export class EquityError extends Error {
    /**
     * @param {Code} code
     * @param {string} message
     * @param {string} [cause]
     */
    constructor(code, message, cause = '') {
        super(message);
        this.name = 'EquityError';
        this.code = code;
        this.cause = cause;
    }
}

/** @type {Record<number, [Code, string]>} */
const STATUSES = {
    2: ['USAGE', 'the words name no mode and form of equity'],
    5: ['TOO_LONG', 'the input is longer than 1 GiB'],
    6: ['MEMORY', 'the memory is too small for this input'],
};

/**
 * The error of an exit status that is neither 0 nor 1.
 * @param {number} status
 */
export const statusError = (status) => {
    const [code, message] = STATUSES[status] || ['TRAP', `the program ended with status ${status}`];
    return new EquityError(code, message);
};
