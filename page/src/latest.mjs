// Only the answer to the latest question is shown.

/**
 * Returns a function that starts a job and shows its result, unless another job was started meanwhile.
 * `clear` runs when a job starts, `show` with its result, and `fail` with its error.
 * @template T
 * @param {{ clear: () => void, show: (result: T) => void, fail: (error: Error) => void }} panel
 * @returns {(job: (() => Promise<T>) | null) => Promise<void>}
 */
export const latest = ({ clear, show, fail }) => {
    let started = 0;
    return async (job) => {
        const number = ++started;
        clear();
        if (!job) return;
        try {
            const result = await job();
            if (number === started) show(result);
        } catch (error) {
            if (number === started) fail(error instanceof Error ? error : new Error(String(error)));
        }
    };
};
