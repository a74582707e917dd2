// Long work in short steps, between which the page answers.

/** How long a step computes, in milliseconds. */
export const STEP = 12;

export const pause = () => new Promise((done) => { setTimeout(done); });

/**
 * Returns what is awaited between parts of long work. It waits for a step of its own first, and then whenever the step
 * has taken long enough.
 */
export const steps = () => {
    let begun = -Infinity;
    return async () => {
        if (performance.now() - begun < STEP) return;
        await pause();
        begun = performance.now();
    };
};
