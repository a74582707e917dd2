// Workers that take jobs from one queue. A worker has one job at a time, so a stop ends it at once.

/**
 * @typedef {{ postMessage: (message: any, moved?: any) => void, terminate: () => void, onmessage: any, onerror: any }}
 * WorkerLike
 * @typedef {{ message: any, moved: ArrayBufferLike[], yes: (answer: any) => void, no: (error: Error) => void }} Job
 * @typedef {{ worker: WorkerLike | null, job: Job | null, isReady: boolean }} Place
 */

/**
 * Makes a pool. A worker is started when there is a job for it, and kept. `module` is posted to it first.
 * @param {() => WorkerLike} start
 * @param {any} module
 * @param {number} size
 */
export const makePool = (start, module, size) => {
    /** @type {Job[]} */
    const queue = [];
    /** @type {Place[]} */
    const places = Array.from({ length: size }, () => ({ worker: null, job: null, isReady: false }));

    /** @param {Place} place */
    const next = (place) => {
        if (place.job || !queue.length) return;
        place.job = /** @type {Job} */ (queue.shift());
        if (!place.worker) begin(place);
        else give(place);
    };
    /** @param {Place} place */
    const give = (place) => {
        if (place.isReady && place.job && place.worker) place.worker.postMessage(place.job.message, place.job.moved);
    };
    /** @param {Place} place */
    const end = (place) => {
        if (place.worker) place.worker.terminate();
        place.worker = null;
        place.isReady = false;
    };
    /** @param {Place} place */
    const begin = (place) => {
        const worker = start();
        place.worker = worker;
        worker.onmessage = (/** @type {{ data: any }} */ { data }) => {
            if (place.worker !== worker) return;
            if (!place.isReady && !data.error) {
                place.isReady = true;
                give(place);
                return;
            }
            const { job } = place;
            place.job = null;
            // a worker that couldn't even start is dropped, so the next job starts another
            if (!place.isReady) end(place);
            if (job) data.error ? job.no(new Error(data.error)) : job.yes(data.answer);
            next(place);
        };
        worker.onerror = (/** @type {ErrorEvent} */ event) => {
            if (place.worker !== worker) return;
            const { job } = place;
            place.job = null;
            end(place);
            if (job) job.no(new Error(event.message || 'a worker failed'));
            next(place);
        };
        worker.postMessage({ module });
    };

    return {
        size,
        /**
         * Answers a message once a worker has done it.
         * @param {any} message
         * @param {ArrayBufferLike[]} [moved]
         * @returns {Promise<any>}
         */
        run: (message, moved = []) => new Promise((yes, no) => {
            queue.push({ message, moved, yes, no });
            const free = places.find((place) => !place.job && place.isReady) || places.find((place) => !place.job);
            if (free) next(free);
        }),
        /** Ends every job, those that wait too. */
        stop: () => {
            const ended = [...places.map((place) => place.job), ...queue];
            queue.length = 0;
            for (const place of places) {
                if (place.job) end(place);
                place.job = null;
            }
            for (const job of ended) if (job) job.no(new Error('stopped'));
        },
    };
};
