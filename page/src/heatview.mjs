// Shows the equity of each cell of the grid against one range or two, in the background, with the time left and a way
// to stop.

import { countJobs, durationText, makeProgress, secondsFor } from './counting.mjs';
import { node } from './dom.mjs';
import { makeHeat, planHeat } from './heat.mjs';
import { control } from './spotbars.mjs';

/** @typedef {import('./heat.mjs').Warmth} Warmth */
/** @typedef {import('./wide.mjs').Spot} Spot */
/** What takes longer, in seconds, begins with a click. */
const LONG = 300;

/**
 * Makes the switch between choosing cells and their equities. `against` returns the ranges of the other players with
 * board and dead cards, or a sentence if they can't be counted; `mark` draws the grid.
 * @param {{ workers: Promise<import('./counting.mjs').Workers> | undefined, against: () => Spot | string,
 *     mark: () => void }} panel
 */
export const makeHeatView = ({ workers, against, mark }) => {
    /** @type {Map<string, Warmth> | null} */
    let cells = null;
    let asked = '', number = 0;
    const note = node('span'), places = node('span.row');
    note.setAttribute('role', 'status');

    const count = async (/** @type {Spot} */ spot, /** @type {boolean} */ isWanted) => {
        const pool = await workers, mine = ++number;
        if (!pool) return;
        const { cost, jobs } = planHeat(spot), seconds = secondsFor(cost, pool.size);
        cells = new Map();
        mark();
        const title = `Equity in percent against ${spot.sides.map((it) => it.split(',').join(', ')).join(' and ')}`;
        if (seconds > LONG && !isWanted) {
            note.textContent = `${title}: about ${durationText(seconds)} on ${pool.size} workers. `;
            note.append(control('Count', () => count(spot, true)));
            return;
        }
        note.textContent = `${title}: about ${durationText(seconds)}. `;
        const says = node('span'), follow = makeProgress(cost), add = makeHeat(spot);
        places.replaceChildren(says, control('Stop', pool.stop));
        try {
            await countJobs(pool, jobs(), (job, reads) => {
                if (mine !== number || !cells) return;
                for (const [name, it] of add(job, reads)) cells.set(name, it);
                says.textContent = follow(job.cost);
                mark();
            });
            if (mine === number) note.textContent = `${title}.`;
        } catch (error) {
            // the next count shows all cells again
            if (mine === number) asked = '';
            if (mine === number) note.textContent = error instanceof Error && error.message === 'stopped'
                ? `${title}: stopped. ` : `${error}`;
        }
        if (mine === number) places.replaceChildren();
    };
    /** Counts again if the range changed. */
    const refresh = async () => {
        const spot = against(), key = JSON.stringify(spot);
        if (!cells || key === asked) return;
        asked = key;
        if (typeof spot !== 'string') await count(spot, false);
        else {
            number++;
            cells = new Map();
            note.textContent = spot;
            places.replaceChildren();
            mark();
        }
    };
    const turn = control('Show equities', () => {
        turn.setAttribute('aria-pressed', String(!cells));
        number++;
        asked = '';
        places.replaceChildren();
        if (cells && workers) workers.then((pool) => pool.stop());
        cells = cells ? null : new Map();
        note.textContent = '';
        mark();
        refresh();
    });
    turn.setAttribute('aria-pressed', 'false');
    return { cells: () => cells, refresh, nodes: [turn, note, places] };
};
