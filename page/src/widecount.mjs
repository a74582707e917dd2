// Counts ranges above the limit of the program in parts, with the time that it takes, how far it is, and a stop.

import { writtenAnswer } from './answers.mjs';
import { countJobs, durationText, makeProgress, secondsFor } from './counting.mjs';
import { node, save } from './dom.mjs';
import { counted, many } from './progress.mjs';
import { answerNode, askedNode, control } from './spotbars.mjs';
import { faultNode, refusalSentence } from './understood.mjs';
import { addPart, checkSum, noAnswer, planOf } from './wide.mjs';

/** @typedef {import('./typed.mjs').Typed} Typed */
/** @typedef {import('./counting.mjs').Workers} Workers */

/** What takes longer, in seconds, begins with a click. */
const LONG = 45, PARTS_PER_WORKER = 8;

const SAYS_FOUR = 'These four ranges have too many runouts together. Two or three ranges are counted in parts, but ' +
    'not four: the counts of a part don\'t say how many players share a tie, so the equities don\'t follow from ' +
    'the sums. Add a board, or choose fewer hands.';
const SAYS_RANGES = 'These ranges have more than 200,000,000 runouts together, which is too many to count at once.';
const SAYS_SPOT = 'This spot has more than 200,000,000 runouts, which is too many to count. Add cards or dead cards.';
const SAYS_ASKED = 'The line is above the program’s limit. So the program was asked';

/**
 * Waits for a click, if the count takes long.
 * @param {HTMLElement} row
 */
const clicked = (row) => new Promise((done) => {
    const start = control('Count', () => {
        start.remove();
        done(0);
    });
    row.append(start);
});

/**
 * Counts a line that the program refuses because it is above the limit. Returns what is to be shown; meanwhile `place`
 * shows how far it is.
 * @param {Typed} typed
 * @param {Workers | undefined} workers
 * @param {HTMLElement} place
 * @returns {Promise<Node[]>}
 */
export const countAbove = async (typed, workers, place) => {
    const { sides, board, dead, line } = typed;
    if (typed.mode === 'spots') return [faultNode({ word: '', says: SAYS_SPOT })];
    if (!workers) return [faultNode({ word: '', says: SAYS_RANGES })];
    if (sides.length > 3) return [faultNode({ word: '', says: SAYS_FOUR })];
    const spot = { sides: sides.map(({ range }) => range), board, dead };
    const plan = planOf(spot, workers.size * PARTS_PER_WORKER), cost = plan.ways * plan.runouts;
    if (!plan.choices) return [faultNode({ word: '', says: refusalSentence('NoChoice') })];
    const seconds = secondsFor(cost, workers.size);
    const says = node('span', `About ${durationText(seconds)} on ${many(workers.size, 'worker')}.`);
    const row = node('p.row', says);
    place.replaceChildren(
        node('p', `${many(plan.choices, 'choice')} of hands with ${counted(plan.runouts)} runouts each, in ${
            many(plan.count, 'part')}.`), row);
    if (seconds > LONG) await clicked(row);
    row.append(control('Stop', workers.stop));
    const sum = noAnswer(plan), follow = makeProgress(cost);
    const jobs = function* () {
        for (const part of plan.parts()) yield { lines: [part.line], cost: part.ways * plan.runouts };
    };
    await countJobs(workers, jobs(), (job, [read]) => {
        addPart(sum, read);
        says.textContent = follow(job.cost);
    });
    checkSum(sum, plan);
    const keep = control('Keep the parts', () => save('parts.txt', 'text/plain', linesOf(plan)));
    const asked = askedNode(
        `${SAYS_ASKED} ${many(plan.count, 'line')} that have the choices of`, line,
        'The sum, in the form of the program’s report', writtenAnswer(sum));
    asked.append(node('p', 'The page added up the program’s counts. ', keep));
    return [answerNode(sum, sides), asked];
};

/**
 * Returns the lines of a plan as parts of a file.
 * @param {import('./wide.mjs').Plan} plan
 */
const linesOf = (plan) => Array.from(plan.parts(), ({ line }) => `${line}\n`);
