// Lines of ranges above the limit of the program, with the report of a plain listing by another program: tests/wide.cases.

import { readFileSync } from 'node:fs';

/** Returns the lines of tests/wide.cases, each with its report. */
export const listed = () => readFileSync(new URL('../../tests/wide.cases', import.meta.url), 'utf8').split(/^(?=holdem )/m).slice(1).map((text) => {
    const [line, ...report] = text.trimEnd().split('\n');
    return { line, report: `${report.join('\n')}\n` };
});
