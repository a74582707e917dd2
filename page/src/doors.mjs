// The ways in: files and folders that are chosen or dropped, and the example.

import { $ } from './dom.mjs';
import { filesOfDrop, filesOfField } from './dropped.mjs';

/**
 * Opens the ways in.
 * @param {{ take: (sources: import('./dropped.mjs').Source[]) => Promise<void>, takeExample: () => Promise<void>,
 *     say: (text: string, isBad?: boolean) => void, isReading: () => boolean }} page
 */
export const openDoors = ({ take, takeExample, say, isReading }) => {
    for (const id of ['files', 'folder', 'more-files', 'more-folder']) {
        $(id).onchange = () => {
            take(filesOfField($(id)));
            // the same file chosen again is a choice too
            $(id).value = '';
        };
    }
    $('example').onclick = takeExample;
    for (const name of ['dragenter', 'dragover']) {
        addEventListener(name, (event) => {
            event.preventDefault();
            document.body.classList.add('over');
        });
    }
    addEventListener('dragleave', (event) => { if (!event.relatedTarget) document.body.classList.remove('over'); });
    addEventListener('drop', async (event) => {
        event.preventDefault();
        document.body.classList.remove('over');
        if (!event.dataTransfer) return;
        if (!isReading()) say('Listing the files …');
        try {
            const sources = await filesOfDrop(event.dataTransfer);
            if (!sources.length && !isReading()) say('There are no files in what was dropped.', true);
            await take(sources);
        } catch (error) {
            say(`The files can't be listed: ${error instanceof Error ? error.message : error}`, true);
        }
    });
};
