// node each.mjs PAGE.html EQUITY EXAMPLES ENGINE : what is tried in each engine (chromium, firefox, webkit); see page/test
// Each mode and form over each example gives the native program's bytes. The page reads files in order of time, and shows them.

import { readFileSync, readdirSync } from 'node:fs';
import { join } from 'node:path';
import { examples, expect, inFolder, own, runAll, tabOf } from './tab.mjs';
import { listed } from './listed.mjs';
import * as rows from './rows.mjs';
import { views } from './views.mjs';

const engine = process.argv[5];
const { open } = await import(`../drive/${engine}.mjs`);
const HISTORIES = ['check', 'audit', 'streets', 'results', 'settle', 'totals', 'balance'], SPOTS = ['spots', 'ranges'];

await runAll(engine, async () => {
    const driver = await open({}), tab = tabOf(driver), { run } = tab;
    try {
        await tab.fresh();
        const session = readFileSync(join(examples, 'session.txt'), 'utf8'), hostile = inFolder(rows.hostile(session), 'hostile');
        const texts = readdirSync(examples).filter((it) => it.endsWith('.txt')).map((it) => join(examples, it));
        let runs = 0;
        for (const file of [...texts, ...hostile]) {
            const input = readFileSync(file), modes = input.includes('PokerStars') ? HISTORIES : SPOTS;
            for (const mode of modes) for (const form of ['text', 'csv']) {
                const { status, stdout } = own(input, mode, '--format', form), said = await tab.ran(mode, form, input);
                expect(said === `${status} ${stdout.toString('base64')}`, `${engine}: ${mode} --format ${form} of ${file}`);
                runs++;
            }
        }
        expect(runs > 150, `there are ${runs} runs`);

        // the example, and own files after it, in any order
        await run('page.takeExample().then(() => 0)');
        expect(/^[0-9]+ hands, .* rejected\./.test(await tab.text('heads')), `the example: ${await tab.text('heads')}`);
        expect(await run('document.querySelectorAll("#graph path").length') > 0, 'the graph is drawn');
        if (engine !== 'webkit') await tab.shoot(`${engine}-example.png`);
        const month = inFolder(rows.month(session), 'month'), graphs = [];
        for (const files of [month, rows.shuffled(month)]) {
            await tab.fresh();
            await run('page.takeExample().then(() => 0)');
            await tab.give(files);
            expect(await tab.count() === 4 * month.length, `own files are without the example: ${await tab.text('heads')}`);
            graphs.push([await tab.series('hand'), await tab.series('day'), await tab.series('session')]);
        }
        expect(JSON.stringify(graphs[0]) === JSON.stringify(graphs[1]), 'shuffled copies of a month give one graph');
        expect(graphs[0].every((points) => points.every((it, at) => at === 0 || it[0] > points[at - 1][0])), 'x rises');

        // files without a hand, a hand, a spot, and the way back
        await tab.give(inFolder(rows.mixed(session), 'mixed'));
        await tab.view('files');
        expect(await run('document.querySelectorAll("#missed-files tbody tr").length') === 3, 'three files without a hand are named');
        await tab.give([join(examples, 'dispute.txt')]);
        await tab.open('7202');
        expect((await tab.text('sheet')).includes('sam is to get 325.'), 'a sheet says who is to get what');
        expect(/SHA-256 of the file: [0-9a-f]{64}/.test(await tab.text('sheet')), 'a sheet has the checksum of the file');
        expect(await run('location.hash') === '#hand', 'the address has the name of the view');
        await run('(history.back(), 0)');
        expect(await tab.until('page.views.view === "files"'), 'Back closes the hand');
        await views(tab, engine, session);
        const line = 'holdem As Ah - Ks Kh -- 2c 7d 9h 4s';
        await run(`(document.getElementById('spot').value = ${JSON.stringify(line)}, page.answer())`);
        expect(await tab.report() === own(`${line}\n`, 'spots').stdout.toString(), 'a spot is answered');
        // ranges above the limit, in parts: counted by a listing of another program
        for (const { line: wide, report } of listed().slice(0, 3)) {
            const begun = Date.now();
            await tab.ask(wide);
            const said = await tab.report();
            expect(said === report, `${wide} in parts: ${said}`);
            console.log(`page/test: ${engine}: ${wide}: ${((Date.now() - begun) / 1000).toFixed(1)} s`);
        }
        if (engine !== 'webkit') await tab.shoot(`${engine}-ranges.png`);
        await run(`fetch('tab.mjs').then(() => 'read', () => 'refused')`).then((it) => expect(it === 'refused', 'nothing is fetched'));
        // the driver of WebKit hangs if the picture is of a large page
        if (engine !== 'webkit') await tab.shoot(`${engine}-month.png`);
    } finally {
        await driver.close();
    }
});
