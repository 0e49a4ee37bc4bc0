// The largest letter: 1 MiB with 2,000 units.
import { readFileSync } from 'node:fs';
import { LIT, TEXT, VERDICT, asText, ask, clickLine, expected, is, made } from './support.mjs';

const OPENED = 3, EVERY = 7; // the tenth line and each tenth after it are in pieces

// How long it takes to open a page, in milliseconds, and in brackets the processor time of the page's own thread.
async function opened(page, url) {
    const times = [];
    await page.tell('Performance.enable', { timeDomain: 'threadTicks' });
    for (let i = 0; i < OPENED; i++) {
        await page.open(url); // a page's clocks begin with it
        const { metrics } = await page.tell('Performance.getMetrics'), worked = metrics.find(({ name }) => name === 'TaskDuration').value;
        times.push(`${await page.run('document.documentElement.dataset.ready')} (${Math.round(1000 * worked)})`);
    }
    return times;
}

export async function largest(page, file) {
    const url = made(file), wanted = expected(file, 'layout'), octets = readFileSync(file), size = readFileSync(url.slice('file://'.length)).length;
    await page.size(1400, 900);
    const times = await opened(page, url);
    console.log(`the largest letter, ${octets.length} octets, ${wanted.length} units, a page of ${size} octets: opened in ${times.join(', ')} ms`);
    is('the largest: accepted, no alarm', await page.run(VERDICT), ['Accepted', true]);
    const blocks = await page.run(TEXT);
    is('the largest: the text', asText(blocks).equals(ask('text', file).stdout), true);
    is('the largest: as many lines', blocks.flat().length, wanted.length);
    const some = [...wanted.keys()].filter(line => line % EVERY === 0);
    const lit = await page.run(`[${some}].map(line => { ((line) => ${clickLine('line')})(line); return ${LIT}; })`);
    is('the largest: each line that is chosen lights up its octets and no others', lit, some.map(line => wanted[line]));
}
