// What people do on the page: keys, mouse, an address, saving, choosing and dropping a file, a narrow or dark page.
import { mkdirSync, readFileSync, readdirSync } from 'node:fs';
import { join } from 'node:path';
import { until } from './browser.mjs';
import { FOX } from './letters.mjs';
import { FRAMES, LIT, SELECTED, TEXT, asText, ask, expected, is, json, made, room, samples } from './support.mjs';

const TOLD = `document.querySelector('#told').textContent`;

async function keys(page, file) {
    await page.open(made(file));
    await page.run(`document.querySelector('.line').focus()`);
    await page.key('ArrowDown');
    await page.key('ArrowDown');
    is('keys: the third line', await page.run(`[${SELECTED}, document.activeElement.className]`), [2, 'line']);
    is('keys: one stop', await page.run(`document.querySelectorAll('.line[tabindex="0"]').length`), 1);
    const [first] = expected(file, 'layout')[2];
    await page.run(`document.querySelector('#octets').focus()`);
    await page.key('ArrowRight');
    await page.key('ArrowDown');
    is('keys: an octet', (await page.run(TOLD)).startsWith(`Octet ${(first + 17).toLocaleString('en')} `), true);
    is('keys: its address', await page.run('location.hash'), `#octet-${first + 17}`);
    await page.key('Enter');
    is('keys: to its line', await page.run('document.activeElement.className'), 'line');
    await page.open(`${made(file)}#octet-${first}`);
    is('an address opens', await page.run(`[${SELECTED}, document.querySelector('.r .h .k').octet]`), [2, first]);
}

async function mouse(page, file) {
    await page.open(made(file));
    const place = await page.run(`(() => { const { x, y } = document.querySelectorAll('.line pre')[0].getBoundingClientRect(); return [x + 10, y + 8]; })()`);
    await page.move(place);
    is('mouse: over a line', await page.run(`[document.querySelectorAll('.r .h .o').length > 0, document.querySelectorAll('.line.hot').length]`), [true, 1]);
    await page.drag(place, place);
    is('mouse: on a line', await page.run(SELECTED), 0);
}

// Some characters of a line that stands in pieces light up their octets alone, and an octet points at its character.
async function parts(page, file) {
    const places = expected(file, 'layout').at(-1), line = 7;
    await page.open(made(file));
    await page.run(`document.querySelectorAll('.line')[${line}].scrollIntoView(), ${FRAMES}`);
    const [from, to] = await page.run(`(() => { // from the q of quick to the x of fox
        const range = document.createRange(), text = document.querySelectorAll('.line pre')[${line}].firstChild;
        const at = (i, end) => {
            range.setStart(text, i);
            range.setEnd(text, i + 1);
            const box = range.getBoundingClientRect();
            return [end ? box.right - 1 : box.left + 1, (box.top + box.bottom) / 2];
        };
        return [at(4, false), at(18, true)];
    })()`);
    await page.drag(from, to);
    await page.wait(`${TOLD}.startsWith('Part of line ${line + 1}')`);
    is('characters that are selected', await page.run(`[getSelection().toString(), ${LIT}]`), ['quick brown fox', places.slice(4, 19)]);
    await page.run('getSelection().removeAllRanges()');
    for (const i of [4, 43]) {
        await page.run(`[...document.querySelectorAll('.r .h i')].find(cell => cell.octet === ${places[i]}).click()`);
        const pointed = `[...CSS.highlights.get('octet')].map(range => [range.toString(), range.startOffset])`;
        is(`octet ${places[i]} points at its character`, await page.run(pointed), [[FOX[i], i]]);
    }
}

async function saved(page, file) {
    const folder = join(room, 'saved');
    mkdirSync(folder);
    await page.downloads(folder);
    await page.open(made(file));
    await page.run(`[...document.querySelectorAll('#size button')][0].click()`);
    await until('the file that is saved', () => readdirSync(folder).includes('hostile.odif'));
    is('saved', readFileSync(join(folder, 'hostile.odif')).equals(readFileSync(file)), true);
}

async function viewer(page) {
    const [claim, cut] = ['claim.odif', 'cut-short.odif'].map(name => join(samples, name));
    await page.open(made());
    is('a viewer: nothing yet', await page.run(`[document.querySelector('#drop').hidden, document.querySelector('#panes').hidden]`), [false, true]);
    const { root: { nodeId } } = await page.tell('DOM.getDocument'), input = await page.tell('DOM.querySelector', { nodeId, selector: '#file' });
    await page.tell('DOM.setFileInputFiles', { nodeId: input.nodeId, files: [claim] });
    await page.wait(`document.querySelectorAll('.line').length`);
    is('a viewer: a file is chosen', asText(await page.run(TEXT)).toString(), ask('text', claim).stdout.toString());
    const data = { items: [], files: [cut], dragOperationsMask: 1 };
    for (const type of ['dragEnter', 'dragOver', 'drop']) await page.tell('Input.dispatchDragEvent', { type, x: 300, y: 400, data });
    await page.wait(`document.querySelector('h1').textContent === 'cut-short.odif'`);
    is('a viewer: a file is dropped', await page.run(`document.querySelector('#facts dd b').textContent`), `Refused, number ${json('check', '--json', cut).number}`);
}

async function editions(page, tiled) {
    await page.open(made(tiled));
    const { number } = json('check', '--json', tiled);
    is('1993: refused by 1988', await page.run(`document.querySelector('#facts dd b').textContent`), `Refused, number ${number}`);
    await page.run(`[...document.querySelectorAll('#facts button')].at(-1).click()`);
    const shown = `[document.querySelector('#edition').value, document.querySelector('#text pre').textContent]`;
    is('1993: accepted when that is chosen', await page.run(shown), ['1993', 'Hi']);
}

async function sizes(page) {
    for (const width of [320, 375, 600, 768, 1024, 1400]) {
        await page.size(width, 700);
        for (const name of ['claim.odif', 'cut-short.odif']) {
            await page.open(made(join(samples, name)));
            is(`${width} wide, ${name}: nothing beside the page`, await page.run(`[document.documentElement.scrollWidth <= innerWidth,
                document.querySelector('#octets').scrollWidth <= document.querySelector('#octets').clientWidth,
                Math.max(...[...document.querySelectorAll('.r .c')].map(row => row.getBoundingClientRect().right)) <= innerWidth]`), [true, true, true]);
        }
    }
}

async function colours(page) {
    const ground = `getComputedStyle(document.documentElement).backgroundColor`;
    await page.dark(true);
    await page.open(made(join(samples, 'claim.odif')));
    is('dark', await page.run(ground), 'rgb(19, 21, 24)');
    await page.run(`document.querySelector('#theme').click()`);
    is('light again', await page.run(ground), 'rgb(244, 243, 239)');
    await page.dark(false);
}

export async function used(page, hostile, tiled) {
    await keys(page, join(samples, 'claim.odif'));
    await mouse(page, join(samples, 'claim.odif'));
    await parts(page, hostile);
    await saved(page, hostile);
    await viewer(page);
    await editions(page, tiled);
    await sizes(page);
    await colours(page);
}
