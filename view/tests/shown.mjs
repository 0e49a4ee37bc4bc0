// A letter is shown as the command answers of it.
import { createHash } from 'node:crypto';
import { readFileSync } from 'node:fs';
import { basename } from 'node:path';
import { FRAMES, LIT, SELECTED, TEXT, VERDICT, asText, ask, clickLine, clickSide, expected, is, json, made, octetsOf } from './support.mjs';

const heardOf = (page, methods) => page.heard.filter(message => methods.includes(message.method)).map(message => message.params);

// The page asked for nothing but itself, and nothing was said on the console.
export function isQuiet(page, name, url) {
    const asked = heardOf(page, ['Network.requestWillBeSent']).map(({ request }) => request.url.split('#')[0]);
    const said = heardOf(page, ['Log.entryAdded', 'Runtime.exceptionThrown', 'Runtime.consoleAPICalled']);
    is(`${name}: nothing but the page is asked for`, [asked, said.map(one => JSON.stringify(one).slice(0, 200))], [[url], []]);
}

// Each line of a side lights up its octets and no others, and every octet tells its line.
async function side(page, name, file, which, edition) {
    const octets = readFileSync(file), wanted = expected(file, which, edition);
    await page.run(clickSide(which));
    const texts = (await page.run(TEXT)).flat();
    is(`${name}, ${which}: as many lines`, texts.length, wanted.length);
    is(`${name}, ${which}: all octets are drawn`, await page.run(`document.querySelectorAll('.r .h i').length >= ${octets.length}`), true);
    for (const [i, places] of wanted.entries()) {
        const line = `${name}, ${which}, line ${i + 1}`, there = Buffer.from(places.map(octet => octets[octet]));
        is(`${line}: its octets and no others`, await page.run(`${clickLine(i)}, ${LIT}`), [...places].sort((a, b) => a - b));
        is(`${line}: they are its text`, there.toString('hex'), octetsOf(texts[i]).toString('hex'));
    }
    const lines = Array(octets.length).fill(-1);
    wanted.forEach((places, i) => places.forEach(octet => { lines[octet] = i; }));
    const told = await page.run(`[...document.querySelectorAll('.r .h i')].filter(cell => cell.octet !== undefined).map(cell => {
        cell.click();
        const said = /On line (\\d+):/.exec(document.querySelector('#told').textContent), line = ${SELECTED};
        return said && +said[1] - 1 !== line ? 'it is told otherwise' : line;
    })`);
    is(`${name}, ${which}: every octet tells its line`, told, lines);
}

const FACTS = `Object.fromEntries([...document.querySelectorAll('#facts div')].map(fact => [fact.firstChild.textContent, fact.querySelector('b').textContent]))`;
const NOT_SHOWN = `[...document.querySelectorAll('#not-shown li')].map(li => +/row (\\d+)/.exec(li.textContent)[1])`;

export async function accepted(page, file, edition = '1988') {
    const name = basename(file), url = made(file, '--edition', edition), pages = json('pages', '--json', '--edition', edition, file).pages;
    await page.open(url);
    isQuiet(page, name, url);
    is(`${name}: accepted, no alarm`, await page.run(VERDICT), ['Accepted', true]);
    await page.wait(`document.querySelector('#sum').textContent.length > 1`);
    is(`${name}: its SHA-256`, await page.run(`document.querySelector('#sum').textContent`), createHash('sha256').update(readFileSync(file)).digest('hex'));
    is(`${name}: the text`, asText(await page.run(TEXT)).toString('hex'), ask('text', '--edition', edition, file).stdout.toString('hex'));
    const facts = await page.run(FACTS);
    is(`${name}: the date`, facts['Date of the document'], json('date', '--json', '--edition', edition, file).date ?? 'None');
    is(`${name}: the pages`, facts['Pages by PM1'], pages.length ? `${pages.length}` : undefined);
    await side(page, name, file, 'layout', edition);
    await side(page, name, file, 'logical', edition);
    const { side: read, not_shown: notShown } = json('list', '--json', '--edition', edition, file);
    await page.run(clickSide(read));
    is(`${name}: what is not shown`, await page.run(NOT_SHOWN), notShown.map(({ unit }) => unit));
}

export async function refused(page, file) {
    const name = basename(file), url = made(file), { number, place, sentence } = json('check', '--json', file), at = place.toLocaleString('en');
    await page.open(url);
    isQuiet(page, name, url);
    const wanted = `Refused, number ${number} at octet ${at}${sentence} (edition of 1988)`;
    is(`${name}: refused`, await page.run(`document.querySelector('#facts dd').textContent`), wanted);
    is(`${name}: the place is marked`, await page.run(`[...document.querySelectorAll('.r .h .x')].map(cell => cell.octet)`), [place]);
    is(`${name}: no text, no date`, await page.run(`[document.querySelectorAll('.line').length, document.querySelectorAll('#facts div').length]`), [0, 1]);
}

// The outline, with the verdicts on pages.
export async function outline(page, file) {
    const { pages } = json('pages', '--json', file), wanted = json('outline', '--json', file).outline;
    await page.open(made(file));
    await page.run(`document.querySelector('#outline').open = true, ${FRAMES}`);
    const verdicts = new Map(pages.map(({ element, verdict }) => [element, ` · PM1: ${verdict === 'none' ? 'no dimensions' : verdict}`]));
    const shown = await page.run(`[...document.querySelectorAll('#outline li')].map(li => {
        const own = [...li.childNodes].filter(node => node.tagName !== 'UL').map(node => node.textContent).join('');
        let depth = -1;
        for (let up = li; up.id !== 'outline'; up = up.parentElement) depth += up.tagName === 'UL';
        return [depth, +/row (\\d+)/.exec(own)[1], /^\\S.*? ([\\d ]+) · /.exec(own)?.[1] ?? '', / · PM1: .*$/.exec(own)?.[0] ?? ''];
    })`);
    is(`${basename(file)}: the outline`, shown, wanted.map(({ depth, element, identifier }) => [depth, element, identifier, verdicts.get(element) ?? '']));
}

// On paper stand all octets.
export async function printed(page, file) {
    await page.run(`dispatchEvent(new Event('beforeprint'))`);
    const rows = (await page.run(`document.querySelector('#printed').textContent`)).split('\n').slice(2);
    const digits = rows.map(row => row.slice(9, 56).replaceAll(' ', '')).join('');
    is(`${basename(file)}: printed`, digits, readFileSync(file).toString('hex').toUpperCase());
    await page.run(`dispatchEvent(new Event('afterprint'))`);
}
