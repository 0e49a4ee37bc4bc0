// What a letter or a name may try.
import { readFileSync, writeFileSync } from 'node:fs';
import { join } from 'node:path';
import { TEXT, ask, forged, is, made, samples } from './support.mjs';

// Does each character stand right of the one before, or on a later row?
const IN_ORDER = `[...document.querySelectorAll('#text pre')].every(pre => {
    const walker = document.createTreeWalker(pre, NodeFilter.SHOW_TEXT), range = document.createRange();
    let last = { left: -1, bottom: -1 };
    for (let node; node = walker.nextNode();) for (let i = 0; i < node.length; i++) {
        range.setStart(node, i);
        range.setEnd(node, i + 1);
        const box = range.getBoundingClientRect();
        if (box.width === 0) continue;
        if (box.top < last.bottom - 4 && box.left < last.left) return false;
        last = box;
    }
    return true;
})`;
// What the page writes out, since it is not to be seen.
const HIDDEN = { iso6937: 'FF', t61: 'FF', latin1: 'AD' };

async function shownAsItStands(page, file) {
    await page.open(made(file));
    const isRun = `[typeof run, document.title, document.querySelectorAll('#text img, #text svg, #text script, #text b').length]`;
    is('hostile: not run', await page.run(isRun), ['undefined', 'hostile.odif – ODIF letter', 0]);
    is('hostile: in the order of the octets', await page.run(IN_ORDER), true);
    for (const [set, hyphen] of Object.entries(HIDDEN)) {
        await page.run(`{ const set = document.querySelector('#set'); set.value = '${set}'; set.dispatchEvent(new Event('change')); }`);
        const text = ask('text', `--utf8=${set}`, file).stdout.toString();
        const wanted = text.replaceAll('\r', '⟦0D⟧').replaceAll('\f', '⟦0C⟧').replaceAll('\u00AD', `⟦${hyphen}⟧`);
        const blocks = (await page.run(TEXT)).map(texts => texts.join('')).map(text => text && !text.endsWith('\n') ? `${text}\n` : text);
        is(`characters of ${set}`, blocks.join(''), wanted);
    }
}

async function policy(page) {
    is('policy: no connection', await page.run(`fetch('https://example.org').then(() => 'open', () => 'shut')`), 'shut');
    is('policy: no markup from text', await page.run(`(() => {
        try { document.body.innerHTML = '<b>x</b>'; return 'set'; } catch (error) { return error.name; }
    })()`), 'TypeError');
    is('policy: no other script', await page.run(`(() => {
        const script = document.createElement('script');
        try { script.textContent = 'globalThis.run = 1'; document.body.append(script); } catch { }
        return typeof run;
    })()`), 'undefined');
    is('policy: no eval', await page.run(`new Promise(done => {
        const button = document.createElement('button');
        button.addEventListener('click', () => { try { eval('1'); done('run'); } catch (error) { done(error.name); } });
        button.click();
    })`), 'EvalError');
}

const WRONG = 'This page marks the wrong octets';

// A page that marks other octets than those of the text, or whose letter is another than at its making, says so.
async function alarms(page) {
    const pieces = join(samples, 'in-pieces.odif'), plain = join(samples, 'claim.odif'), push = 'lines[line].sources.push(place);';
    for (const [what, file, other] of [
        ['a header too', pieces, 'lines[line].sources.push({ first: place.first - 2, past: place.past });'],
        ['one octet late', plain, 'lines[line].sources.push({ first: place.first + 1, past: place.past + 1 });'],
        ['a piece less', pieces, 'if (lines[line].sources.length === 0) lines[line].sources.push(place);'],
        ['another line', plain, 'lines[lines.length - 1 - line].sources.push(place);'],
    ]) {
        await page.open(forged(file, push, other));
        is(`${what}: alarm`, (await page.run(`document.querySelector('#alarm').textContent`)).slice(0, WRONG.length), WRONG);
    }
    const url = made(plain), name = url.slice('file://'.length), text = readFileSync(name, 'utf8'), at = text.indexOf('>', text.indexOf('id="letter"')) + 801;
    writeFileSync(name, text.slice(0, at) + (text[at] === 'A' ? 'B' : 'A') + text.slice(at + 1));
    await page.open(url);
    await page.wait(`document.querySelector('#sum').textContent.length > 1`);
    is('another letter: alarm', await page.run(`document.querySelector('#alarm').textContent`), 'The octets in this page are not those that it was made of.');
}

export async function defended(page, hostile, oddly) {
    await shownAsItStands(page, hostile);
    await page.open(made(oddly));
    const shown = `⟦U+202E⟧fido.exe "<b>&'.odif`;
    const name = `[document.title, document.querySelector('h1').textContent, document.querySelector('h1').children.length]`;
    is('a name', await page.run(name), [`${shown} – ODIF letter`, shown, 0]);
    await policy(page);
    await alarms(page);
}
