// What the tests share: the command, whose answers are expected, pages that it makes, and how they are looked at.
import { spawnSync } from 'node:child_process';
import { createHash } from 'node:crypto';
import { mkdtempSync, readFileSync, writeFileSync } from 'node:fs';
import { tmpdir } from 'node:os';
import { join } from 'node:path';

export const [odif, samples] = process.argv.slice(2);
export const room = mkdtempSync(join(tmpdir(), 'view-'));

export const counts = { passed: 0, failed: 0 };
const brief = value => JSON.stringify(value)?.slice(0, 400);
export function is(what, got, wanted) {
    if (JSON.stringify(got) === JSON.stringify(wanted)) return void counts.passed++;
    counts.failed++;
    console.log(`FAILED ${what}\n  got    ${brief(got)}\n  wanted ${brief(wanted)}`);
}

export const ask = (...words) => spawnSync(odif, words, { maxBuffer: 1 << 28 });
export const json = (...words) => JSON.parse(ask(...words).stdout);

export function written(name, octets) {
    const file = join(room, name);
    writeFileSync(file, octets);
    return file;
}

let pages = 0;
// The address of a page that the command makes, of a letter or of none.
export function made(file, ...words) {
    const out = join(room, `${++pages}.html`), done = ask('view', ...file ? [file] : [], '-o', out, ...words);
    if (done.status > 1) throw new Error(done.stderr.toString());
    return `file://${out}`;
}

// A page whose script has something else in the place of some text, with the policy that allows that.
export function forged(file, old, other) {
    const page = made(file).slice('file://'.length), text = readFileSync(page, 'utf8');
    const script = /<script type="module">(.*)<\/script>/s.exec(text)[1], hash = of => `'sha256-${createHash('sha256').update(of).digest('base64')}'`;
    is(`the script has ${old}, once`, script.split(old).length, 2);
    const changed = script.split(old).join(other);
    writeFileSync(page, text.split(script).join(changed).replace(hash(script), () => hash(changed)));
    return `file://${page}`;
}

// Where the octets of each line stand, by the independent reader.
export function expected(file, side, edition = '1988') {
    const { matches } = json('list', '--json', '--edition', edition, '--side', side, file), { items } = json('tree', '--json', '--edition', edition, file);
    const strings = items.filter(item => item.class === 'universal' && item.number === 4 && !item.constructed);
    return matches.map(({ first, past, in_pieces: isInPieces }) => {
        const inside = strings.filter(item => item.offset >= first && item.offset < past).map(item => [item.offset + item.header, item.length]);
        return (isInPieces ? inside : [[first, past - first]]).flatMap(([at, length]) => Array.from({ length }, (_, i) => at + i));
    });
}

// The texts of the lines, block by block.
export const TEXT = `[...document.querySelectorAll('.block')].map(block => [...block.querySelectorAll('pre')].map(pre => pre.textContent))`;
// The octets of a text that is shown in ASCII.
export const octetsOf = text => Buffer.from(text.replace(/⟦([0-9A-F]{2})⟧/g, (_, digits) => String.fromCharCode(parseInt(digits, 16))), 'latin1');
const NEW_LINE = Buffer.from('\n');
// The texts as `odif text` writes them: a block that ends without a line end gets one.
export function asText(blocks) {
    return Buffer.concat(blocks.map(texts => {
        const all = Buffer.concat(texts.map(octetsOf));
        return all.length && all.at(-1) !== 10 ? Buffer.concat([all, NEW_LINE]) : all;
    }));
}

// The verdict, and whether there is no alarm.
export const VERDICT = `[document.querySelector('#facts dd b').textContent, document.querySelector('#alarm').hidden]`;
// The octets that are lit, of all that are drawn.
export const LIT = `[...document.querySelectorAll('.r .h .s')].map(cell => cell.octet)`;
export const SELECTED = `[...document.querySelectorAll('.line')].findIndex(line => line.ariaSelected === 'true')`;
export const clickLine = number => `document.querySelectorAll('.line')[${number}].click()`;
export const clickSide = side => `document.querySelectorAll('#sides button')[${side === 'layout' ? 0 : 1}].click()`;
// Two frames later all is drawn.
export const FRAMES = 'new Promise(done => requestAnimationFrame(() => requestAnimationFrame(done)))';
