// What stands above the letter: its file, the verdict, the date, the pages.
import { STREAM_LIMIT } from './index.js';
import { $, VERDICTS, counted, el, grouped, hex, link, places, sha256 } from './words.js';
import { choose } from './choosing.js';
import { now } from './state.js';

const DATE_OCTETS = 24;

export function alarm(words) {
    $('alarm').hidden = !words;
    $('alarm').textContent = words;
}

const fact = (label, kind, head, ...rest) => el('div', {}, el('dt', {}, label), el('dd', { class: kind }, el('b', {}, head), ' ', ...rest));
const below = words => el('span', {}, words);

function verdict({ refusal, letter, headers, edition }) {
    if (refusal) {
        const there = link(`at octet ${grouped(refusal.place)}`, () => choose({ octet: refusal.place }));
        return fact('Verdict', 'bad', `Refused, number ${refusal.number}`, there, el('br', {}), below(`${refusal.sentence} (edition of ${edition})`));
    }
    const shut = letter.elements.filter(element => element.kind > 8).length, parts = shut ? `; ${counted(shut, 'protected part')}, not opened` : '';
    const words = `${counted(letter.elements.length, 'element')}, ${counted(headers, 'item')}, by the edition of ${edition}${parts}`;
    return fact('Verdict', 'good', 'Accepted', el('br', {}), below(words));
}

function dateFact({ date, undated, stream }) {
    if (undated) return fact('Date of the document', '', 'None', el('br', {}), below(`number ${undated.number}: ${undated.sentence}`));
    const { first, past } = date.place, digits = [...stream.subarray(first, Math.min(past, first + DATE_OCTETS))].map(hex).join(' ');
    const there = link(places(date.place), () => choose({ run: date.place, what: 'the date of the document' }));
    return fact('Date of the document', '', `${date}`, there, el('code', {}, digits + (past > first + DATE_OCTETS ? ' …' : '')));
}

function pagesFact({ pages }) {
    const verdicts = [...pages.values()], counts = VERDICTS.map((name, number) => [verdicts.filter(one => one === number).length, name]);
    const words = counts.filter(([count]) => count).map(([count, name]) => pages.size === 1 ? name : `${grouped(count)} ${name}`);
    return fact('Pages by PM1', '', grouped(pages.size), el('br', {}), below(words.join(', ')));
}

function linesFact({ sides }) {
    const count = Math.max(sides.layout.length, sides.logical.length);
    return fact('Lines', '', grouped(count), el('br', {}), below('each compared with its octets'));
}

// Shows them. other: what to do where the other edition would accept the letter.
export function showFacts(other) {
    const { read } = now, facts = [verdict(read)];
    if (!read.refusal) {
        facts.push(dateFact(read));
        if (read.pages.size) facts.push(pagesFact(read));
        if (!read.wrong && read.sides.layout.length + read.sides.logical.length) facts.push(linesFact(read));
    } else if (read.edition === 1988 && !now.odif.check(read.stream, 1993).refusal) {
        facts.push(el('div', {}, el('dt', {}, 'Edition'), el('dd', {}, link('Accepted by the edition of 1993', other))));
    }
    $('facts').replaceChildren(...facts);
    alarm(read.wrong ? `This page marks the wrong octets for ${counted(read.wrong, 'line')} or date: do not rely on it.` : '');
    showSize();
}

// The file's size and SHA-256, and the letter itself to be saved.
function showSize() {
    const { about, read: { stream } } = now, whose = about.made ? '' : 'Chosen on this machine · ';
    if (about.size > STREAM_LIMIT) {
        $('size').replaceChildren(`${whose}${counted(about.size, 'octet')}, of which the beginning was read`);
        return;
    }
    const sum = el('code', { id: 'sum' }, '…'), saving = el('span', { class: 'screen' }, ' · ', link('save the letter', save));
    $('size').replaceChildren(`${whose}${counted(about.size, 'octet')} · SHA-256 `, sum, saving);
    sha256(stream).then(text => {
        sum.textContent = text;
        if (about.sha256 && /^[0-9a-f]{64}$/.test(text) && about.sha256 !== text) alarm('The octets in this page are not those that it was made of.');
    });
}

// Gives the letter back, as it was put into this page.
function save() {
    const url = URL.createObjectURL(new Blob([now.read.stream], { type: 'application/octet-stream' }));
    el('a', { href: url, download: now.about.name }).click();
    setTimeout(() => URL.revokeObjectURL(url), 60000);
}

const ABOUT = [
    'The verdict, the lines, their texts, the place of each of their octets, the date and the verdicts on pages are answers of a reader of ODIF (T.415) whose '
    + 'source is proved to its contracts. This page holds it compiled for WebAssembly, which is tested to answer alike, and runs it on these octets each time '
    + 'it is opened.',
    'The page around it is not proved: it shows the answers, and says which characters the octets are. It holds the text of every line against the octets '
    + 'that it marks. It connects to nothing.',
    'A page cannot vouch for itself: who forges it forges its check too. If it comes from someone whom you do not trust, save the letter and open it in a '
    + 'viewer of your own, which the command odif view -o viewer.html makes.',
];

// What the page says of itself.
export async function showAbout(reader) {
    const { version, identity } = now.odif, code = words => el('code', {}, words);
    const which = el('p', {}, `Its reader: ${grouped(reader.length)} octets, SHA-256 `, code(await sha256(reader)),
        `, which should be that of odif.wasm, released with odif ${version}; the command odif --version names it. `,
        'It says of itself that it is made of libodif.a, SHA-256 ', code(identity), '.');
    $('about').append(...ABOUT.map(sentence => el('p', {}, sentence)), which);
}
