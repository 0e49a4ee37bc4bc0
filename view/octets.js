// The octets of the file: of a long one only the rows that can be seen are there.
import { $, el, grouped, hex, isPrintable, visible } from './words.js';
import { lineAt, now } from './state.js';

const ROW_HEIGHT = 20, ROWS_AROUND = 6, PRINTED = 65536, PRINTED_ROW = 16;
let columns = 16, drawnFrom = -1, drawn = []; // the octets that are drawn, each with its two cells and the marks that they have

export const columnsNow = () => columns;
export const rowsSeen = () => Math.max(1, Math.floor($('octets').clientHeight / ROW_HEIGHT) - 2);

// Fits the rows to the width of the page.
export function measure() {
    columns = matchMedia('(max-width: 36rem)').matches ? 8 : 16;
    drawnFrom = -1;
    draw();
}

const asCharacter = octet => isPrintable(octet) ? String.fromCharCode(octet) : '·';

function rowOf(first) {
    const { stream, refusal } = now.read, digits = el('span', { class: 'h' }), letters = el('span', { class: 'c' });
    for (let octet = first; octet < first + columns; octet++) {
        const isThere = octet < stream.length, isEnd = octet === stream.length && refusal?.place === octet;
        const words = isThere ? [hex(stream[octet]), asCharacter(stream[octet])] : [isEnd ? '--' : '\u00A0', '\u00A0'];
        const cells = words.map(word => el('i', {}, word));
        digits.append(cells[0]);
        letters.append(cells[1]);
        if (!isThere && !isEnd) continue;
        for (const cell of cells) cell.octet = octet;
        drawn.push({ octet, cells, marks: '' });
    }
    return el('div', { class: 'r' }, el('b', {}, first), digits, letters);
}

// Draws the rows that can be seen, if they are not there.
export function draw() {
    const pane = $('octets'), all = Math.ceil((now.read.stream.length + 1) / columns);
    const from = Math.max(0, Math.floor(pane.scrollTop / ROW_HEIGHT) - ROWS_AROUND);
    if (from === drawnFrom) return;
    drawnFrom = from;
    drawn = [];
    const past = Math.min(all, from + Math.ceil(pane.clientHeight / ROW_HEIGHT) + 2 * ROWS_AROUND + 2);
    $('rows').style.height = `${(all + 1) * ROW_HEIGHT}px`;
    $('rows').style.paddingTop = `${from * ROW_HEIGHT}px`;
    $('rows').replaceChildren(...Array.from({ length: past - from }, (_, i) => rowOf((from + i) * columns)));
    mark();
}

const isIn = (octet, run) => run && octet >= run.first && octet < run.past;

function isChosen(octet) {
    const { line, part, run } = now.chosen;
    if (line < 0) return isIn(octet, run);
    return lineAt(octet) === line && (!part || isIn(now.read.maps[now.side].order[octet], part));
}

// What an octet is of: a line, the date, the line under the mouse, what is chosen, the octet itself, the place of a refusal.
function marksOf(octet) {
    const { refusal, date } = now.read, line = lineAt(octet);
    return (line >= 0 ? 'l' : '') + (isIn(octet, date?.place) ? ' d' : '') + (line >= 0 && line === now.warm ? ' o' : '')
        + (isChosen(octet) ? ' s' : '') + (octet === now.chosen.octet ? ' k' : '') + (refusal?.place === octet ? ' x' : '');
}

// Marks the octets that are drawn.
export function mark() {
    for (const one of drawn) {
        const marks = marksOf(one.octet);
        if (marks === one.marks) continue;
        one.marks = marks;
        for (const cell of one.cells) cell.className = marks;
    }
}

// Scrolls to an octet, if it can't be seen.
export function reveal(octet) {
    const pane = $('octets'), at = Math.floor(octet / columns) * ROW_HEIGHT;
    if (at < pane.scrollTop + ROW_HEIGHT || at > pane.scrollTop + pane.clientHeight - 3 * ROW_HEIGHT) pane.scrollTop = Math.max(0, at - 4 * ROW_HEIGHT);
}

// The octets on paper, each row with what it is of.
export function printedOctets() {
    const { stream, date } = now.read, all = Math.min(stream.length, PRINTED);
    const rows = [`The octets of ${visible(now.about.name)}${stream.length > all ? `: the first ${grouped(all)}` : ''}\n`];
    for (let first = 0; first < all; first += PRINTED_ROW) {
        const row = [...stream.subarray(first, first + PRINTED_ROW)], on = new Set(row.map((_, i) => lineAt(first + i)).filter(line => line >= 0));
        const words = [...on].map(line => `line ${line + 1}`), digits = row.map(hex).join(' ').padEnd(48), letters = row.map(asCharacter).join('').padEnd(17);
        if (date && first < date.place.past && first + PRINTED_ROW > date.place.first) words.push('date');
        rows.push(`${String(first).padStart(7)}  ${digits} ${letters} ${words.join(', ')}`.trimEnd());
    }
    return rows.join('\n');
}
