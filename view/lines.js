// The text of a side, line by line under its pages and blocks.
import { $, VERDICTS, counted, el, grouped, link, named, places, sideOf } from './words.js';
import { pageOf, sourcesOf } from './letter.js';
import { characters } from './characters.js';
import { choose } from './choosing.js';
import { linesNow, now } from './state.js';

const MARKS = 20000, NOT_SHOWN = 500, PIECES = 8;
let marksLeft; // so many characters get a node of their own, in all lines together; the rest are as they are

const setNow = () => $('set').value;

// The characters of a line.
function spelt(octets) {
    const text = el('pre', {});
    let plain = '';
    characters(octets, setNow(), (shown, kind) => {
        if (!kind || marksLeft <= 0) {
            plain += shown;
            return;
        }
        marksLeft--;
        text.append(plain, el('i', { class: kind }, shown));
        plain = '';
    });
    text.append(plain);
    return text;
}

const capital = words => words[0].toUpperCase() + words.slice(1);

// An element by its row and place, which can be chosen.
const rowLink = number => {
    const run = now.read.letter.elements[number].place;
    return link(`row ${number}, ${places(run)}`, () => choose({ run, what: named(now.read.letter, number) }));
};

// Where a line, or a part of it, stands.
export function standing(line, part) {
    const sources = sourcesOf(line, part);
    if (sources.length < 2) return places(sources[0] ?? { first: 0, past: 0 });
    return `${grouped(sources.length)} pieces, ${sources.slice(0, PIECES).map(places).join('; ')}${sources.length > PIECES ? '; …' : ''}`;
}

function lineNode(line, number) {
    const words = `line ${number + 1} · portion ${line.portion} · unit in row ${line.unit} · ${standing(line)}`, where = el('p', { class: 'where' }, words);
    const node = el('div', { class: 'line', role: 'option', tabindex: number ? -1 : 0, 'aria-selected': false }, where, spelt(line.octets));
    node.line = number;
    line.node = node;
    return node;
}

function pageNode(number) {
    const verdict = VERDICTS[now.read.pages.get(number)];
    return el('h2', {}, `${capital(named(now.read.letter, number))} `, el('span', {}, rowLink(number), ` · PM1: ${verdict}`));
}

function blockNode(number) {
    const name = named(now.read.letter, number);
    return el('div', { class: 'block', role: 'group', 'aria-label': name }, el('h3', {}, name, ' ', el('span', {}, rowLink(number))));
}

// The nodes of all lines, under their blocks and pages.
function lineNodes() {
    const nodes = [];
    let element = -1, page = null;
    linesNow().forEach((line, number) => {
        if (line.element !== element) {
            const on = pageOf(now.read, line.element);
            if (on !== page && on !== null) nodes.push(pageNode(on));
            nodes.push(blockNode(line.element));
            [element, page] = [line.element, on];
        }
        nodes.at(-1).append(lineNode(line, number));
    });
    return nodes.length ? nodes : [el('p', { class: 'soft' }, `No text stands on the ${now.side} side.`)];
}

function refusedNode({ number, place, sentence }) {
    const words = `The letter is refused by number ${number}: ${sentence}. Octet ${grouped(place)} is marked among the octets of the file.`;
    return el('div', { class: 'block' }, el('h3', {}, 'No text and no date are shown'), el('p', { class: 'soft' }, words));
}

// The text units that stand on no line.
function notShown() {
    const { elements } = now.read.letter, shown = new Set(linesNow().map(line => line.unit));
    const units = [...elements.keys()].filter(number => elements[number].kind === 3 && !shown.has(number));
    if (!units.length) return [];
    const more = units.length > NOT_SHOWN ? [el('li', {}, `and ${grouped(units.length - NOT_SHOWN)} more`)] : [];
    const listed = units.slice(0, NOT_SHOWN).map(number => el('li', {}, `${named(now.read.letter, number)} · `, rowLink(number)));
    return [el('h2', {}, 'Text on no line of this side ', el('span', {}, counted(units.length, 'text unit'))), el('ul', { class: 'soft' }, ...listed, ...more)];
}

function sideButtons() {
    return ['layout', 'logical'].map(side => {
        const words = `${capital(side)} side · ${counted(now.read.sides[side].length, 'line')}`;
        const button = el('button', { type: 'button', role: 'radio', 'aria-checked': side === now.side }, words);
        return Object.assign(button, { onclick: () => takeSide(side) });
    });
}

function takeSide(side) {
    const { octet } = now.chosen;
    now.side = side;
    showSide();
    choose(octet >= 0 ? { octet } : {});
}

// How many octets of the text are no ASCII.
function showBeyond() {
    const count = linesNow().reduce((sum, line) => sum + line.octets.reduce((n, octet) => n + (octet > 0x7E), 0), 0);
    $('beyond').hidden = setNow() !== 'ascii' || !count;
    const noun = `${counted(count, 'octet')} of the text ${count === 1 ? 'is' : 'are'}`;
    $('beyond').textContent = `${noun} outside ASCII, and shown in hexadecimal until you choose the set of characters.`;
}

// Shows the side.
export function showSide() {
    const { refusal } = now.read;
    marksLeft = MARKS;
    now.warm = -1;
    $('how').hidden = $('outline').hidden = refusal !== null;
    if (refusal) {
        $('text').replaceChildren(refusedNode(refusal));
        for (const id of ['sides', 'not-shown']) $(id).replaceChildren();
        $('beyond').hidden = true;
        return;
    }
    $('sides').replaceChildren(...sideButtons());
    $('text').replaceChildren(...lineNodes());
    $('not-shown').replaceChildren(...notShown());
    showBeyond();
    showOutline();
}

// The classes and objects of the side, each below its parent; made when it is opened.
export function showOutline() {
    const { letter, pages } = now.read, lists = new Map(), top = $('outline').lastElementChild;
    letter.elements.forEach((element, number) => { if (sideOf(element) === now.side) lists.set(number, el('ul', {})); });
    $('outline').firstElementChild.textContent = `Outline · ${counted(lists.size, 'object')}`;
    $('outline').hidden = !lists.size;
    top.replaceChildren();
    if (!$('outline').open) return;
    for (const [number, list] of lists) {
        const verdict = pages.has(number) ? ` · PM1: ${VERDICTS[pages.get(number)]}` : '';
        (lists.get(letter.elements[number].parent) ?? top).append(el('li', {}, `${named(letter, number)} · `, rowLink(number), verdict, list));
    }
}
