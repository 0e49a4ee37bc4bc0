// Choosing a line, a run of octets or one octet: all that belongs to it lights up, and it is told in words.
import { $, el, grouped, hex, isPrintable, named, places } from './words.js';
import { sourcesOf, standingAt } from './letter.js';
import { draw, mark, reveal } from './octets.js';
import { standing } from './lines.js';
import { point, unpoint } from './selecting.js';
import { NOTHING, lineAt, linesNow, now } from './state.js';

// What one octet brings with it: its line, or the field or element that it stands in.
function around(octet) {
    const line = lineAt(octet);
    if (line >= 0 || now.read.refusal || octet >= now.read.stream.length) return { line };
    return { line, run: standingAt(now.read, octet).place };
}

function firstOctet({ line, part, run, octet }) {
    if (octet >= 0) return octet;
    return (line >= 0 ? sourcesOf(linesNow()[line], part)[0] : run)?.first ?? -1;
}

function markLine({ line, octet }, follow) {
    unpoint();
    const node = linesNow()[line]?.node;
    if (!node) return;
    if (octet >= 0) point(line, now.read.maps[now.side].order[octet]);
    node.setAttribute('aria-selected', true);
    $('text').querySelector('.line[tabindex="0"]')?.setAttribute('tabindex', -1);
    node.setAttribute('tabindex', 0);
    if (follow) node.scrollIntoView({ block: 'nearest' });
}

// Chooses what is named in `what`, as NOTHING has it. follow: the line is brought into view.
export function choose(what, follow) {
    linesNow()[now.chosen.line]?.node.setAttribute('aria-selected', false);
    now.chosen = { ...NOTHING, ...what, ...what.octet >= 0 ? around(what.octet) : {} };
    markLine(now.chosen, follow);
    tell();
    const first = firstOctet(now.chosen);
    if (first >= 0) {
        reveal(first);
        address(first);
    }
    draw();
    mark();
}

// The address of the page names the octet, so that it can be written into a report.
function address(octet) {
    if (!now.about.made || now.read.refusal) return;
    try {
        history.replaceState(null, '', `#octet-${octet}`);
    } catch {
        // a browser that does not allow it for files leaves the address as it is
    }
}

function octetInWords(octet) {
    const { stream } = now.read;
    if (octet >= stream.length) return `The end of the file, ${grouped(octet)}`;
    const value = stream[octet], letter = isPrintable(value) ? ` “${String.fromCharCode(value)}”` : '';
    return `Octet ${grouped(octet)} (${octet.toString(16).toUpperCase()} in hexadecimal): ${hex(value)}${letter}`;
}

function placeInWords(octet) {
    const { refusal, letter } = now.read;
    if (refusal?.place === octet) return `Here the letter is refused by ${refusal.number}: ${refusal.sentence}`;
    if (refusal) return 'The letter is refused, so no element is told';
    const { number, element, field, place } = standingAt(now.read, octet);
    const there = field ? `its ${field}, ${places(place)}` : 'in none of the fields of its row';
    return `Row ${number}, ${named(letter, number)}, ${places(element.place)}: ${there}`;
}

function lineInWords(octet) {
    const { date, maps } = now.read, other = now.side === 'layout' ? 'logical' : 'layout', there = maps[other].line[octet];
    if (date && octet >= date.place.first && octet < date.place.past) return 'It is of the date above, and on no line';
    return there >= 0 ? `On no line of this side; on line ${there + 1} of the ${other} side` : 'On no line';
}

function sentences({ line, part, run, what, octet }) {
    const lines = linesNow(), { element, portion, unit } = lines[line] ?? {}, said = [];
    const ofLine = () => `${named(now.read.letter, element)}, portion ${portion}`;
    if (octet >= 0) {
        said.push(octetInWords(octet), placeInWords(octet));
        if (line >= 0) said.push(`On line ${line + 1}: ${ofLine()}, unit in row ${unit}`);
        else if (!now.read.refusal) said.push(lineInWords(octet));
    } else if (line >= 0) {
        said.push(`${part ? 'Part of line' : 'Line'} ${line + 1} of ${grouped(lines.length)}: ${ofLine()}`);
        said.push(`Unit in row ${unit}; it stands at ${standing(lines[line], part)}`);
    } else if (run) said.push(`${what[0].toUpperCase()}${what.slice(1)}: ${places(run)}`);
    return said;
}

const NOTHING_CHOSEN = [
    'The octets of the file',
    'Those in full ink are on a line. Choose a line or an octet, by mouse or arrow keys, to see where the other stands.',
];

// Says what is chosen.
export function tell() {
    const said = sentences(now.chosen), words = said.length ? said : NOTHING_CHOSEN.slice(0, now.read.refusal ? 1 : 2);
    $('told').replaceChildren(...words.map(sentence => el('p', {}, sentence)));
}
