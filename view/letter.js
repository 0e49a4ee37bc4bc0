// A letter as the page shows it. Every verdict, line, date and place here is an answer of the library, which runs in this page; what is done with them is
// to put the sources of each line beside its octets, and to hold the two against each other.
import { Refusal, STREAM_LIMIT } from './index.js';

// The answer to a question, or the refusal by which the library answers it.
function orRefusal(ask) {
    try {
        return ask();
    } catch (why) {
        if (why instanceof Refusal) return why;
        throw why;
    }
}

// The lines of a side with their sources.
function sideRead(letter, side) {
    const lines = letter.lines(side).map(line => ({ ...line, sources: [] }));
    for (const { line, place } of letter.sources(side)) lines[line].sources.push(place);
    return lines;
}

// For each octet of the stream which line it is on, -1 for none, and as which octet of that line; and how many lines are not what stands at their
// sources, or share an octet with another.
function mapped(stream, lines) {
    const line = new Int32Array(stream.length + 1).fill(-1), order = new Int32Array(stream.length + 1);
    let wrong = 0;
    lines.forEach(({ octets, sources }, number) => {
        let at = 0, isSame = true;
        for (const { first, past } of sources) {
            for (let o = first; o < past; o++) {
                isSame &&= line[o] === -1 && stream[o] === octets[at];
                line[o] = number;
                order[o] = at++;
            }
        }
        if (!isSame || at !== octets.length) wrong++;
    });
    return { line, order, wrong };
}

// Does the date stand where the library says?
function isDated(stream, date) {
    return String.fromCharCode(...stream.subarray(date.place.first, date.place.first + 10)) === `${date}`;
}

// Reads a stream by an edition. What is refused has a refusal and no letter.
export function readLetter(odif, stream, edition) {
    const { refusal, headers } = odif.check(stream, edition);
    if (refusal) return { refusal, headers, stream, edition };
    const letter = odif.letter(stream, edition), date = orRefusal(() => letter.date());
    const sides = { layout: sideRead(letter, 'layout'), logical: sideRead(letter, 'logical') };
    const maps = { layout: mapped(stream, sides.layout), logical: mapped(stream, sides.logical) };
    const pages = new Map(letter.pages().map(({ element, verdict }) => [element, verdict]));
    const undated = date instanceof Refusal ? date : null;
    const wrong = maps.layout.wrong + maps.logical.wrong + (undated || isDated(stream, date) ? 0 : 1);
    return { refusal: null, headers, stream, edition, letter, date: undated ? null : date, undated, sides, maps, pages, wrong };
}

// The part of a line's sources that some of its octets have, which are counted from its first.
export function sourcesOf({ sources }, part) {
    if (!part) return sources;
    let before = 0;
    const clipped = sources.map(({ first, past }) => {
        const [from, to] = [part.first, part.past].map(octet => Math.min(Math.max(first + octet - before, first), past));
        before += past - first;
        return { first: from, past: to };
    });
    return clipped.filter(({ first, past }) => first < past);
}

// What stands at an octet of an accepted letter: its element, and the field of the element's row that it is in, or null.
export function standingAt({ letter }, octet) {
    const number = letter.elements.findIndex(({ place }) => octet < place.past), element = letter.elements[number];
    const fields = { identifier: element.identifier, 'logical identifier': element.logicalIdentifier, portions: element.portions, content: element.content };
    const [name] = Object.entries(fields).find(([, place]) => place && octet >= place.first && octet < place.past) ?? [];
    return { number, element, field: name ?? null, place: name ? fields[name] : element.place };
}

// The page that an element is on: itself, or the nearest above it; null for none.
export function pageOf({ letter, pages }, number) {
    for (let at = number; at !== null; at = letter.elements[at].parent) if (pages.has(at)) return at;
    return null;
}

// What was read of a file. A stream over the limit is refused whatever it holds, so one octet more than that is enough.
export const ENOUGH = STREAM_LIMIT + 1;
