// Reads ODIF letters by the proved library, in node and in browsers.
//
//     import { load } from 'odif';
//
//     const odif = await load();
//     for (const line of odif.letter(octets).lines()) console.log(line.element, line.unit, line.octets);
//
// What is refused throws `Refusal`, with its number, place and sentence. Every answer is the library's; this package lends the memory. Letters are
// read by the edition of 1988, or by 1993 where that is named.
import { Library, MOST_ELEMENTS, ROW_WIDTH, STREAM_LIMIT } from './odif.mjs';
import { LINE_WIDTH, NO_PARENT, PAGE_WIDTH, Questions, Refusal, SERIES, SOURCE_WIDTH, numbers, octets } from './questions.js';

export { MOST_ELEMENTS, NO_PARENT, ROW_WIDTH, Refusal, STREAM_LIMIT };

// The kind of an element. The last four are of 1993.
export const Kind = Object.freeze({
    DOCUMENT_PROFILE: 0, LAYOUT_CLASS: 1, LAYOUT_OBJECT: 2, TEXT_UNIT: 3, LOGICAL_CLASS: 5, LOGICAL_OBJECT: 6, PRESENTATION_STYLE: 7, LAYOUT_STYLE: 8,
    SEALED_PROFILE: 9, ENCIPHERED_PROFILE: 10, PRE_ENCIPHERED_PART: 11, POST_ENCIPHERED_PART: 12,
});

// What the PM1 desk says of a page.
export const Verdict = Object.freeze({ NONE: 0, ESSENTIAL: 1, NON_ESSENTIAL: 2, OUTSIDE: 3, NOT_FIXED: 4 });

// Loads the library: odif.wasm that stands beside this file, or what a URL names, or its octets.
export async function load(source = new URL('./odif.wasm', import.meta.url)) {
    const named = typeof source === 'string' || source instanceof URL;
    return new Odif(await Library.load(named ? await octetsAt(new URL(source, globalThis.location?.href)) : viewOf(source)));
}

async function octetsAt(url) {
    if (url.protocol === 'file:') return (await import('node:fs/promises')).readFile(url); // fetch of node takes no file
    const got = await fetch(url);
    if (!got.ok) throw new Error(`${url} is not to be had (${got.status}): give load() the URL or the octets of odif.wasm`);
    return got.arrayBuffer();
}

function viewOf(octets) {
    if (octets instanceof Uint8Array) return octets;
    if (octets instanceof ArrayBuffer) return new Uint8Array(octets);
    throw new TypeError('octets are a Uint8Array or an ArrayBuffer: readFile and arrayBuffer() give them, text() does not');
}
// A stream of the caller's own, which may change. It is cut one octet above the limit: a longer one is refused as that is.
const copyOf = stream => new Uint8Array(viewOf(stream).subarray(0, STREAM_LIMIT + 1));

// A number among the elements. One that no element has is the library's to refuse.
function numbered(element) {
    if (!Number.isInteger(element) || element < 0 || element > 0xFFFFFFFF) throw new RangeError(`an element is named by its number from 0, and not by ${element}`);
    return element;
}

// The sets of characters, by their numbers in the library.
const CHARACTER_SETS = ['iso6937', 't61', 'latin1'];
// A text is shown in parts, since eight octets are lent for each: so many octets, and on to one behind which no character is cut. An accent is above
// ASCII, and a carriage return may belong to the line feed after it.
const PART = 65536;
function partEnd(text, from) {
    let past = Math.min(from + PART, text.length);
    while (past < text.length && (text[past - 1] > 0x7F || text[past - 1] === 0x0D)) past++;
    return past;
}

// No accepted stream of this length has more elements: one has at least two octets.
const mostElements = stream => Math.min(stream.length >> 1, MOST_ELEMENTS);
const range = (first, past) => Object.freeze({ first, past });

function elementOf(row) {
    const value = at => row[at + 1] === 0 ? null : range(row[at], row[at + 1]);
    return Object.freeze({
        kind: row[0], objectType: row[1] === 255 ? null : row[1], place: range(row[2], row[3]), identifier: value(4), logicalIdentifier: value(6),
        portions: value(8), content: value(10), parent: row[12] === NO_PARENT ? null : row[12],
    });
}

class Dated {
    constructor({ year, month, day, first, past }) {
        Object.assign(this, { year, month, day, place: range(first, past) });
        Object.freeze(this);
    }
    toString() {
        return `${String(this.year).padStart(4, '0')}-${String(this.month).padStart(2, '0')}-${String(this.day).padStart(2, '0')}`;
    }
}

// The library, loaded. Its questions are answered at once.
export class Odif {
    #questions;

    constructor(library) {
        this.#questions = new Questions(library);
        this.version = this.#questions.string('odif_version');
        this.identity = this.#questions.string('odif_identity'); // the SHA-256 of the proved archive
        if (!this.version.startsWith(`${SERIES}.`)) {
            throw new Error(`the module is ${this.version}, and this package is for ${SERIES}: take the odif.wasm that came with it`);
        }
        Object.freeze(this);
    }
    // What a refusal number means.
    sentence(number) {
        return this.#questions.string('odif_sentence', numbered(number));
    }
    // Checks a stream by the rules 1 to 15, and throws no refusal.
    check(stream, edition = 1988) {
        const own = copyOf(stream);
        return this.#questions.answer('odif_check', edition, [own, numbers(ROW_WIDTH * mostElements(own))],
            ({ headers, elements, refusal }) => Object.freeze({ headers, elements, refusal }));
    }
    // An accepted letter. A stream that is none throws `Refusal`.
    letter(stream, edition = 1988) {
        return new Letter(this.#questions, copyOf(stream), edition);
    }
    // The date of a document by its first element alone: no octet after it is read.
    firstDate(stream, edition = 1988) {
        return this.#questions.ask('odif_first_date', edition, [copyOf(stream)], answer => new Dated(answer));
    }
    // The octets of a text as text: of 'iso6937', 't61' or 'latin1'. Each is shown as its character, as a part of a character of two octets, or by its
    // number, as \u27E6C8\u27E7; `numbers` says how many are.
    utf8(text, set = 'iso6937') {
        const number = CHARACTER_SETS.indexOf(set), all = viewOf(text), parts = [];
        if (number < 0) throw new RangeError(`the set is one of ${CHARACTER_SETS.join(', ')}, and not ${set}`);
        let numbers = 0;
        for (let from = 0; from < all.length;) {
            const part = all.slice(from, partEnd(all, from));
            parts.push(this.#questions.ask('odif_utf8', 1988, [number, part, octets(8 * part.length)], (answer, out) => {
                numbers += answer.numbers;
                return new TextDecoder('utf-8', { ignoreBOM: true, fatal: true }).decode(out.octets().slice(0, answer.length));
            }));
            from += part.length;
        }
        return { text: parts.join(''), numbers };
    }
    // Makes a letter of entries, each with the octets of an identifier, a portion and a text.
    make(entries) {
        const parts = [...entries].flatMap(({ identifier, portion, text }) => [identifier, portion, text].map(viewOf));
        const ends = [0];
        for (const part of parts) ends.push(ends.at(-1) + part.length);
        const length = ends.at(-1);
        if (length > 2 * STREAM_LIMIT) throw new RangeError(`the entries have ${length} octets, and a letter has ${STREAM_LIMIT} at most`);
        const buffer = new Uint8Array(length), places = Uint32Array.from(parts.flatMap((_, i) => [ends[i], ends[i + 1]]));
        parts.forEach((part, i) => buffer.set(part, ends[i]));
        // A name stands in the letter twice, and what is around an entry's parts takes less than 64 octets.
        const room = octets(Math.min(2 * length + 64 * (parts.length + 1), STREAM_LIMIT));
        return this.#questions.ask('odif_make_numbers', 1988, [buffer, places, room], (answer, out) => out.octets().slice(0, answer.length));
    }
}

// An accepted letter: a stream, and its elements in stream order. `Odif.letter` gives it.
export class Letter {
    #questions;

    constructor(questions, stream, edition) {
        this.#questions = questions;
        Object.assign(this, { stream, edition });
        const rows = numbers(ROW_WIDTH * mostElements(stream));
        Object.assign(this, this.#ask('odif_check', [rows], ({ headers, elements }, table) => {
            const told = table.numbers();
            return { headers, elements: Object.freeze(Array.from({ length: elements }, (_, i) => elementOf(told.subarray(ROW_WIDTH * i, ROW_WIDTH * (i + 1))))) };
        }));
        Object.freeze(this);
    }
    #ask(name, parameters, read) {
        return this.#questions.ask(name, this.edition, [this.stream, ...parameters], read);
    }
    // The text units of a side, 'layout' or 'logical', in reading order. Where no side is asked for, the layout side, or the logical one where only that
    // has text.
    lines(side) {
        if (side === undefined) {
            const lines = this.lines('layout');
            return lines.length > 0 ? lines : this.lines('logical');
        }
        if (side !== 'layout' && side !== 'logical') throw new RangeError(`the side is 'layout' or 'logical', and not ${side}`);
        const count = this.elements.length, lent = [numbers(ROW_WIDTH * count), numbers(LINE_WIDTH * count), octets(this.stream.length)];
        return this.#ask(`odif_${side}_text_numbers`, lent, (answer, _, lines, out) => Array.from({ length: answer.lines }, (_, i) => {
            const [element, portion, unit, first, past] = lines.numbers().subarray(LINE_WIDTH * i, LINE_WIDTH * (i + 1));
            return Object.freeze({ element, portion, unit, octets: out.octets().slice(first, past) });
        }));
    }
    // The octets of all lines, one after another, and nothing else.
    text(side) {
        const lines = this.lines(side), text = new Uint8Array(lines.reduce((sum, line) => sum + line.octets.length, 0));
        let at = 0;
        for (const line of lines) {
            text.set(line.octets, at);
            at += line.octets.length;
        }
        return text;
    }
    // Where each octet of the lines of a side stands in the stream: a source for each piece that has octets, line by line, and in a line piece by piece.
    sources(side) {
        if (side !== 'layout' && side !== 'logical') throw new RangeError(`the side is 'layout' or 'logical', and not ${side}`);
        // As many as there are headers are always enough.
        return this.#ask(`odif_${side}_sources_numbers`, [numbers(SOURCE_WIDTH * this.headers)], (answer, list) => {
            const told = list.numbers();
            return Array.from({ length: answer.sources }, (_, i) => Object.freeze({ line: told[3 * i], place: range(told[3 * i + 1], told[3 * i + 2]) }));
        });
    }
    // The content of a text unit, by its number among the elements, its pieces or tiles joined. Another number is refused by 20.
    content(unit) {
        return this.#ask('odif_joined', [numbered(unit), octets(this.stream.length)], (answer, out) => out.octets().slice(0, answer.length));
    }
    // The identifier of an element, or null; of a text unit the layout identifier.
    identifier(element) {
        const place = this.elements[numbered(element)]?.identifier;
        if (place === undefined) throw new RangeError(`there is no element ${element}: the letter has ${this.elements.length}`);
        return place === null ? null : this.stream.slice(place.first, place.past);
    }
    // The elements whose parent this one is, in stream order.
    children(element) {
        const count = this.elements.length, lent = [numbers(ROW_WIDTH * count), numbers(count)];
        return this.#ask('odif_children', [numbered(element), ...lent], (answer, _, list) => [...list.numbers().subarray(0, answer.children)]);
    }
    // The date of the document; without one it is refused by 23 or 24.
    date() {
        return this.#ask('odif_date', [], answer => new Dated(answer));
    }
    // Whether the elements stand in the order of class 'A' or 'B': null, or the refusal by 26 with the place where that shows.
    order(interchangeClass) {
        if (interchangeClass !== 'A' && interchangeClass !== 'B') throw new RangeError(`the class is 'A' or 'B', and not ${interchangeClass}`);
        return this.#questions.answer(`odif_order_${interchangeClass.toLowerCase()}`, this.edition, [this.stream], answer => answer.refusal);
    }
    // The layout pages and page classes in stream order, each with the verdict of the PM1 desk.
    pages() {
        const count = this.elements.length, lent = [numbers(ROW_WIDTH * count), numbers(PAGE_WIDTH * count)];
        return this.#ask('pm1_pages_numbers', lent, (answer, _, list) => Array.from({ length: answer.pages }, (_, i) => {
            const [element, verdict] = list.numbers().subarray(PAGE_WIDTH * i, PAGE_WIDTH * (i + 1));
            return Object.freeze({ element, verdict });
        }));
    }
    // The normal form: the same items in the same order, each length definite and in the fewest octets.
    normal() {
        const length = this.stream.length, room = octets(Math.min(length + (length >> 12) + 16, STREAM_LIMIT));
        return this.#ask('odif_normal', [room], (answer, out) => out.octets().slice(0, answer.length));
    }
}
