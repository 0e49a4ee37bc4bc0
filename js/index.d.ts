/** Reads ODIF letters by the proved library, in node and in browsers. */

export const STREAM_LIMIT: 1048576;
export const MOST_ELEMENTS: 4096;
export const ROW_WIDTH: 13;
export const NO_PARENT: 65535;

export type Octets = Uint8Array | ArrayBuffer;
export type Edition = 1988 | 1993;
export type Side = 'layout' | 'logical';

/** A refusal: its number, its place in octets from 0, and the sentence of its number. */
export class Refusal extends Error {
    private constructor();
    readonly number: number;
    readonly place: number;
    readonly sentence: string;
}

/** The kind of an element. The last four are of 1993. */
export const Kind: Readonly<{
    DOCUMENT_PROFILE: 0; LAYOUT_CLASS: 1; LAYOUT_OBJECT: 2; TEXT_UNIT: 3; LOGICAL_CLASS: 5; LOGICAL_OBJECT: 6; PRESENTATION_STYLE: 7; LAYOUT_STYLE: 8;
    SEALED_PROFILE: 9; ENCIPHERED_PROFILE: 10; PRE_ENCIPHERED_PART: 11; POST_ENCIPHERED_PART: 12;
}>;
export type Kind = (typeof Kind)[keyof typeof Kind];

/** A part of the stream: from its first octet to the one past its last. */
export interface Range {
    readonly first: number;
    readonly past: number;
}

/** A row of the table. `place` is the whole element, and the other ranges bound values. */
export interface Element {
    readonly kind: Kind;
    readonly objectType: number | null;
    readonly place: Range;
    readonly identifier: Range | null;
    readonly logicalIdentifier: Range | null;
    readonly portions: Range | null;
    readonly content: Range | null;
    readonly parent: number | null;
}

/** A text unit in reading order: the class or object that lists it, the portion's place in that, the unit, all from 0, and its text. */
export interface Line {
    readonly element: number;
    readonly portion: number;
    readonly unit: number;
    readonly octets: Uint8Array;
}

/** Which octets of the stream are shown in which line of a side. */
export interface Source {
    readonly line: number;
    readonly place: Range;
}

/** The date of a document, and where its octets stand in the stream. */
export interface Dated {
    readonly year: number;
    readonly month: number;
    readonly day: number;
    readonly place: Range;
    /** As 1991-04-08. */
    toString(): string;
}

/** What the PM1 desk says of a page. */
export const Verdict: Readonly<{ NONE: 0; ESSENTIAL: 1; NON_ESSENTIAL: 2; OUTSIDE: 3; NOT_FIXED: 4 }>;

/** A page or a class of pages, by its number among the elements, and the verdict on it. */
export interface Page {
    readonly element: number;
    readonly verdict: number;
}

/** How many items passed the octet rules, how many elements there are, and the refusal, if there is one. */
export interface Checked {
    readonly headers: number;
    readonly elements: number;
    readonly refusal: Refusal | null;
}

/** What a letter is made of. */
export interface Entry {
    identifier: Octets;
    portion: Octets;
    text: Octets;
}

/** Loads the library: odif.wasm that stands beside this module, or what a URL names, or its octets. */
export function load(source?: URL | string | Octets): Promise<Odif>;

/** The library, loaded. Where it runs out of stack it throws an Error that says so, and answers nothing more. */
export class Odif {
    private constructor();
    readonly version: string;
    /** The SHA-256 of the proved archive that the module is made of. */
    readonly identity: string;
    /** What a refusal number means. */
    sentence(number: number): string;
    /** Checks a stream by the rules 1 to 15, and throws no refusal. */
    check(stream: Octets, edition?: Edition): Checked;
    /** An accepted letter. A stream that is none throws `Refusal`. */
    letter(stream: Octets, edition?: Edition): Letter;
    /** The date of a document by its first element alone: no octet after it is read. */
    firstDate(stream: Octets, edition?: Edition): Dated;
    /** The octets of a text as text; those that the set has no character for are shown by their number, as \u27E6C8\u27E7. */
    utf8(text: Octets, set?: CharacterSet): Shown;
    /** Makes a letter of entries. */
    make(entries: Iterable<Entry>): Uint8Array;
}

/** A set of characters that a text may be in. */
export type CharacterSet = 'iso6937' | 't61' | 'latin1';

/** A text, and how many of its octets are shown by their number. */
export interface Shown {
    readonly text: string;
    readonly numbers: number;
}

/** An accepted letter: a stream, and its elements in stream order. */
export class Letter {
    private constructor();
    readonly stream: Uint8Array;
    readonly edition: Edition;
    readonly headers: number;
    readonly elements: readonly Element[];
    /** The text units of a side in reading order. Where no side is asked for, the layout side, or the logical one where only that has text. */
    lines(side?: Side): Line[];
    /** The octets of all lines, one after another, and nothing else. */
    text(side?: Side): Uint8Array;
    /** Where each octet of the lines of a side stands in the stream: a source for each piece that has octets, line by line, and in a line piece by piece. */
    sources(side: Side): Source[];
    /** The content of a text unit, its pieces or tiles joined. What is no text unit is refused by 20. */
    content(unit: number): Uint8Array;
    /** The identifier of an element; of a text unit the layout identifier. */
    identifier(element: number): Uint8Array | null;
    /** The elements whose parent this one is, in stream order. */
    children(element: number): number[];
    /** The date of the document; without one it is refused by 23 or 24. */
    date(): Dated;
    /** Whether the elements stand in the order of a class: null, or the refusal by 26 with the place where that shows. */
    order(interchangeClass: 'A' | 'B'): Refusal | null;
    /** The layout pages and page classes in stream order, each with the verdict of the PM1 desk. */
    pages(): Page[];
    /** The normal form: the same items in the same order, each length definite and in the fewest octets. */
    normal(): Uint8Array;
}
