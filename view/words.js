// Nodes, numbers and names. Every node of the page is made here, of a tag and of text: no octet of a letter ever becomes markup.

export const $ = id => document.getElementById(id);

export function el(tag, attributes, ...inside) {
    const node = document.createElement(tag);
    for (const [name, value] of Object.entries(attributes)) node.setAttribute(name, value);
    node.append(...inside);
    return node;
}

export const link = (words, onclick) => Object.assign(el('button', { type: 'button', class: 'link' }, words), { onclick });

export const grouped = number => number.toLocaleString('en');
export const counted = (number, noun) => `${grouped(number)} ${noun}${number === 1 ? '' : 's'}`;
export const hex = octet => octet.toString(16).toUpperCase().padStart(2, '0');
export const isPrintable = octet => octet >= 0x20 && octet <= 0x7E;

// Octets from `first` up to the one before `past`, in words.
export function places({ first, past }) {
    if (past <= first) return 'no octets';
    return past === first + 1 ? `octet ${grouped(first)}` : `octets ${grouped(first)} to ${grouped(past - 1)}`;
}

// A file's name can hold anything: what is invisible, or turns the direction of text, is written out.
export function visible(name) {
    return name.replace(/[\p{C}\u2028\u2029]/gu, letter => `⟦U+${letter.codePointAt(0).toString(16).toUpperCase().padStart(4, '0')}⟧`);
}

export async function sha256(octets) {
    if (!globalThis.crypto?.subtle) return 'not to be had in this browser';
    return [...new Uint8Array(await crypto.subtle.digest('SHA-256', octets))].map(octet => hex(octet).toLowerCase()).join('');
}

const KINDS = ['document profile', 'layout class', 'layout object', 'text unit', '', 'logical class', 'logical object', 'presentation style', 'layout style',
    'sealed document profile', 'enciphered document profile', 'pre-enciphered body part', 'post-enciphered body part'];
const TYPES = { layout: ['document layout root', 'page set', 'page', 'frame', 'block'], logical: ['document logical root', 'composite', 'basic object'] };
export const VERDICTS = ['no dimensions', 'essential', 'non-essential', 'outside', 'not fixed'];
const SIDE_OF = { 1: 'layout', 2: 'layout', 5: 'logical', 6: 'logical' };

// The side of a class or object; undefined of what is neither.
export const sideOf = element => SIDE_OF[element.kind];

// An element of a letter in words: its type or kind, and its identifier.
export function named(letter, number) {
    const element = letter.elements[number], side = sideOf(element), type = TYPES[side]?.[element.objectType];
    const isClass = element.kind === 1 || element.kind === 5;
    const name = type === undefined ? KINDS[element.kind] : type + (isClass ? ' class' : '');
    const identifier = letter.identifier(number);
    return identifier === null ? name : `${name} ${String.fromCharCode(...identifier)}`; // digits and spaces, by rule 14
}
