// Which characters octets are, by the library's question `utf8`. This is the one place that knows: the rest of the page calls `characters`.
import { hex, isPrintable } from './words.js';
import { now } from './state.js';

const NO_BREAK = '\u00A0', SOFT_HYPHEN = '\u00AD', FIRST_ACCENT = 0xC0;
const known = {}; // for each set what is shown for an octet, at the octet, and for an accent and an octet, at 256 times the accent and the octet

const byLibrary = (set, ...octets) => now.odif.utf8(Uint8Array.from(octets), set).text;
const remembered = (set, at, find) => (known[set] ??= [])[at] ??= find();

// What is shown for one octet. What can't be seen is written out, as what is no character is.
function alone(octet, set) {
    return remembered(set, octet, () => {
        const shown = set !== 'ascii' ? byLibrary(set, octet) : isPrintable(octet) ? String.fromCharCode(octet) : '';
        return shown === SOFT_HYPHEN || shown < ' ' ? `⟦${hex(octet)}⟧` : shown;
    });
}

// What is shown for an accent and the octet behind it, if that is one character; '' if not.
function accented(accent, octet, set) {
    if (set === 'ascii' || accent < FIRST_ACCENT) return '';
    return remembered(set, 256 * accent + octet, () => {
        const both = byLibrary(set, accent, octet);
        return both === byLibrary(set, accent) + byLibrary(set, octet) ? '' : both;
    });
}

// Hands over, in order, what is shown for each octet, or for an accent and its letter: take(shown, kind, first, past), the octets counted in `octets`.
// The kind is '' for a character, 'end' for a line end, 'blank' for what looks like a space and is none, and 'octet' for an octet that has no character
// in the set and is shown in hexadecimal. Each octet is handed over once.
export function characters(octets, set, take) {
    for (let first = 0, past; first < octets.length; first = past) {
        const octet = octets[first], pair = first + 1 < octets.length ? accented(octet, octets[first + 1], set) : '';
        past = first + (pair ? 2 : 1);
        const shown = pair || alone(octet, set);
        if (octet === 0x0A) take('\n', 'end', first, past);
        else if (octet === 0x09) take('\t', 'blank', first, past);
        else take(shown, shown === NO_BREAK ? 'blank' : shown.startsWith('⟦') ? 'octet' : '', first, past);
    }
}
