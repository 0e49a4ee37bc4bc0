// Letters that the tests make: what a letter or a name may try, and the largest.
import { Buffer } from 'node:buffer';

const lengthOf = n => n < 128 ? [n] : n < 256 ? [0x81, n] : n < 65536 ? [0x82, n >> 8, n & 255] : [0x83, n >> 16, n >> 8 & 255, n & 255];

export function item(octet, ...inside) {
    const value = Buffer.concat(inside.map(part => Buffer.from(part)));
    return Buffer.concat([Buffer.from([octet, ...lengthOf(value.length)]), value]);
}

const block = identifier => item(0xA2, item(0x02, [4]), item(0x31, item(0x41, identifier), item(0xA1, item(0x12, '0'))));
const unit = (identifier, content) => item(0xA3, item(0x31, item(0x40, identifier)), content);

// A letter with a block and its unit for each content: octets, or an item that is the content.
export function letter(...contents) {
    const elements = contents.flatMap((content, i) => [block(`1 ${i}`), unit(`1 ${i} 0`, content.item ?? item(0x04, content))]);
    return Buffer.concat([item(0xA0), ...elements]);
}

// A text in pieces, nested, each with an empty one behind it, with definite and indefinite lengths.
export function inPieces(text, size) {
    const parts = [];
    for (let at = 0; at < text.length; at += size) parts.push(item(0x04, text.slice(at, at + size)), item(0x04));
    const middle = parts.length >> 1, nested = item(0x24, Buffer.concat(parts.slice(middle)));
    return { item: Buffer.concat([Buffer.from([0x24, 0x80]), ...parts.slice(0, middle), nested, Buffer.from([0, 0])]) };
}

export const FOX = 'The quick brown fox jumps over the lazy dog.\n';

export const hostile = () => letter(
    '<script>document.title = "run"; globalThis.run = 1</script>\n<img src=x onerror="globalThis.run = 2"><svg onload="globalThis.run=3">&lt;b&gt;\n',
    Buffer.from('\u202Eecnetnes siht nrut ton od\u202C\u2066\u200F\u05D0\u05D1 abc\u2069\n'),
    Buffer.from([...Array(256).keys()]),
    'NUL\0in the middle\x1B[31mred\x07\r\nnext\tcolumn\n',
    '</pre></script></style>{{script}}{{letter}}${alert(1)}<!--\n',
    '',
    Buffer.from('M\xC8uller, Fran\xCBcois, \xCAAngstr\xC8om, stra\xFBe, 5\xA4\n', 'latin1'),
    inPieces(FOX, 7),
);

// 1 MiB but for some octets, with so many units, each tenth of them in pieces.
export function large(units = 2000) {
    const sentence = 'The water in the cellar rose by two feet before the pump was found to have been serviced in January.\n';
    const text = Buffer.from(sentence.repeat(5)), each = Math.floor((1048576 - 2) / units) - 44;
    const whole = text.subarray(0, Math.min(each, text.length)), pieces = inPieces(text.subarray(0, each - 80), 64);
    return letter(...Array.from({ length: units }, (_, i) => i % 10 ? whole : pieces));
}

// A unit of a block, one whose name no object has, and one without a name.
export const notShown = () => Buffer.concat([item(0xA0), block('1 0'), unit('1 0 0', item(0x04, 'This stands on a line.\n')),
    unit('9 9', item(0x04, 'This stands on none.\n')), item(0xA3, item(0x04, 'Nor does this.\n'))]);

// Tiles, which the edition of 1993 alone has.
export const tiled = () => Buffer.concat([item(0xA0), block('1 0'), unit('1 0 0', item(0x30, item(0x04, 'H'), item(0x24, item(0x04, 'i'))))]);
