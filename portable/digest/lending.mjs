// odif.wasm and its loader: node lending.mjs FOLDER SHORT.wasm, the second being the library with a stack that is too short. It ends with 1 where something
// does not hold.
import { readFile } from 'node:fs/promises';
import { resolve } from 'node:path';
import { pathToFileURL } from 'node:url';

const [folder, short] = process.argv.slice(2);
const { Library } = await import(pathToFileURL(resolve(folder, 'odif.mjs')));
const octets = await readFile(resolve(folder, 'odif.wasm'));

function hold(what, holds) {
    if (holds) return;
    console.error(`does not hold: ${what}`);
    process.exit(1);
}
function refused(kind, act) {
    try {
        act();
    } catch (why) {
        return why instanceof kind;
    }
    return false;
}
// a profile and so many empty elements: refused by 12 after all scratch is cleared, by 512 of them in little stack
const letter = count => Uint8Array.from([0xA0, 0, ...Array.from({ length: count }, () => [0xA3, 0]).flat()]);

hold('it imports nothing', WebAssembly.Module.imports(new WebAssembly.Module(octets)).length === 0);
const library = await Library.load(octets);
const lend = (from, stream) => {
    const part = from.lend(stream.length);
    part.octets().set(stream);
    return part;
};
const check = (from, stream) => {
    from.takeBack();
    return from.ask('odif_check', 4, lend(from, stream), from.lend(13 * 4096, 4));
};
hold('a letter is judged', check(library, letter(600)).join() === [12, 2, 601, 0].join());

// what is lent
library.takeBack();
const stream = lend(library, letter(1)), output = library.lend(64);
hold('parts that are lent are apart', output.at >= stream.at + stream.count && output.at % 8 === 0);
hold('what is lent twice is refused', refused(RangeError, () => library.ask('odif_normal', 3, stream, stream)));
hold('more than the room has is refused', refused(RangeError, () => library.lend((1 << 23) + 1)));
hold('a count that is no number of octets is refused', refused(RangeError, () => library.lend(-1)) && refused(RangeError, () => library.lend(0.3)));
hold('a part of another library is refused', await Library.load(octets).then(other => refused(RangeError, () => other.ask('odif_normal', 3, stream, output))));
hold('another number of parameters is refused', refused(TypeError, () => library.ask('odif_normal', 3, stream)));
library.takeBack();
hold('what was taken back is refused', refused(RangeError, () => library.ask('odif_normal', 3, stream, output)));

// letters in blocks, whose state is a struct that is lent
const whole = letter(1), block = lend(library, whole), state = library.lend(30, 4);
const first = library.ask('odif_blocks_start', 32, whole.length);
state.numbers().set(first.slice(2));
const now = library.ask('odif_blocks_take', 32, [state], block);
state.numbers().set(now.slice(2));
hold('a letter in blocks', library.ask('odif_blocks_close', 3, [state]).join() === [0, 0, 2].join());

// a stack that is too short traps, and nothing is asked of that library again
const cramped = await Library.load(await readFile(short));
hold('a small letter needs little stack', check(cramped, letter(500)).join() === [12, 2, 501, 0].join());
hold('a stack that runs over traps', refused(WebAssembly.RuntimeError, () => check(cramped, letter(600))));
hold('after that nothing is answered', refused(Error, () => check(cramped, letter(1))));
