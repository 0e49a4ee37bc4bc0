// Shows the text of a letter in reading order, by odif.wasm: node letter.mjs FOLDER FILE, with the folder that `portable/build wasm32 FOLDER` fills.
// It ends with status 1 if the letter is refused, and with 2 if it cannot be read. In a page, fetch takes the place of readFile.
import { readFile } from 'node:fs/promises';
import { resolve } from 'node:path';
import { pathToFileURL } from 'node:url';

const [folder, file] = process.argv.slice(2);
const { Refusal, load } = await import(pathToFileURL(resolve(folder, 'index.js')));
const odif = await load();
const stream = await readFile(file).catch(why => {
    console.error(`letter: ${why.message}`);
    process.exit(2);
});
try {
    for (const { octets } of odif.letter(stream).lines()) {
        process.stdout.write(octets);
        if (octets.at(-1) !== 10) process.stdout.write('\n');
    }
} catch (why) {
    if (!(why instanceof Refusal)) throw why;
    console.error(why.message);
    process.exitCode = 1;
}
