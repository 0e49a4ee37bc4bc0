// The page of `odif view` in a browser: node view/tests/view.mjs ODIF-COMMAND FOLDER-OF-SAMPLES. What is expected comes from the command and its independent
// reader, never from the page. The last line is 'N passed, M failed'.
import { readdirSync, rmSync } from 'node:fs';
import { join } from 'node:path';
import { browser } from './browser.mjs';
import { hostile, large, letter, notShown, tiled } from './letters.mjs';
import { accepted, outline, printed, refused } from './shown.mjs';
import { defended } from './defended.mjs';
import { used } from './used.mjs';
import { largest } from './largest.mjs';
import { counts, room, samples, written } from './support.mjs';

const began = Date.now();
const page = await browser();
try {
    await page.size(1400, 3200); // so tall that all octets of a small letter are drawn
    for (const name of readdirSync(samples)) {
        const file = join(samples, name);
        if (name === 'cut-short.odif') await refused(page, file);
        else {
            await accepted(page, file);
            await outline(page, file);
            await printed(page, file);
        }
    }
    await refused(page, written('empty.odif', Buffer.alloc(0)));
    await refused(page, written('unclosed.odif', Buffer.from([0xA0, 0x80])));
    await refused(page, written('too-long.odif', Buffer.alloc(1048577, 0xA0)));
    await accepted(page, written('not-shown.odif', notShown()));
    await accepted(page, written('tiled.odif', tiled()), '1993');
    await accepted(page, written('hostile.odif', hostile()));
    await defended(page, join(room, 'hostile.odif'), written('\u202Efido.exe "<b>&\'.odif', letter('name\n')));
    await used(page, join(room, 'hostile.odif'), join(room, 'tiled.odif'));
    await largest(page, written('large.odif', large()));
} finally {
    await page.close();
    rmSync(room, { recursive: true, force: true });
}
console.log(`in ${Math.round((Date.now() - began) / 1000)} s`);
console.log(`${counts.passed} passed, ${counts.failed} failed`);
process.exit(counts.failed ? 1 : 0);
