// What people do: a letter is opened, and a line or an octet chosen by mouse or keys.
import { Odif } from './index.js';
import { Library } from './odif.mjs';
import { $, visible } from './words.js';
import { ENOUGH, readLetter } from './letter.js';
import { columnsNow, draw, mark, measure, printedOctets, rowsSeen } from './octets.js';
import { showOutline, showSide } from './lines.js';
import { chooseSelected } from './selecting.js';
import { choose, tell } from './choosing.js';
import { alarm, showAbout, showFacts } from './facts.js';
import { NOTHING, lineAt, linesNow, now } from './state.js';

const from64 = text => Uint8Array.from(atob(text.trim()), letter => letter.charCodeAt(0));

function open(stream, about) {
    now.about = about;
    document.title = `${visible(about.name)} – ODIF letter`;
    $('name').textContent = visible(about.name);
    $('drop').hidden = true;
    $('panes').hidden = false;
    judge(stream);
}

// Reads the stream by the edition that is chosen, and shows all of it.
function judge(stream) {
    now.read = readLetter(now.odif, stream, Number($('edition').value));
    now.side = now.read.sides?.layout.length || !now.read.sides?.logical.length ? 'layout' : 'logical';
    now.chosen = NOTHING;
    showFacts(() => {
        $('edition').value = '1993';
        judge(stream);
    });
    showSide();
    measure();
    begin(stream);
}

// Begins at the place of a refusal, at the octet that the address names, or at the first.
function begin(stream) {
    const asked = /^#octet-(\d+)$/.exec(location.hash);
    if (now.read.refusal) choose({ octet: now.read.refusal.place });
    else if (asked && now.about.made && Number(asked[1]) < stream.length) choose({ octet: Number(asked[1]) }, true);
    else {
        $('octets').scrollTop = 0;
        tell();
    }
}

// A file that was chosen or dropped.
async function take(file) {
    if (!file) return;
    const octets = await file.slice(0, ENOUGH).arrayBuffer();
    open(new Uint8Array(octets), { name: file.name, size: file.size, made: false });
}

/* The lines */

const lineOf = event => event.target.closest?.('.line')?.line ?? -1;

function warm(line) {
    if (line === now.warm) return;
    linesNow()[now.warm]?.node.classList.remove('hot');
    linesNow()[now.warm = line]?.node.classList.add('hot');
    mark();
}

$('text').onmouseover = event => warm(lineOf(event));
$('text').onmouseleave = $('octets').onmouseleave = () => warm(-1);
$('text').addEventListener('focusin', event => { if (lineOf(event) >= 0 && lineOf(event) !== now.chosen.line) choose({ line: lineOf(event) }); });
$('text').onclick = event => { if (lineOf(event) >= 0 && getSelection().isCollapsed) choose({ line: lineOf(event) }); };
$('text').onkeyup = event => { if (event.shiftKey) chooseSelected(); };
$('text').onkeydown = event => {
    const at = lineOf(event), to = { ArrowDown: at + 1, ArrowUp: at - 1, Home: 0, End: linesNow().length - 1 }[event.key];
    if (at < 0 || to === undefined || event.shiftKey) return;
    event.preventDefault();
    linesNow()[to]?.node.focus();
};
addEventListener('mouseup', () => setTimeout(chooseSelected));

/* The octets */

// The octet from which the keys move.
function octetNow() {
    const { octet, line, run } = now.chosen;
    return octet >= 0 ? octet : (linesNow()[line]?.sources[0] ?? run)?.first ?? -1;
}

$('octets').onmouseover = event => warm(event.target.octet === undefined ? -1 : lineAt(event.target.octet));
$('octets').onclick = event => { if (event.target.octet !== undefined) choose({ octet: event.target.octet }, true); };
$('octets').onscroll = () => requestAnimationFrame(draw);
$('octets').onkeydown = event => {
    const at = octetNow(), row = columnsNow(), page = row * rowsSeen(), last = now.read.stream.length - 1;
    const steps = { ArrowRight: at + 1, ArrowLeft: at - 1, ArrowDown: at + row, ArrowUp: at - row, PageDown: at + page, PageUp: at - page, Home: 0, End: last };
    if (event.key === 'Enter') linesNow()[now.chosen.line]?.node.focus();
    if (!(event.key in steps) || last < 0 || event.ctrlKey || event.metaKey || event.altKey) return;
    event.preventDefault();
    choose({ octet: Math.min(Math.max(steps[event.key], 0), last) }, true);
};

/* The page */

$('outline').ontoggle = () => showOutline();
$('set').onchange = () => {
    const { chosen } = now;
    showSide();
    choose(chosen);
};
$('edition').onchange = () => { if (now.read) judge(now.read.stream); };
$('theme').onclick = () => {
    const { style } = document.documentElement, isDark = matchMedia('(prefers-color-scheme: dark)').matches;
    style.colorScheme = (style.colorScheme || (isDark ? 'dark' : 'light')) === 'dark' ? 'light' : 'dark';
};
$('choose').onclick = $('choose-one').onclick = () => $('file').click();
$('file').onchange = () => {
    take($('file').files[0]);
    $('file').value = '';
};
addEventListener('dragover', event => {
    event.preventDefault();
    document.body.classList.add('over');
});
addEventListener('dragleave', event => { if (!event.relatedTarget) document.body.classList.remove('over'); });
addEventListener('drop', event => {
    event.preventDefault();
    document.body.classList.remove('over');
    take(event.dataTransfer.files[0]);
});
addEventListener('resize', () => { if (now.read) measure(); });
addEventListener('beforeprint', () => { if (now.read) $('printed').textContent = printedOctets(); });
addEventListener('afterprint', () => { $('printed').textContent = ''; });

// Loads the reader that the page holds, and opens the letter that it holds, if it holds one.
async function start() {
    const reader = from64($('reader').textContent), held = $('letter');
    now.odif = new Odif(await Library.load(reader));
    if (held) {
        const { name, size, sha256, edition } = held.dataset;
        $('edition').value = edition;
        open(from64(held.textContent), { name, size: Number(size), sha256, made: true });
    } else $('drop').hidden = false;
    await showAbout(reader);
}

try {
    await start();
} catch (why) {
    const lacking = 'This browser does not run WebAssembly, by which this page reads the letter.';
    alarm(globalThis.WebAssembly ? `The letter could not be shown: ${why.message}` : lacking);
}
document.documentElement.dataset.ready = Math.round(performance.now());
