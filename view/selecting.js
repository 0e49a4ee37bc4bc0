// Single characters of a line and their octets, either way.
import { $ } from './words.js';
import { characters } from './characters.js';
import { choose } from './choosing.js';
import { linesNow } from './state.js';

// Highlights the character that an octet of a line is of; the octet is counted from the line's first.
export function point(line, octet) {
    const { octets, node } = linesNow()[line], range = document.createRange();
    let at = 0, from = 0, to = 0;
    characters(octets, $('set').value, (shown, kind, first, past) => {
        if (octet >= first && octet < past) [from, to] = [at, at + shown.length];
        at += shown.length;
    });
    const walker = document.createTreeWalker(node.lastElementChild, NodeFilter.SHOW_TEXT);
    for (let text, done = 0; (text = walker.nextNode()); done += text.length) {
        if (from >= done && from < done + text.length) range.setStart(text, from - done);
        if (to > done && to <= done + text.length) range.setEnd(text, to - done);
    }
    globalThis.CSS?.highlights?.set('octet', new Highlight(range));
}

export const unpoint = () => globalThis.CSS?.highlights?.delete('octet');

// How many characters of a node stand before the two ends of a selection, cut to the node.
function selectedIn(node, selection) {
    const range = selection.getRangeAt(0), all = document.createRange();
    all.selectNodeContents(node);
    const from = range.compareBoundaryPoints(Range.START_TO_START, all) > 0 ? range : all;
    const to = range.compareBoundaryPoints(Range.END_TO_END, all) < 0 ? range : all;
    const before = all.cloneRange(), upTo = all.cloneRange();
    before.setEnd(from.startContainer, from.startOffset);
    upTo.setEnd(to.endContainer, to.endOffset);
    return [before.toString().length, upTo.toString().length];
}

// Chooses the octets of the characters that are selected in a line.
export function chooseSelected() {
    const selection = getSelection(), node = selection.anchorNode?.parentElement?.closest('.line pre');
    if (!node || selection.isCollapsed || !selection.containsNode(node, true)) return;
    const [start, end] = selectedIn(node, selection), { line } = node.parentElement, part = { first: Infinity, past: 0 };
    let at = 0;
    characters(linesNow()[line].octets, $('set').value, (shown, kind, first, past) => {
        if (at < end && at + shown.length > start) {
            part.first = Math.min(part.first, first);
            part.past = past;
        }
        at += shown.length;
    });
    if (part.first < part.past) choose({ line, part });
}
