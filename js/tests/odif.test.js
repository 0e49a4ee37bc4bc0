// The package as it stands in the folder ODIF_PACKAGE (`portable/build wasm32 FOLDER`), on the samples and on the vectors of all readers. Run in the
// repository's folder: node --test js/tests/odif.test.js
import assert from 'node:assert/strict';
import { readFileSync } from 'node:fs';
import { createServer } from 'node:http';
import { resolve } from 'node:path';
import { test } from 'node:test';
import { pathToFileURL } from 'node:url';

const PACKAGE = resolve(process.env.ODIF_PACKAGE);
const at = file => pathToFileURL(resolve(PACKAGE, file));
const module = await import(at('index.js')), own = await import(at('questions.js'));
const { Kind, Letter, Odif, Refusal, STREAM_LIMIT, load } = module;
const odif = await load();

const text = file => readFileSync(file, 'utf8');
const latin = octets => Buffer.from(octets).toString('latin1');
const octets = written => Uint8Array.from(Buffer.from(written, 'latin1'));
const hex = digits => Uint8Array.from(Buffer.from(digits.replaceAll(' ', ''), 'hex'));
const sample = name => readFileSync(`samples/letters/${name}.odif`);
const letter = name => odif.letter(sample(name));
const refusal = act => {
    try {
        act();
    } catch (why) {
        if (why instanceof Refusal) return why;
        throw why;
    }
    return assert.fail('nothing is refused');
};
const told = refused => refused === null ? '0 0' : `${refused.number} ${refused.place}`;

// The columns of each line of a file of vectors; one file has at least one.
function vectors(file) {
    const lines = text(`vectors/${file}`).split('\n').filter(line => line !== '' && !line.startsWith('#'));
    assert.ok(lines.length > 0, file);
    return lines.map(line => line.split(';').map(column => column.trim()));
}

test('texts', () => {
    for (const name of ['claim', 'annex-d-1', 'annex-d-2', 'dated']) {
        const lines = letter(name).lines().map(line => latin(line.octets));
        assert.equal(lines.map(line => line.endsWith('\n') ? line : `${line}\n`).join(''), latin(readFileSync(`samples/text/${name}.txt`)), name);
    }
});

test('lines say where they stand', () => {
    const read = letter('annex-d-1'), lines = read.lines(), [{ element, portion, unit }] = lines;
    assert.deepEqual([element, portion, unit], [3, 0, 4]);
    assert.equal(latin(read.identifier(element)), '1 0 0');
    assert.equal(read.elements[unit].kind, Kind.TEXT_UNIT);
    assert.equal(read.elements[element].parent, 2);
    assert.ok(read.children(2).includes(element));
    for (const line of lines) assert.deepEqual(read.content(line.unit), line.octets);
    assert.equal(latin(read.text()), lines.map(line => latin(line.octets)).join(''));
});

test('elements', () => {
    const range = (first, past) => ({ first, past }), none = { objectType: null, identifier: null, logicalIdentifier: null, portions: null, content: null, parent: null };
    const read = odif.letter(hex('A000 A20F020104310A4103312030A103120130 A313310E4005312030203084053320312030040178'));
    assert.deepEqual([...read.elements].map(element => ({ ...element })), [
        { ...none, kind: Kind.DOCUMENT_PROFILE, place: range(0, 2) },
        { ...none, kind: Kind.LAYOUT_OBJECT, objectType: 4, place: range(2, 19), identifier: range(11, 14), portions: range(16, 19) },
        { ...none, kind: Kind.TEXT_UNIT, place: range(19, 40), identifier: range(25, 30), logicalIdentifier: range(32, 37), content: range(39, 40) },
    ]);
    assert.equal(read.headers, odif.check(read.stream).headers);
    const other = letter('annex-d-1'), all = [...other.elements.keys()];
    assert.ok(all.some(number => other.elements[number].parent === 2));
    for (const number of all) assert.deepEqual(other.children(number), all.filter(one => other.elements[one].parent === number));
});

test('pieces are joined', () => {
    const read = letter('in-pieces'), { first, past } = read.elements[read.lines()[0].unit].content;
    assert.equal(latin(read.text()), 'Hi');
    assert.ok(past - first > 2);
});

test('where the text stands', () => {
    assert.deepEqual(letter('in-pieces').sources('layout').map(({ line, place }) => [line, place.first, place.past]), [[0, 38, 39], [0, 41, 42]]);
    for (const name of ['annex-d-1', 'annex-d-2', 'claim']) for (const side of ['layout', 'logical']) {
        const read = letter(name), lines = read.lines(side).map(() => '');
        for (const { line, place } of read.sources(side)) lines[line] += latin(read.stream.slice(place.first, place.past));
        assert.deepEqual(lines, read.lines(side).map(line => latin(line.octets)), `${name}, ${side}`);
    }
    assert.throws(() => letter('claim').sources(), /'layout' or 'logical'/);
});

test('memory is enough for the sources of the largest letter', () => {
    const count = 349490, long = number => `83${number.toString(16).padStart(6, '0')}`, pieces = `24${long(3 * count)}${'040178'.repeat(count)}`;
    const unit = `31094007312030203220 30${pieces}`.replace(' ', ''), read = odif.letter(hex(`A000 A211020104310C41053120302032A103120130 A3${long(unit.length / 2)}${unit}`));
    assert.ok(read.stream.length > STREAM_LIMIT - 100);
    assert.equal(read.sources('layout').length, count);
});

test('sides', () => {
    const read = letter('annex-d-2');
    assert.deepEqual(read.lines('layout'), []);
    assert.ok(read.lines().length > 0);
    assert.deepEqual(read.lines(), read.lines('logical'));
});

test('dates', () => {
    const read = letter('dated'), date = read.date();
    assert.equal(`${date}`, '1991-04-08');
    assert.deepEqual([date.year, date.month, date.day], [1991, 4, 8]);
    assert.equal(latin(read.stream.slice(date.place.first, date.place.past)), '1991-04-08');
    assert.deepEqual(odif.firstDate(read.stream), date);
    assert.equal(refusal(() => letter('claim').date()).number, 23);
});

test('pages', () => {
    const read = letter('annex-d-1'), pages = read.pages();
    assert.deepEqual(pages.map(page => latin(read.identifier(page.element))), ['1 0', '1 1', '1 2']);
    assert.ok(pages.every(page => page.verdict === module.Verdict.NON_ESSENTIAL));
    assert.deepEqual(odif.letter(hex('A000')).pages(), []);
});

test('a letter is made', () => {
    const entry = (...parts) => Object.fromEntries(['identifier', 'portion', 'text'].map((name, i) => [name, octets(parts[i])]));
    const made = odif.make([entry('1 0 0', '0', 'Dear Sir,\r\n'), entry('1 0 1', '0', 'a\0b')]), read = odif.letter(made);
    assert.deepEqual(read.lines().map(line => latin(line.octets)), ['Dear Sir,\r\n', 'a\0b']);
    assert.deepEqual(read.normal(), made);
    assert.equal(told(refusal(() => odif.make([entry('1', '0', ''), entry('1', '0', '')]))), '15 1');
    assert.throws(() => odif.make([entry('1', '0', 'a'.repeat(2 * STREAM_LIMIT))]), RangeError);
});

test('the octets of a text as text', () => {
    const shown = (text, set) => odif.utf8(octets(text), set);
    assert.deepEqual(shown('M\xC8uller, Fran\xCBcois\r\n'), { text: 'Müller, François\r\n', numbers: 0 });
    assert.deepEqual(shown('5$ \xA45', 't61'), { text: '5¤ $5', numbers: 0 });
    assert.deepEqual(shown('M\xFCller\x07\xC8', 'latin1'), { text: 'Müller\u27E607\u27E7È', numbers: 1 });
    assert.deepEqual(shown('x\xC8'), { text: 'x\u27E6C8\u27E7', numbers: 1 });
    assert.deepEqual(shown(''), { text: '', numbers: 0 });
    const long = 'a\xC8u\r\n'.repeat(40000); // cut in parts, and never within a character
    for (const before of ['', 'x', 'xx', 'xxx', 'xxxx']) assert.deepEqual(shown(before + long), { text: before + 'aü\r\n'.repeat(40000), numbers: 0 });
    assert.equal(shown('\0'.repeat(200000)).numbers, 200000);
    assert.throws(() => odif.utf8(octets('a'), 'utf8'), RangeError);
});

test('a refusal has number, place and sentence', () => {
    const refused = refusal(() => letter('cut-short'));
    assert.ok(refused instanceof Error);
    assert.equal(told(refused), '7 887');
    assert.equal(refused.name, 'Refusal');
    assert.equal(refused.message, `refused, number 7 at octet 887: ${odif.sentence(7)}`);
});

test('the sentences are those of include/odif_sentence.c', () => {
    const sentences = [...text('include/odif_sentence.c').matchAll(/^ +\[(\d+)\] = "([^"\\]*)",$/gm)];
    assert.deepEqual(sentences.map(([, number]) => Number(number)), sentences.map((_, i) => i));
    assert.ok(sentences.length > 30, `${sentences.length} sentences`);
    for (const [, number, sentence] of sentences) assert.equal(odif.sentence(Number(number)), sentence);
    assert.equal(odif.sentence(sentences.length), odif.sentence(0xFFFFFFFF));
});

test('what is no stream', () => {
    assert.equal(odif.check(new Uint8Array()).refusal.number, 11);
    for (const length of [STREAM_LIMIT + 1, 8 * STREAM_LIMIT]) {
        const long = new Uint8Array(length);
        assert.equal(odif.check(long).refusal.number, 1);
        assert.equal(refusal(() => odif.letter(long)).number, 1);
    }
    for (const wrong of ['A000', null, [0xA0, 0], new Uint16Array(2)]) assert.throws(() => odif.check(wrong), /Uint8Array or an ArrayBuffer/);
});

test('a number that no text unit has', () => {
    const read = odif.letter(hex('A000'));
    for (const unit of [0, 1, 4000000000]) assert.equal(refusal(() => read.content(unit)).number, 20);
    for (const unit of [-1, 0.5, 2 ** 32, '0', undefined]) assert.throws(() => read.content(unit), RangeError);
    assert.throws(() => read.identifier(1), /has 1/);
});

test('misuse says what is meant', () => {
    assert.throws(() => odif.letter(hex('A000'), 1990), /1988 or 1993/);
    assert.throws(() => odif.letter(hex('A000')).order('C'), /'A' or 'B'/);
    assert.throws(() => odif.letter(hex('A000')).lines('both'), /'layout' or 'logical'/);
});

test('a letter is its own: neither the caller nor another question changes it', () => {
    const stream = sample('claim'), read = odif.letter(stream), lines = read.lines(), wanted = lines.map(line => latin(line.octets));
    stream.fill(0xFF);
    odif.check(new Uint8Array(STREAM_LIMIT).fill(0x41));
    assert.deepEqual(lines.map(line => latin(line.octets)), wanted);
    assert.deepEqual(read.lines().map(line => latin(line.octets)), wanted);
    assert.throws(() => { read.elements[0].kind = 9; }, TypeError);
});

test('memory is given back: the largest letter, again and again', () => {
    const entry = { identifier: octets('1 0 0'), portion: octets('0'), text: new Uint8Array(STREAM_LIMIT - 100).fill(0x78) };
    for (let i = 0; i < 16; i++) {
        const read = odif.letter(odif.make([entry]));
        assert.equal(read.text().length, entry.text.length);
        assert.equal(read.normal().length, read.stream.length);
    }
});

test('a stack that runs over is an error that says so, and nothing is answered after it', async () => {
    // where the stack begins is a variable of the module, at first 512 KiB; here it is 64 KiB, which is as long to write
    const begins = last => latin([0x7F, 0x01, 0x41, 0x80, 0x80, last, 0x0B]), written = latin(readFileSync(at('odif.wasm')));
    assert.equal(written.split(begins(0x20)).length, 2);
    const short = await load(octets(written.replace(begins(0x20), begins(0x04))));
    const many = hex(`A000${'A300'.repeat(600)}`), before = short.letter(hex('A000'));
    assert.equal(told(odif.check(many).refusal), '12 2');
    for (const act of [() => short.check(many), () => short.check(hex('A000')), () => before.normal()]) assert.throws(act, /ran out of stack.*load\(\) it anew/);
    assert.throws(() => short.sentence(7), /stack/);
    assert.equal((await load()).check(hex('A000')).refusal, null);
});

test('it is loaded of octets, of a file and over HTTP', async () => {
    const wasm = readFileSync(at('odif.wasm'));
    const server = createServer((asked, answer) => answer.writeHead(asked.url === '/odif.wasm' ? 200 : 404).end(wasm));
    await new Promise(ready => server.listen(0, '127.0.0.1', ready));
    const base = `http://127.0.0.1:${server.address().port}`;
    try {
        for (const source of [wasm, new Uint8Array(wasm).buffer, at('odif.wasm'), `${at('odif.wasm')}`, `${base}/odif.wasm`, new URL(`${base}/odif.wasm`)]) {
            assert.equal((await load(source)).check(hex('A000')).elements, 1);
        }
        await assert.rejects(load(`${base}/other`), /404.*give load\(\)/);
        await assert.rejects(load(7), /Uint8Array or an ArrayBuffer/);
    } finally {
        server.close();
        server.closeAllConnections?.();
    }
});

const checked = (stream, edition, column) => {
    const { refusal: refused, headers } = odif.check(stream, edition);
    assert.equal(`${told(refused)} ${headers}`, column);
    return refused === null;
};

test('vectors: documents', () => {
    for (const file of ['document-01.txt', 'types.txt']) {
        for (const [, stream, verdict, normal, joined] of vectors(file)) {
            if (!checked(hex(stream), 1988, verdict)) continue;
            const read = odif.letter(hex(stream));
            assert.deepEqual(read.normal(), hex(normal));
            const [unit, ...content] = joined.split(' ');
            if (joined !== '-') assert.deepEqual(read.content(Number(unit)), hex(content.join('')));
        }
    }
});

test('vectors: editions', () => {
    for (const file of ['editions.txt', 'editions-more.txt']) {
        for (const [, stream, of1988, of1993] of vectors(file)) {
            checked(hex(stream), 1988, of1988);
            checked(hex(stream), 1993, of1993);
        }
    }
});

test('vectors: orders', () => {
    const ways = [[1988, 'A'], [1988, 'B'], [1993, 'A'], [1993, 'B']];
    for (const [what, stream, ...answers] of vectors('order.txt')) {
        for (const [i, [edition, order]] of ways.entries()) {
            const refused = odif.check(hex(stream), edition).refusal ?? odif.letter(hex(stream), edition).order(order);
            assert.equal(told(refused), answers[i], `${what}, ${edition}, ${order}`);
        }
    }
});

test('numbers, structs and questions are those of include/', () => {
    const facts = text(`include/facts-${own.SERIES}.txt`).split('\n');
    for (const name of ['STREAM_LIMIT', 'MOST_ELEMENTS', 'ROW_WIDTH', 'NO_PARENT']) assert.ok(facts.includes(`ODIF_${name} ${module[name]}`), name);
    const whole = struct => struct.startsWith('pm1_') ? struct : `odif_${struct}`;
    for (const [struct, fields] of Object.entries(own.STRUCTS)) {
        const wanted = fields.split(' ').map((field, i) => `${whole(struct)}.${field} at ${4 * i}, 4 octets`);
        assert.deepEqual(facts.filter(fact => fact.startsWith(`${whole(struct)}.`)), wanted);
    }
    assert.equal(own.LINE_WIDTH, own.STRUCTS.line.split(' ').length);
    assert.equal(own.SOURCE_WIDTH, own.STRUCTS.source.split(' ').length);
    assert.equal(own.PAGE_WIDTH, own.STRUCTS.pm1_page.split(' ').length);
    const verdicts = [...text('include/pm1.h').matchAll(/^ +PM1_([A-Z_]+) += (\d),?/gm)].map(([, name, number]) => [name, Number(number)]);
    assert.deepEqual({ ...module.Verdict }, Object.fromEntries(verdicts));
    const both = Object.entries(own.OF_BOTH_EDITIONS).flatMap(([name, struct]) => [[name, struct], [`${name}_1993`, struct]]);
    for (const [name, struct] of [...both, ...Object.entries(own.OF_NONE)]) assert.ok(facts.some(fact => fact.startsWith(`${whole(struct)} ${name}(`)), name);
});

test('the kinds are those of the Python package', () => {
    const kinds = text('python/odif/__init__.py').match(/class Kind\(.*?\n\n\n/s)[0];
    assert.deepEqual({ ...Kind }, Object.fromEntries([...kinds.matchAll(/^ +([A-Z_]+) = (\d+)$/gm)].map(([, name, number]) => [name, Number(number)])));
});

test('the version', () => {
    assert.match(text('include/odif.h'), new RegExp(`#define ODIF_VERSION +"${odif.version}"`));
    assert.equal(JSON.parse(text('js/package.json')).version, odif.version);
    assert.match(odif.identity, /^[0-9a-f]{64}$/);
});

test('the types name what is there', () => {
    const types = text(at('index.d.ts')).replace(/\/\*\*.*?\*\//gs, '');
    const values = [...types.matchAll(/^export (?:const|class|function) (\w+)/gm)].map(([, name]) => name);
    assert.deepEqual(values.sort(), Object.keys(module).sort());
    const read = letter('claim'), refused = refusal(() => letter('cut-short'));
    const all = {
        Odif: odif, Letter: read, Refusal: refused, Element: read.elements[0], Line: read.lines()[0], Dated: letter('dated').date(), Page: letter('annex-d-1').pages()[0], Source: letter('claim').sources('layout')[0], Checked: odif.check(read.stream),
    };
    for (const [name, one] of Object.entries(all)) {
        const body = types.match(new RegExp(`^export (?:class|interface) ${name}\\b[^{]*\\{(.*?)^\\}`, 'ms'))[1];
        const named = [...body.matchAll(/^    (?:readonly )?(\w+)[(:?]/gm)].map(([, member]) => member);
        const kind = Object.getPrototypeOf(one), methods = kind === Object.prototype ? [] : Object.getOwnPropertyNames(kind);
        const plain = one === refused ? ['constructor', 'name'] : ['constructor'];
        const there = [...Object.keys(one), ...methods].filter(member => !plain.includes(member));
        assert.deepEqual(named.sort(), there.sort(), name);
    }
});

test('docs/BINDINGS.md names what is there', () => {
    const rows = text('docs/BINDINGS.md').split('## ')[0].split('\n').filter(line => line.startsWith('| ')).map(line => line.split('|').map(cell => cell.trim()));
    const column = rows[0].findIndex(cell => cell.startsWith('JavaScript'));
    const names = rows.slice(1).flatMap(row => [...row[column].matchAll(/`([^`]+)`/g)].map(([, name]) => name)), read = letter('claim');
    for (const name of names) {
        const [owner, member] = name.split('.');
        assert.ok(member in { Odif: odif, Letter: read }[owner], name);
    }
    const members = (name, of, more) => [...Object.getOwnPropertyNames(of.prototype), ...more].filter(one => one !== 'constructor').map(one => `${name}.${one}`);
    const unnamed = [...members('Odif', Odif, ['version', 'identity']), ...members('Letter', Letter, ['elements'])].filter(name => !names.includes(name));
    assert.deepEqual(unnamed, ['Letter.identifier']); // a part of the stream, and no question
});

test('the package has its files, and depends on nothing', () => {
    const { dependencies, files } = JSON.parse(text('js/package.json'));
    assert.equal(dependencies, undefined);
    for (const file of files) assert.ok(readFileSync(at(file)).length > 0, file);
    for (const file of files.filter(name => /js$/.test(name))) {
        const taken = [...text(at(file)).matchAll(/^import .*? from '(.*)'/gm)].map(([, name]) => name);
        assert.ok(taken.every(name => name.startsWith('./') && files.includes(name.slice(2))), `${file} takes ${taken}`);
    }
});
