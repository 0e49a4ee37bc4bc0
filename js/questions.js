// The questions of include/odif.h and include/pm1.h that this package asks, and how each is put: memory is lent for one question, and given back with
// its answer.

export const NO_PARENT = 65535, LINE_WIDTH = 5, SOURCE_WIDTH = 3, PAGE_WIDTH = 2;
export const SERIES = '0.2'; // the first two numbers of the module's version that this is written for

// The structs of odif.h, and of pm1.h by their whole names: numbers of 32 bits.
export const STRUCTS = {
    checked: 'number place headers elements',
    written: 'number place length',
    copied: 'number place length',
    related: 'number place elements children',
    dated: 'number place first past year month day',
    first_dated: 'number place first past year month day unread',
    ordered: 'number place',
    text_read: 'number place elements lines length',
    line: 'element portion unit first past',
    shown: 'number place length numbers',
    sourced: 'number place lines sources',
    source: 'line first past',
    pm1_listed: 'number place elements pages',
    pm1_page: 'element verdict',
    entry: 'identifier_first identifier_past portion_first portion_past text_first text_past',
};

// Which struct each question answers with; those of 1993 answer with the same.
export const OF_BOTH_EDITIONS = {
    odif_check: 'checked',
    odif_normal: 'written',
    odif_joined: 'copied',
    odif_children: 'related',
    odif_order_a: 'ordered',
    odif_order_b: 'ordered',
    odif_date: 'dated',
    odif_first_date: 'first_dated',
    odif_layout_text_numbers: 'text_read',
    odif_logical_text_numbers: 'text_read',
    odif_layout_sources_numbers: 'sourced',
    odif_logical_sources_numbers: 'sourced',
    pm1_pages_numbers: 'pm1_listed',
};
export const OF_NONE = { odif_make_numbers: 'written', odif_utf8: 'shown' };

// A refusal: its number, its place in octets from 0, and the sentence of its number.
export class Refusal extends Error {
    constructor(number, place, sentence) {
        super(`refused, number ${number} at octet ${place}: ${sentence}`);
        Object.assign(this, { name: 'Refusal', number, place, sentence });
    }
}

// Memory to lend: so many octets, or so many numbers.
export const octets = count => ({ count, size: 1 });
export const numbers = count => ({ count, size: 4 });

export class Questions {
    #library;

    constructor(library) {
        this.#library = library;
    }

    // Puts a question. Of the parameters a number is handed over as it is, an array is copied into memory that is lent, and what `octets` and `numbers`
    // stand for is lent empty. read: what is told the answer and the parts that were lent empty, while they are still lent.
    answer(name, edition, parameters, read) {
        const library = this.#library, empty = [];
        const given = one => {
            if (typeof one === 'number') return one;
            const filled = ArrayBuffer.isView(one), part = filled ? library.lend(one.length, one.BYTES_PER_ELEMENT) : library.lend(one.count, one.size);
            if (filled) part.octets().set(new Uint8Array(one.buffer, one.byteOffset, one.byteLength));
            else empty.push(part);
            return part;
        };
        try {
            const fields = STRUCTS[OF_NONE[name] ?? OF_BOTH_EDITIONS[name]].split(' ');
            const told = library.ask(name + endOf(edition), fields.length, ...parameters.map(given));
            const answer = Object.fromEntries(fields.map((field, i) => [field, told[i]]));
            answer.refusal = answer.number === 0 ? null : new Refusal(answer.number, answer.place, library.sentence(answer.number));
            return read(answer, ...empty);
        } catch (why) {
            if (library.lost) throw new Error('the module ran out of stack and answers nothing more: load() it anew', { cause: why });
            throw why;
        } finally {
            library.takeBack();
        }
    }
    // Puts a question whose refusal is thrown.
    ask(name, edition, parameters, read) {
        return this.answer(name, edition, parameters, (answer, ...parts) => {
            if (answer.refusal) throw answer.refusal;
            return read(answer, ...parts);
        });
    }
    string(name, ...numbers) {
        return this.#library.string(name, ...numbers);
    }
}

function endOf(edition) {
    if (edition !== 1988 && edition !== 1993) throw new RangeError(`the edition is 1988 or 1993, and not ${edition}`);
    return edition === 1988 ? '' : '_1993';
}
