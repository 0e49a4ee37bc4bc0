// The library in JavaScript: loads odif.wasm, which imports nothing and sees its own memory alone, and lends it parts of that memory.
// The header asks that what is lent is valid, aligned and apart, and nothing in the library checks it: here it is checked.
export const STREAM_LIMIT = 1048576, MOST_ELEMENTS = 4096, ROW_WIDTH = 13;

// A part of the library's room: so many records of so many octets each.
class Lent {
    constructor(library, at, count, size) {
        Object.assign(this, { library, at, count, size });
        Object.freeze(this);
    }
    octets() {
        return new Uint8Array(this.library.memory(), this.at, this.count * this.size);
    }
    numbers() {
        return new Uint32Array(this.library.memory(), this.at, this.count * this.size >> 2);
    }
}

export class Library {
    #odif;
    #lent = new Set();
    #next;
    #past;
    #lost = false;

    // Of the octets of odif.wasm.
    static async load(octets) {
        const { instance } = await WebAssembly.instantiate(octets, {});
        return new Library(instance.exports);
    }
    constructor(odif) {
        this.#odif = odif;
        this.#past = odif.room() + odif.room_size();
        this.takeBack();
    }
    memory() {
        return this.#odif.memory.buffer;
    }

    // Lends so many records of so many octets: 1 for a stream or an output, 4 for the numbers of a table, 12 for matches.
    lend(count, size = 1) {
        const octets = count * size;
        if (!Number.isSafeInteger(octets) || octets < 0 || octets > this.#past - this.#next) throw new RangeError('so much is not left in the room');
        const part = new Lent(this, this.#next, count, size);
        this.#next += octets + 7 & ~7;
        this.#lent.add(part);
        return part;
    }
    // Takes back all that was lent: a part of before is refused from now on.
    takeBack() {
        this.#lent.clear();
        this.#next = this.#odif.room() + 7 & ~7;
    }

    // Puts a question by its name in C, and gives back the numbers of its answer. A lent part stands for the two parameters of its place and its length;
    // [part] for its place alone, as a struct is handed over.
    ask(name, numbers, ...parameters) {
        this.#unlessLost();
        const question = this.#odif[name], parts = parameters.flat().filter(one => one instanceof Lent);
        if (typeof question !== 'function') throw new TypeError(`there is no question ${name}`);
        if (parts.some(part => !this.#lent.has(part)) || new Set(parts).size < parts.length) throw new RangeError('what is lent is not lent here, or is lent twice');
        const before = this.#next, answer = this.lend(numbers, 4);
        const flat = parameters.flatMap(one => one instanceof Lent ? [one.at, one.count] : Array.isArray(one) ? [one[0].at] : [one >>> 0]);
        if (question.length !== flat.length + 1) throw new TypeError(`${name} takes ${question.length - 1} numbers, and not ${flat.length}`);
        try {
            this.#lost = true; // unless it comes back
            question(answer.at, ...flat);
            this.#lost = false;
            return [...answer.numbers()];
        } finally {
            this.#lent.delete(answer);
            this.#next = before;
        }
    }
    // A string of C: what a number means (odif_sentence), odif_version, odif_identity.
    string(name, ...numbers) {
        this.#unlessLost();
        const octets = new Uint8Array(this.memory()), at = this.#odif[name](...numbers);
        return new TextDecoder().decode(octets.slice(at, octets.indexOf(0, at)));
    }
    sentence(number) {
        return this.string('odif_sentence', number);
    }
    // Whether a question did not come back, as one that runs out of stack: its frames stay where they were, and nothing is asked any more.
    get lost() {
        return this.#lost;
    }
    #unlessLost() {
        if (this.#lost) throw new Error('a question before this one ran out of stack: load the library anew');
    }
}
