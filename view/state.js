// What the page shows now.

// Nothing is chosen. A line may be chosen, or a part of its octets; a run of octets, with what it is; or one octet, with the line that it is on.
export const NOTHING = Object.freeze({ line: -1, part: null, run: null, what: '', octet: -1 });

export const now = {
    odif: null, // the library, loaded
    read: null, // a letter, as readLetter gives it
    about: null, // the file's name, its size, and of a letter that was put into the page the SHA-256 at its making
    side: 'layout',
    chosen: NOTHING,
    warm: -1, // the line under the mouse
};

// The lines of the side that is shown; none of a refused letter.
export const linesNow = () => now.read.sides?.[now.side] ?? [];
// The line of that side that an octet is on, -1 for none.
export const lineAt = octet => now.read.maps?.[now.side].line[octet] ?? -1;
