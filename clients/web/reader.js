// Paths from an image of pathdb, in JavaScript alone. Nothing is proved of it; tests/web.py compares it with
// include/pathdb_read.h, which is compared with the proved library. pathdb.js says how it is used.

export const Status = Object.freeze({
    DONE: 0, ARRIVED: 1, UNREACHABLE: 2, OUTSIDE_START: 3, BLOCKED_START: 4, OUTSIDE_GOAL: 5, BLOCKED_GOAL: 6,
    TOO_SMALL: 7, BROKEN: 8, NO_IMAGE: 9, OTHER_FORM: 10, WRONG_LENGTH: 11, WRONG_SIDES: 12, WRONG_LISTS: 13,
    WRONG_TABLE: 14, WRONG_HOME: 15,
});

/** The step of each move: columns to the east and rows to the south. */
export const EAST = Object.freeze([0, 1, 1, 1, 0, -1, -1, -1]);
export const SOUTH = Object.freeze([-1, -1, 0, 1, 1, 1, 0, -1]);

const HEAD = 10, BLOCKED = 0xFFFFFFFF;
const MOST_SIDE = 4096, MOST_CELLS = 1 << 20, MOST_PASSABLE = 1 << 15;

/** The words of an image that is given as bytes, each with its lowest byte first. */
export function wordsOf(bytes) {
    const view = ArrayBuffer.isView(bytes) ? bytes : new Uint8Array(bytes);
    const count = view.byteLength >>> 2;
    const isLittle = new Uint8Array(new Uint32Array([1]).buffer)[0] === 1;
    if (isLittle && view.byteOffset % 4 === 0) return new Uint32Array(view.buffer, view.byteOffset, count);
    const from = new DataView(view.buffer, view.byteOffset, view.byteLength);
    return Uint32Array.from({ length: count }, (_, at) => from.getUint32(4 * at, true));
}

/** Whether a table has a row of runs at a place. */
function isRow(words, border, runs) {
    const from = words[border], upto = words[border + 1];
    if (from >= upto || upto > words.length - runs || words[runs + from] >= 8) return false;
    let before = 0;
    for (let at = from + 1; at < upto; at++) {
        const run = words[runs + at] >>> 3;
        if (run <= before) return false;
        before = run;
    }
    return true;
}

/** Whether the table of a component begins there: its cells lie inside the sides, and its rows are rows. */
function isTable(words, start) {
    if (start >= words.length) return false;
    const size = words[start], borders = start + 1 + size;
    if (size > MOST_PASSABLE || words.length - start < 2 * size + 2) return false;
    for (let at = start + 1; at < borders; at++) {
        if ((words[at] & 0xFFFF) >= words[4] || words[at] >>> 16 >= words[5]) return false;
    }
    for (let border = borders; border < borders + size; border++) {
        if (!isRow(words, border, borders + size + 1)) return false;
    }
    return true;
}

/** Judges the words of all cells. */
function checkHomes(words) {
    const cells = words[4] * words[5];
    for (let at = 0; at < cells; at++) {
        const home = words[HEAD + at], component = home >>> 16;
        if (home === BLOCKED) continue;
        if (component >= words[9] || (home & 0xFFFF) >= words[words[HEAD + cells + component]])
            return { status: Status.WRONG_HOME, part: at };
    }
    return { status: Status.DONE, part: 0 };
}

/** What pathdb_check says of words: the status, and the part that is wrong. */
export function check(words) {
    const fault = (status) => ({ status, part: 0 });
    if (words.length < HEAD || words[0] !== 0x68746170 || words[1] !== 0x67616D69) return fault(Status.NO_IMAGE);
    if (words[2] !== 1) return fault(Status.OTHER_FORM);
    if (words[3] !== words.length) return fault(Status.WRONG_LENGTH);
    const width = words[4], height = words[5], components = words[9];
    const areSides = width > 0 && width <= MOST_SIDE && height > 0 && height <= MOST_SIDE;
    if (!areSides || width * height > MOST_CELLS) return fault(Status.WRONG_SIDES);
    const starts = HEAD + width * height;
    if (starts + components > words.length) return fault(Status.WRONG_LISTS);
    for (let component = 0; component < components; component++) {
        if (!isTable(words, words[starts + component])) return { status: Status.WRONG_TABLE, part: component };
    }
    return checkHomes(words);
}

/** The calls that read words which passed the check. */
export class Reader {
    #words;
    #moves = new Uint8Array(512);

    constructor(words) {
        this.#words = words;
    }

    facts() {
        const [, , , , width, height, prefix, , cells, components] = this.#words;
        return { width, height, cells, components, prefix };
    }

    /** The word of a cell; -1 where it lies outside. */
    #home(x, y) {
        const words = this.#words;
        return x >= 0 && y >= 0 && x < words[4] && y < words[5] ? words[HEAD + y * words[4] + x] : -1;
    }

    /** Why two cells are refused, the start first; 0 where they are not. */
    #refusal(from, to) {
        if (from === -1) return Status.OUTSIDE_START;
        if (from === BLOCKED) return Status.BLOCKED_START;
        if (to === -1) return Status.OUTSIDE_GOAL;
        return to === BLOCKED ? Status.BLOCKED_GOAL : Status.DONE;
    }

    /** The move of the last run in the row of a place whose start is not above the goal's place. */
    #move(start, place, goal) {
        const words = this.#words, borders = start + 1 + words[start], runs = borders + words[start] + 1;
        let low = runs + words[borders + place], high = runs + words[borders + place + 1];
        while (high - low > 1) {
            const middle = (low + high) >>> 1;
            if (words[middle] >>> 3 <= goal) low = middle;
            else high = middle;
        }
        return words[low] & 7;
    }

    /** The status, and the move where it is DONE; else -1. */
    nextMove(at, goal) {
        const from = this.#home(at.x, at.y), to = this.#home(goal.x, goal.y), refused = this.#refusal(from, to);
        if (refused) return { status: refused, move: -1 };
        if (at.x === goal.x && at.y === goal.y) return { status: Status.ARRIVED, move: -1 };
        if (from >>> 16 !== to >>> 16) return { status: Status.UNREACHABLE, move: -1 };
        const start = this.#words[HEAD + this.#words[4] * this.#words[5] + (from >>> 16)];
        return { status: Status.DONE, move: this.#move(start, from & 0xFFFF, to & 0xFFFF) };
    }

    /** The status, and where it is DONE the moves and how many of them are straight and diagonal. */
    path(from, goal) {
        const none = (status) => ({ status, moves: new Uint8Array(0), straight: 0, diagonal: 0 });
        let { x, y } = from, home = this.#home(x, y), length = 0, diagonal = 0;
        const to = this.#home(goal.x, goal.y), refused = this.#refusal(home, to);
        if (refused) return none(refused);
        if (home >>> 16 !== to >>> 16) return none(Status.UNREACHABLE);
        const start = this.#words[HEAD + this.#words[4] * this.#words[5] + (home >>> 16)], size = this.#words[start];
        while (home !== to) {
            const move = this.#move(start, home & 0xFFFF, to & 0xFFFF);
            x += EAST[move];
            y += SOUTH[move];
            home = this.#home(x, y);
            if (length + 1 >= size || home === -1 || home === BLOCKED || home >>> 16 !== to >>> 16)
                return none(Status.BROKEN);
            if (length === this.#moves.length) this.#grow();
            this.#moves[length++] = move;
            diagonal += move & 1;
        }
        return { status: Status.DONE, moves: this.#moves.slice(0, length), straight: length - diagonal, diagonal };
    }

    #grow() {
        const moves = new Uint8Array(2 * this.#moves.length);
        moves.set(this.#moves);
        this.#moves = moves;
    }
}
