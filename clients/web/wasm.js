// The calls of pathdb.wasm, which is compiled from the proved sources. pathdb.js says how it is used.
//
// Each image has an instance of the module with a memory of its own, so that it goes when nobody has it any more. In
// that memory, behind what the module has for itself, lie the image, places for what the calls write, and a room for
// the moves of the longest path. Places are numbers of 64 bits, which JavaScript has as BigInt.

import { Status, wordsOf } from "./reader.js";

const PAGE = 65536, LONGEST = 32767;
/** Where each thing stands behind the image, in bytes. */
const FROM = 0, GOAL = 4, COUNT = 8, MOVE = 12, COST = 16, FACTS = 24, MOVES = 48;

/** An instance of the module, and the memory that it has for an image. */
class Room {
    #memory;
    #base;
    exports;

    constructor(module) {
        this.exports = new WebAssembly.Instance(module).exports;
        this.#memory = this.exports.memory;
        this.#base = this.#memory.buffer.byteLength;
    }

    /** Copies words into the memory. Answers where they stand, and where the places behind them do. */
    put(words) {
        const after = this.#base + Math.ceil(words.byteLength / 8) * 8, end = after + MOVES + LONGEST;
        const missing = Math.ceil((end - this.#memory.buffer.byteLength) / PAGE);
        if (missing > 0) this.#grow(missing);
        new Uint32Array(this.#memory.buffer, this.#base, words.length).set(words);
        return { at: this.#base, after };
    }

    /** The first versions of 64-bit memory took a Number here, and later ones take a BigInt. */
    #grow(pages) {
        try {
            this.#memory.grow(BigInt(pages));
        } catch (fault) {
            if (!(fault instanceof TypeError || fault instanceof SyntaxError)) throw fault;
            this.#memory.grow(pages);
        }
    }

    get buffer() {
        return this.#memory.buffer;
    }
}

/** The calls that read an image which passed the check. Its memory grows no more, so that views of it stay good. */
class WasmReader {
    #exports;
    #words;
    #from;
    #goal;
    #count;
    #move;
    #facts;
    #moves;
    #halves;
    #numbers;
    #bytes;

    constructor(room, at, after, count) {
        const place = (behind) => BigInt(after + behind);
        this.#exports = room.exports;
        this.#words = [BigInt(at), BigInt(count)];
        [this.#from, this.#goal, this.#count] = [place(FROM), place(GOAL), place(COUNT)];
        [this.#move, this.#facts, this.#moves] = [place(MOVE), place(FACTS), place(MOVES)];
        this.#halves = new Uint16Array(room.buffer, after, COUNT / 2);
        this.#numbers = new Uint32Array(room.buffer, after, MOVES / 4);
        this.#bytes = new Uint8Array(room.buffer, after, MOVES + LONGEST);
    }

    facts() {
        this.#exports.pathdb_read_facts(...this.#words, this.#facts);
        const [width, height, cells, components, prefix] = this.#numbers.subarray(FACTS / 4);
        return { width, height, cells, components, prefix };
    }

    nextMove(at, goal) {
        this.#putEnds(at, goal);
        const [words, count] = this.#words;
        const status = this.#exports.pathdb_next_move(words, count, this.#from, this.#goal, this.#move);
        return { status, move: status === Status.DONE ? this.#bytes[MOVE] : -1 };
    }

    path(start, goal) {
        this.#putEnds(start, goal);
        const room = [this.#moves, BigInt(LONGEST), this.#count];
        const status = this.#exports.pathdb_path(...this.#words, this.#from, this.#goal, ...room);
        if (status !== Status.DONE) return { status, moves: new Uint8Array(0), straight: 0, diagonal: 0 };
        const moves = this.#bytes.slice(MOVES, MOVES + this.#numbers[COUNT / 4]);
        const diagonal = moves.reduce((sum, move) => sum + (move & 1), 0);
        return { status, moves, straight: moves.length - diagonal, diagonal };
    }

    /** Puts both ends where the calls read them. A number that is no column or row of any map is outside of each. */
    #putEnds(from, goal) {
        const halves = this.#halves;
        halves[0] = half(from.x);
        halves[1] = half(from.y);
        halves[2] = half(goal.x);
        halves[3] = half(goal.y);
    }
}

function half(side) {
    return side >= 0 && side < 65535 ? side : 65535;
}

/** What opens images with a compiled module: a function of their bytes. It answers a status, a part and a reader. */
export function opener(module) {
    let idle = null;
    return (bytes) => {
        const words = wordsOf(bytes), room = idle ?? new Room(module), { at, after } = room.put(words);
        const place = BigInt(after + COUNT);
        const status = room.exports.pathdb_check(BigInt(at), BigInt(words.length), place);
        idle = status === Status.DONE ? null : room;
        const [part] = new Uint32Array(room.buffer, after + COUNT, 1);
        if (status !== Status.DONE) return { status, part, reader: null };
        return { status, part: 0, reader: new WasmReader(room, at, after, words.length) };
    };
}
