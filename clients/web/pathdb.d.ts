/** Shortest paths on grid maps, read from images of pathdb in a browser or in node. */

/** How a call ended, with the numbers of pathdb_status (include/pathdb.h). */
export const Status: Readonly<{
    DONE: 0; ARRIVED: 1; UNREACHABLE: 2; OUTSIDE_START: 3; BLOCKED_START: 4; OUTSIDE_GOAL: 5; BLOCKED_GOAL: 6;
    TOO_SMALL: 7; BROKEN: 8; NO_IMAGE: 9; OTHER_FORM: 10; WRONG_LENGTH: 11; WRONG_SIDES: 12; WRONG_LISTS: 13;
    WRONG_TABLE: 14; WRONG_HOME: 15;
}>;

/** The step of each move, 0 for north clockwise to 7: columns to the east, and rows to the south. */
export const EAST: readonly number[];
export const SOUTH: readonly number[];

/** A cell: its column and its row, whole numbers from 0 at the upper left. */
export interface Cell {
    x: number;
    y: number;
}

/** What an image says of its map. */
export interface Facts {
    readonly width: number;
    readonly height: number;
    /** Passable cells. */
    readonly cells: number;
    /** Into how many parts they fall: a path exists exactly inside one. */
    readonly components: number;
    /** How many edits of its first map it comes after; 0 for a map that was baked. */
    readonly prefix: number;
}

export interface Next {
    /** DONE, ARRIVED, UNREACHABLE, or why a cell is refused. */
    status: number;
    /** The move, 0 for north clockwise to 7, with DONE; else -1. */
    move: number;
}

export interface Path {
    /** DONE, UNREACHABLE, why a cell is refused, or BROKEN. */
    status: number;
    /** The moves, with DONE; else none. */
    moves: Uint8Array;
    /** How many moves are straight, and how many are diagonal: the length is straight + diagonal * Math.SQRT2. */
    straight: number;
    diagonal: number;
}

/** Words that are no image: `status` says why, and `part` which part of them is wrong. */
export class ImageError extends Error {
    readonly status: number;
    readonly part: number;
}

/** An image that passed the check. */
export class Image {
    private constructor();
    readonly facts: Facts;
    /** Where a shortest path from a cell to a goal goes on. */
    nextMove(at: Cell, goal: Cell): Next;
    /** A shortest path. */
    path(start: Cell, goal: Cell): Path;
}

/** Opens images: takes the bytes of a file, and throws an ImageError where they are no image. */
export interface Opener {
    (bytes: ArrayBuffer | ArrayBufferView): Image;
    /** Whether the calls are those of the proved library, as WebAssembly; else they are in JavaScript. */
    readonly isProved: boolean;
}

export interface LoadOptions {
    /** The bytes of pathdb.wasm or where it is, beside pathdb.js where this is left out; null for JavaScript alone. */
    wasm?: BufferSource | URL | string | null;
}

/** Answers what opens images. Where the module is not there, or WebAssembly has no 64-bit memory, JavaScript reads. */
export function load(options?: LoadOptions): Promise<Opener>;
