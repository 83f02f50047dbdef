// Shortest paths on grid maps, read from images of pathdb in a browser or in node.
//
//   import { load, Status } from "./pathdb.js";
//   const open = await load();
//   const image = open(await (await fetch("level.image")).arrayBuffer());
//   const { status, moves } = image.path({ x: 2, y: 2 }, { x: 37, y: 17 });

import { EAST, Reader, SOUTH, Status, check, wordsOf } from "./reader.js";
import { opener } from "./wasm.js";

export { EAST, SOUTH, Status };

/** Words that are no image: `status` says why, and `part` which part of them is wrong (include/pathdb.h). */
export class ImageError extends Error {
    constructor(status, part) {
        const name = Object.keys(Status).find((each) => Status[each] === status) ?? "status";
        super(`no image: ${name.toLowerCase().replaceAll("_", " ")} (${part})`);
        this.name = "ImageError";
        this.status = status;
        this.part = part;
    }
}

/** An image that passed the check. */
export class Image {
    #reader;

    /** What the image says of its map. */
    facts;

    constructor(reader) {
        this.#reader = reader;
        this.facts = Object.freeze(reader.facts());
    }

    /** Where a shortest path from a cell to a goal goes on: `status`, and `move`, 0 for north clockwise to 7, or -1. */
    nextMove(at, goal) {
        return this.#reader.nextMove(at, goal);
    }

    /** A shortest path: `status`, its `moves` as a Uint8Array, and how many of them are `straight` and `diagonal`. */
    path(start, goal) {
        return this.#reader.path(start, goal);
    }
}

/** What opens images in JavaScript: as `opener` of wasm.js. */
function openHere(bytes) {
    const words = wordsOf(bytes), { status, part } = check(words);
    return { status, part, reader: status === Status.DONE ? new Reader(words) : null };
}

/** The bytes of a module that is given as such or by where it is. */
async function bytesOf(source) {
    if (source instanceof ArrayBuffer || ArrayBuffer.isView(source)) return source;
    const place = new URL(source, import.meta.url);
    if (place.protocol === "file:" && typeof process !== "undefined") {
        return (await import("node:fs/promises")).readFile(place);
    }
    const answer = await fetch(place);
    if (!answer.ok) throw new Error(`${place}: ${answer.status}`);
    return answer.arrayBuffer();
}

/** The compiled module; null where there is none, or where WebAssembly has no 64-bit memory. */
async function moduleOf(source) {
    if (source === null) return null;
    try {
        return await WebAssembly.compile(await bytesOf(source));
    } catch {
        return null;
    }
}

/**
 * Answers what opens images: a function of their bytes, which throws an ImageError where they are none. Its `isProved`
 * says whether the module reads them, or JavaScript.
 */
export async function load({ wasm = "./pathdb.wasm" } = {}) {
    const module = await moduleOf(wasm), read = module ? opener(module) : openHere;
    const open = (bytes) => {
        const { status, part, reader } = read(bytes);
        if (status !== Status.DONE) throw new ImageError(status, part);
        return new Image(reader);
    };
    return Object.assign(open, { isProved: module !== null });
}
