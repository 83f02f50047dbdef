// The digest of tests/pathdb_read.c, by the reader for the web: the same lines where it answers the same. In node:
//
//   node tests/web_digest.mjs QUERIES SPOILT IMAGE..
//
// `digest` is for browsers too: an opener of images, the two numbers, and the images as Uint8Arrays.

const HEAD = 10, MOVES = 600;
const MASK = (1n << 64n) - 1n;

class Chance {
    #seed = 1n;

    below(limit) {
        this.#seed = (this.#seed * 6364136223846793005n + 1442695040888963407n) & MASK;
        return Number(((this.#seed >> 33n) & 0xFFFFFFFFn) % BigInt(limit));
    }
}

/** FNV over 32-bit numbers, in four parts of 16 bits: BigInts would take most of the time. */
class Digest {
    #parts = [0x2325, 0x8422, 0x9CE4, 0xCBF2];

    mix(number) {
        const [a, b, c, d] = this.#parts, x = a ^ (number & 0xFFFF), y = b ^ (number >>> 16);
        // times 2 ** 40 + 0x1B3
        const low = x * 0x1B3, next = y * 0x1B3 + Math.floor(low / 65536), third = c * 0x1B3 + Math.floor(next / 65536) +
            x * 256, fourth = d * 0x1B3 + y * 256 + Math.floor(third / 65536);
        this.#parts = [low % 65536, next % 65536, third % 65536, fourth % 65536];
    }

    text() {
        return [...this.#parts].reverse().map((part) => part.toString(16).padStart(4, "0")).join("");
    }
}

function otherWord(chance, words, at) {
    const word = words[at];
    switch (chance.below(6)) {
        case 0: return word ^ (1 << chance.below(32));
        case 1: return word + 1;
        case 2: return word - 1;
        case 3: return words[chance.below(words.length)];
        case 4: return (word & ~7) | chance.below(8);
        default: return chance.below(2) ? 0xFFFFFFFF : words.length - chance.below(4);
    }
}

/** A copy of words that is spoilt. */
function spoilt(chance, image) {
    let words = image.slice();
    const kind = chance.below(8);
    let changes = 1 + chance.below(3);
    if (kind === 0) return words.slice(0, chance.below(words.length + 1));
    if (kind === 1) {
        words = words.slice(0, HEAD + chance.below(words.length - HEAD + 1));
        words[3] = words.length;
    }
    while (kind > 1 && changes-- > 0) {
        const at = chance.below(8) === 0 ? chance.below(HEAD) : chance.below(words.length);
        words[at] = otherWord(chance, words, at);
    }
    return words;
}

function anyCell(chance, facts) {
    const x = chance.below(facts.width + (chance.below(16) === 0 ? 1 : 0));
    return { x, y: chance.below(facts.height + (chance.below(16) === 0 ? 1 : 0)) };
}

function ask(chance, digest, image) {
    const start = anyCell(chance, image.facts);
    const goal = chance.below(64) === 0 ? start : anyCell(chance, image.facts);
    const room = chance.below(4) === 0 ? chance.below(MOVES + 1) : MOVES;
    const next = image.nextMove(start, goal), path = image.path(start, goal);
    const isDone = path.status === 0, isLong = isDone && path.moves.length > room;
    digest.mix(next.status);
    digest.mix(next.status === 0 ? next.move : 9);
    digest.mix(path.status);
    digest.mix(isDone ? path.straight : 7);
    digest.mix(isDone ? path.diagonal : 7);
    digest.mix(isLong ? 7 : path.status);
    digest.mix(path.moves.length);
    for (const move of path.moves.subarray(0, room)) digest.mix(move);
}

export async function digest(open, queries, rounds, files) {
    const chance = new Chance(), lines = [];
    const images = files.map((bytes) => new Uint32Array(bytes.slice().buffer));
    let refused = 0, passed = 0, sum;
    const look = async (words, many) => {
        let image;
        try {
            image = await open(new Uint8Array(words.slice().buffer));
        } catch (fault) {
            if (!("part" in fault)) throw fault;
            sum.mix(fault.status);
            sum.mix(fault.part);
            refused++;
            return;
        }
        passed++;
        const { width, height, cells, components, prefix } = image.facts;
        for (const number of [0, 0, width, height, cells, components, prefix]) sum.mix(number);
        for (; many > 0; many--) ask(chance, sum, image);
    };
    for (let sixteenth = 0; sixteenth < 16; sixteenth++) {
        sum = new Digest();
        for (const words of images) await look(words, Math.trunc(Math.trunc(queries / 16) / images.length));
        for (let turn = 0; turn < Math.trunc(rounds / 16); turn++) await look(spoilt(chance, images[0]), 4);
        lines.push(sum.text());
    }
    lines.push(`refused ${refused} passed ${passed}`);
    return lines;
}

if (typeof process !== "undefined" && process.argv[1] === new URL(import.meta.url).pathname) {
    const { existsSync, readFileSync } = await import("node:fs");
    const { load } = await import(existsSync(new URL("web/pathdb.js", import.meta.url)) ? "./web/pathdb.js" : "../clients/web/pathdb.js");
    const [, , queries, rounds, ...names] = process.argv;
    const open = await load({ wasm: process.env.PATHDB_WASM === "no" ? null : undefined });
    const files = names.map((name) => new Uint8Array(readFileSync(name)));
    console.log((await digest(open, Number(queries), Number(rounds), files)).join("\n"));
    if (process.env.PATHDB_WASM !== "no") console.error(open.isProved ? "proved" : "JavaScript");
}
