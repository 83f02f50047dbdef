"use strict";
// The page of ./demo. Paths, costs, versions and edits are the server's answers; components, first moves and runs are
// computed here from the version's map, by the rules of docs/reference/definitions.md.

// ---- moves and costs

// N, NE, E, SE, S, SW, W, NW: even ones are straight
const STEPS = [[0, -1], [1, -1], [1, 0], [1, 1], [0, 1], [-1, 1], [-1, 0], [-1, -1]];
const NAMES = ["N", "NE", "E", "SE", "S", "SW", "W", "NW"];
// Costs are whole numbers below 2^53: the diagonal's is √2 times the straight's without its fraction. Two costs of at
// most 32,767 moves that differ, differ by over 200,000 units, and what is cut off is below 32,768: they compare exactly.
const STRAIGHT = 17179869184, DIAGONAL = 24296003999;
const ALL_MOVES = 255;

const INK = "#1f2430", PAPER = "#ffffff", BLOCKED = "#3b4252", LAND = "#f3efe6", WATER = "#cfe3ee";
const PATH = "#d1495b", START = "#1b7f4d", GOAL = "#2455a4", PENDING = "#b3541e";
const MOVE_COLOURS = ["#d7263d", "#f46036", "#f2c14e", "#8cb369", "#2a9d8f", "#3a86ff", "#6a4c93", "#d16ba5"];
const COMPONENT_COLOURS = ["#e9c46a", "#8ecae6", "#f4a261", "#a7c957", "#cdb4db", "#84a98c", "#ffafcc", "#b08968",
  "#90dbf4", "#d4a373"];
const HEAT = [[255, 247, 188], [254, 196, 79], [236, 112, 20], [153, 52, 4], [63, 0, 63]];

/** A map: its sides, and of each place, row by row, 0 where it is blocked, 1 where it is land, 2 where it is water. */
class Grid {
  constructor(width, height, terrain) {
    Object.assign(this, { width, height, terrain });
  }

  at(column, row) {
    const isInside = column >= 0 && column < this.width && row >= 0 && row < this.height;
    return isInside ? this.terrain[row * this.width + column] : 0;
  }

  /** The place that a move from a passable place leads to, or -1 where the move is not legal. */
  moved(place, move) {
    const column = place % this.width, row = (place - column) / this.width;
    const [right, down] = STEPS[move], isLike = (...cell) => this.at(...cell) === this.terrain[place];
    if (!isLike(column + right, row + down)) return -1;
    if (move % 2 && !(isLike(column + right, row) && isLike(column, row + down))) return -1;
    return place + down * this.width + right;
  }

  /** Eight numbers a place: where each move leads. */
  get neighbours() {
    if (!this.known) {
      this.known = new Int32Array(8 * this.terrain.length).fill(-1);
      this.terrain.forEach((terrain, place) => {
        for (let move = 0; terrain && move < 8; move++) this.known[8 * place + move] = this.moved(place, move);
      });
    }
    return this.known;
  }

  /** The number of each place's component, from 0 by first places, -1 where it is blocked; and their places. */
  get components() {
    if (!this.parts) {
      const label = new Int32Array(this.terrain.length).fill(-1), parts = [];
      for (let start = 0; start < this.terrain.length; start++) {
        if (!this.terrain[start] || label[start] >= 0) continue;
        const part = [start];
        label[start] = parts.length;
        for (const place of part) {
          for (let move = 0; move < 8; move++) {
            const further = this.neighbours[8 * place + move];
            if (further >= 0 && label[further] < 0) {
              label[further] = parts.length;
              part.push(further);
            }
          }
        }
        parts.push(part.sort((one, other) => one - other));
      }
      this.parts = { label, parts };
    }
    return this.parts;
  }
}

/** A heap of places by their costs, the least first. */
class Heap {
  constructor() {
    this.items = [];
  }

  push(cost, place) {
    let at = this.items.push([cost, place]) - 1;
    while (at > 0) {
      const above = (at - 1) >> 1;
      if (this.items[above][0] <= this.items[at][0]) break;
      [this.items[above], this.items[at]] = [this.items[at], this.items[above]];
      at = above;
    }
  }

  pop() {
    const least = this.items[0], last = this.items.pop();
    if (this.items.length) {
      this.items[0] = last;
      for (let at = 0, below = 1; below < this.items.length; below = 2 * at + 1) {
        if (below + 1 < this.items.length && this.items[below + 1][0] < this.items[below][0]) below++;
        if (this.items[at][0] <= this.items[below][0]) break;
        [this.items[at], this.items[below]] = [this.items[below], this.items[at]];
        at = below;
      }
    }
    return least;
  }
}

/** From a passable place to each the set of first moves of all best paths, a bit a move; 0 where no path leads. */
function firstSets(grid, source) {
  const costs = new Float64Array(grid.terrain.length).fill(Infinity), sets = new Uint8Array(grid.terrain.length);
  const heap = new Heap();
  costs[source] = 0;
  sets[source] = ALL_MOVES;
  heap.push(0, source);
  while (heap.items.length) {
    const [cost, place] = heap.pop();
    if (cost > costs[place]) continue;
    for (let move = 0; move < 8; move++) {
      const further = grid.neighbours[8 * place + move];
      if (further < 0) continue;
      const longer = cost + (move % 2 ? DIAGONAL : STRAIGHT), first = place === source ? 1 << move : sets[place];
      if (longer < costs[further]) {
        costs[further] = longer;
        sets[further] = first;
        heap.push(longer, further);
      } else if (longer === costs[further]) {
        sets[further] |= first;
      }
    }
  }
  return sets;
}

/** The places of a component in the order of the database. */
function ordered(grid, part, order) {
  if (order === "rows") return part;
  const found = new Set(), waiting = [part[0]];
  while (waiting.length) {
    const place = waiting.pop();
    if (found.has(place)) continue;
    found.add(place);
    for (const move of [6, 4, 2, 0]) {
      const further = grid.neighbours[8 * place + move];
      if (further >= 0 && !found.has(further)) waiting.push(further);
    }
  }
  return [...found];
}

/** The runs of a row, as pairs of a start and a move: a run ends where the next set has no move in common with it. */
function packed(sets, places) {
  const runs = [];
  let start = 0, common = ALL_MOVES;
  const end = () => runs.push([start, 31 - Math.clz32(common & -common)]);
  places.forEach((place, index) => {
    if (!(common & sets[place])) {
      end();
      start = index;
      common = sets[place];
    }
    common &= sets[place];
  });
  end();
  return runs;
}

// ---- what the page knows

const state = {
  base: null, order: "rows", terrains: [], edits: [], version: 0, accepted: 0, versionGrid: null, editedGrid: null,
  start: [0, 0], goal: [0, 0], answer: null, layer: "path", terrain: "blocked", pointer: null, holds: null,
  isDirty: true, run: "", fault: "", note: "", rows: null, trips: [], runs: null, field: null,
};
const canvas = document.getElementById("map"), pen = canvas.getContext("2d");
const put = (id, text) => { document.getElementById(id).textContent = text; };

const inWords = (number) => number.toLocaleString("en");

/** A time of so many milliseconds, as people say it. */
function spoken(time) {
  return time < 1000 ? `${time.toFixed(time < 10 ? 2 : 0)} ms` : spokenSeconds(time);
}

function spokenSeconds(time) {
  const count = (number, unit) => `${number} ${unit}${number === 1 ? "" : "s"}`;
  const seconds = Math.round(time / 1000), minutes = Math.floor(seconds / 60);
  if (!minutes) return count(seconds, "second");
  return seconds % 60 ? `${count(minutes, "minute")} ${count(seconds % 60, "second")}` : count(minutes, "minute");
}

function gridAfter(count) {
  const terrain = state.base.terrain.slice();
  for (const [column, row, value] of state.edits.slice(0, count).flat()) {
    terrain[row * state.base.width + column] = value;
  }
  return new Grid(state.base.width, state.base.height, terrain);
}

async function asked(address, body) {
  const headers = { "Content-Type": "application/json" };
  const options = body && { method: "POST", headers, body: JSON.stringify(body) };
  let found;
  try {
    found = await fetch(address, options);
  } catch {
    throw new Error("the page's server is gone: ./demo has ended");
  }
  const told = await found.json();
  if (!found.ok) throw new Error(told.fault);
  return told;
}

async function begin() {
  const told = await asked("map");
  const terrain = Uint8Array.from(told.rows.join(""), (letter) => "@.W".indexOf(letter));
  state.base = new Grid(told.rows[0].length, told.rows.length, terrain);
  Object.assign(state, { order: told.order, terrains: told.terrains, run: told.run });
  const ends = location.hash.slice(1).split(",").map(Number);
  const isPlace = (number) => Number.isInteger(number) && number >= 0 && number < 65536;
  const isWhole = ends.length === 4 && ends.every(isPlace);
  const [startX, startY, goalX, goalY] = isWhole ? ends : told.ends;
  Object.assign(state, { start: [startX, startY], goal: [goalX, goalY] });
  put("name", told.name);
  document.title = `${told.name} - path_server`;
  showTerrains();
  learn({ version: 0, accepted: 0, edits: [] });
}

/** Takes what a look tells: the version, the edits, and the answer. */
function learn(told) {
  state.edits.push(...told.edits);
  const version = told.answer ? told.answer.version : told.version;
  const isNews = !state.versionGrid || version !== state.version || told.edits.length > 0;
  Object.assign(state, { version, accepted: Math.max(told.accepted, version), answer: told.answer || state.answer });
  if (isNews) {
    state.versionGrid = gridAfter(version);
    showEdits();
    state.runs = state.field = state.rows = null;
  }
  showNumbers(told);
  document.body.dataset.version = version;
}

function showNumbers(told) {
  const answer = state.answer;
  const lag = state.accepted - state.version;
  if (answer && answer.kind === "path") {
    put("cost", `${answer.straight} + ${answer.diagonal}·√2`);
    put("length", `${answer.length}, ${answer.straight} straight and ${answer.diagonal} diagonal moves`);
  } else if (answer) {
    put("cost", answer.kind === "refused" ? answer.text : "unreachable");
    put("length", "\u00a0");
  }
  put("version", state.version);
  showBuild(told, lag);
  put("lag", lag);
  document.getElementById("lag").classList.toggle("behind", lag > 0);
  if (told.build_ms) put("build", spoken(told.build_ms));
  if (told.query_ms) put("server", spoken(told.query_ms));
  for (const name of ["cells", "components", "runs"]) if (name in told) put(name, inWords(told[name]));
  showFault();
}

/** Tells of the version that is built: the protocol has no number of rows that are done. */
function showBuild(told, lag) {
  const isBuilt = lag > 0 && told.waited_ms !== undefined, edits = lag === 1 ? "1 edit" : `${lag} edits`;
  put("old", isBuilt ? `old: without the newest ${edits}` : "\u00a0");
  if (!isBuilt) return put("build-news", "");
  state.rows = state.rows === null ? rowsToBuild() : state.rows;
  put("build-news", `Building for ${spokenSeconds(told.waited_ms)}: ${edits}, components of ${inWords(state.rows)} rows. `
    + `The last build took ${spoken(told.last_ms)}. The dashed path is that of version ${state.version}.`);
}

/** How many rows the version with all known edits has in components that the published one does not have. */
function rowsToBuild() {
  const { label } = state.versionGrid.components, old = state.versionGrid.components.parts;
  const isKept = (part) => label[part[0]] >= 0 && old[label[part[0]]].length === part.length
    && part.every((place) => label[place] === label[part[0]]);
  const { parts } = gridAfter(state.edits.length).components;
  return parts.reduce((count, part) => count + (isKept(part) ? 0 : part.length), 0);
}

function showFault() {
  document.body.classList.toggle("gone", state.fault !== "");
  if (state.fault) put("build-news", "");
  const missing = state.accepted - state.edits.length;
  const gone = state.fault && `${state.fault}. What you see is the last answer.`;
  put("fault", gone || state.note || (missing > 0 ? `${missing} edits by others are not drawn yet` : ""));
}

// ---- asking: a look a frame while something moves, else two a second

let isAsking = false, lastLook = 0;

async function look() {
  isAsking = true;
  state.isDirty = false;
  const began = performance.now(), { start, goal } = state;
  lastLook = began;
  try {
    const told = await asked(`look?edits=${state.edits.length}&ends=${[...start, ...goal]}`);
    if (told.run !== state.run) return location.reload(); // ./demo was started again
    state.fault = "";
    told.answer.start = start;
    state.trips = [...state.trips.filter((time) => time > began - 1000), performance.now()];
    put("trip", spoken(performance.now() - began));
    put("rate", state.trips.length);
    learn(told);
  } catch (fault) {
    state.fault = fault.message;
    showFault();
  }
  isAsking = false;
}

// What is drawn here goes out in strokes, one after the other. A stroke is shown until its edits are known, or refused:
// `last` is the number of its last edit, 0 where it has none.
let strokes = [];

function strokeOf(name) {
  const newest = strokes[strokes.length - 1];
  if (newest && !newest.isSent && newest.terrain.name === name) return newest;
  const terrain = state.terrains.find((each) => each.name === name);
  strokes.push({ terrain, cells: new Map(), isSent: false, last: null });
  return strokes[strokes.length - 1];
}

/** Makes the edited map anew: all edits that are known, and above them the strokes that are not. */
function showEdits() {
  strokes = strokes.filter((stroke) => stroke.last === null || stroke.last > state.edits.length);
  state.editedGrid = gridAfter(state.edits.length);
  for (const { terrain, cells } of strokes) {
    for (const place of cells.keys()) state.editedGrid.terrain[place] = terrain.value;
  }
}

async function send(stroke) {
  stroke.isSent = true;
  try {
    const told = await asked("change", { cells: [...stroke.cells.values()], terrain: stroke.terrain.name });
    stroke.last = told.accepted || 0;
    state.note = told.refused.length ? `edit refused: ${told.refused.join(", ")}` : "";
  } catch (fault) {
    stroke.last = 0;
    state.note = fault.message;
  }
  state.isDirty = true;
  showEdits();
  showFault();
}

function frame() {
  const isBehind = state.accepted > state.version;
  const isDue = state.isDirty || isBehind || performance.now() - lastLook > 500;
  if (!isAsking && isDue && !(state.fault && performance.now() - lastLook < 500)) look();
  if (strokes.length && !strokes.some((stroke) => stroke.isSent && stroke.last === null)) {
    const waiting = strokes.find((stroke) => !stroke.isSent);
    if (waiting) send(waiting);
  }
  if (state.layer === "runs") growRuns(8);
  draw();
  requestAnimationFrame(frame);
}

/** Counts the runs of some more rows, for about so many milliseconds. */
function growRuns(span) {
  const grid = state.versionGrid;
  if (!state.runs) {
    const rows = grid.components.parts.map((part) => ({ part, places: ordered(grid, part, state.order) }));
    state.runs = { counts: new Int32Array(grid.terrain.length), rows, at: 0, within: 0, done: 0, total: 0, most: 1 };
  }
  const runs = state.runs, end = performance.now() + span;
  while (runs.at < runs.rows.length && performance.now() < end) {
    const { part, places } = runs.rows[runs.at];
    const source = part[runs.within++], count = packed(firstSets(grid, source), places).length;
    runs.counts[source] = count;
    runs.total += count;
    runs.done += 1;
    runs.most = Math.max(runs.most, count);
    if (runs.within === part.length) {
      runs.at += 1;
      runs.within = 0;
    }
  }
}

// ---- drawing

const MOST_SIDE = 64;
// a cell's pixels, how often larger than where the whole map is in view, and the place of the canvas's corner, in cells
let side = 1, zoom = 1, corner = [0, 0];

function fit() {
  const stage = document.getElementById("stage"), room = [stage.clientWidth - 24, stage.clientHeight - 24];
  const sides = [state.base.width, state.base.height];
  const whole = Math.max(0.25, Math.min(room[0] / sides[0], room[1] / sides[1]));
  zoom = Math.max(1, Math.min(zoom, MOST_SIDE / whole));
  side = zoom === 1 && whole >= 2 ? Math.floor(whole) : whole * zoom;
  const shown = sides.map((count, axis) => Math.min(count * side, Math.max(room[axis], 1)));
  corner = corner.map((place, axis) => Math.max(0, Math.min(place, sides[axis] - shown[axis] / side)));
  const pixels = window.devicePixelRatio || 1;
  [canvas.style.width, canvas.style.height] = shown.map((length) => `${length}px`);
  [canvas.width, canvas.height] = shown.map((length) => Math.round(length * pixels));
  pen.setTransform(pixels * side, 0, 0, pixels * side, -corner[0] * pixels * side, -corner[1] * pixels * side);
}

/** Zooms by a factor; what lies at a place of the canvas, in pixels, stays there. */
function zoomBy(factor, [right, down]) {
  const [column, row] = [corner[0] + right / side, corner[1] + down / side];
  zoom *= factor;
  fit();
  corner = [column - right / side, row - down / side];
  fit();
}

/** Zooms by a factor round the middle of what is in view. */
function zoomMiddle(factor) {
  zoomBy(factor, [canvas.clientWidth / 2, canvas.clientHeight / 2]);
}

function panBy(right, down) {
  corner = [corner[0] + right, corner[1] + down];
  fit();
}

/** Pans as far as a cell has to be brought into view. */
function show(cell) {
  const ahead = [canvas.clientWidth, canvas.clientHeight].map((length, axis) => {
    const least = cell[axis] + 2 - length / side, most = cell[axis] - 1;
    return Math.min(Math.max(corner[axis], least), most) - corner[axis];
  });
  panBy(...ahead);
}

const cellsImage = document.createElement("canvas"), cellsPen = cellsImage.getContext("2d");

function rgb(colour) {
  const number = parseInt(colour.slice(1), 16);
  return [number >> 16, (number >> 8) & 255, number & 255];
}

function heat(part) {
  const at = Math.min(part, 1) * (HEAT.length - 1), low = Math.min(Math.floor(at), HEAT.length - 2);
  return HEAT[low].map((value, index) => Math.round(value + (HEAT[low + 1][index] - value) * (at - low)));
}

/** The colour of each passable place in the layer that is shown, by its place. */
function colouring() {
  const grid = state.versionGrid, grounds = [BLOCKED, LAND, WATER].map(rgb);
  const ground = (place) => grounds[state.editedGrid.terrain[place]];
  if (state.layer === "components") {
    const { label } = grid.components, colours = COMPONENT_COLOURS.map(rgb);
    return (place) => (label[place] < 0 ? ground(place) : colours[label[place] % colours.length]);
  }
  if (state.layer === "moves") {
    const field = fieldOfPointer(), colours = MOVE_COLOURS.map(rgb);
    return (place) => (field && field[place] >= 0 ? colours[field[place]] : ground(place));
  }
  if (state.layer === "runs" && state.runs) {
    const { counts, most } = state.runs;
    return (place) => (counts[place] ? heat(counts[place] / most) : ground(place));
  }
  return ground;
}

/** From the pointer's cell, or from the start where that is blocked, the first move to each place as the database has
 * it; -1 where there is none. */
function fieldOfPointer() {
  const grid = state.versionGrid;
  const [column, row] = state.pointer && grid.at(...state.pointer) ? state.pointer : state.start;
  if (!grid.at(column, row)) return null;
  const source = row * grid.width + column;
  if (!state.field || state.field.source !== source) {
    const { label, parts } = grid.components, places = ordered(grid, parts[label[source]], state.order);
    const runs = packed(firstSets(grid, source), places), moves = new Int8Array(grid.terrain.length).fill(-1);
    runs.forEach(([start, move], index) => {
      const end = index + 1 < runs.length ? runs[index + 1][0] : places.length;
      for (let at = start; at < end; at++) moves[places[at]] = move;
    });
    moves[source] = -1;
    state.field = { source, moves };
  }
  return state.field.moves;
}

let drawn = [];

/** Colours the cells' image, where it is not as it should be. */
function colourCells() {
  const { width, height, terrain } = state.editedGrid, colour = colouring(), blocked = rgb(BLOCKED);
  const wanted = [state.editedGrid, state.versionGrid, state.layer, state.field, state.runs && state.runs.done];
  if (wanted.every((each, index) => each === drawn[index])) return;
  drawn = wanted;
  if (cellsImage.width !== width || cellsImage.height !== height) Object.assign(cellsImage, { width, height });
  const image = cellsPen.createImageData(width, height);
  terrain.forEach((each, place) => {
    const [red, green, blue] = each ? colour(place) : blocked;
    image.data.set([red, green, blue, 255], 4 * place);
  });
  cellsPen.putImageData(image, 0, 0);
}

function draw() {
  const { width, height, terrain } = state.editedGrid;
  colourCells();
  pen.imageSmoothingEnabled = false;
  pen.drawImage(cellsImage, 0, 0, width, height);
  state.versionGrid.terrain.forEach((each, place) => {
    if (each !== terrain[place]) disc([place % width, Math.floor(place / width)], 0.25, PENDING);
  });
  if (state.answer && state.answer.kind === "path") drawPath();
  const radius = Math.max(0.6, 8 / side);
  // whole also at the map's edge
  const whole = (middle, length) => Math.max(1.2 * radius, Math.min(middle, length - 1.2 * radius));
  const mark = ([column, row]) => [whole(column + 0.5, width) - 0.5, whole(row + 0.5, height) - 0.5];
  disc(mark(state.start), radius, START, "A");
  disc(mark(state.goal), radius, GOAL, "B");
  showKey();
}

function disc([column, row], radius, colour, letter) {
  pen.beginPath();
  pen.arc(column + 0.5, row + 0.5, radius, 0, 2 * Math.PI);
  pen.strokeStyle = PAPER;
  pen.lineWidth = 0.4 * radius;
  pen.stroke();
  pen.fillStyle = colour;
  pen.fill();
  if (!letter) return;
  pen.fillStyle = PAPER;
  pen.font = `bold ${1.2 * radius}px sans-serif`;
  pen.textAlign = "center";
  pen.textBaseline = "middle";
  pen.fillText(letter, column + 0.5, row + 0.5 + 0.06 * radius);
}

function drawPath() {
  let [column, row] = state.answer.start;
  pen.beginPath();
  pen.moveTo(column + 0.5, row + 0.5);
  for (const move of state.answer.moves) {
    column += STEPS[move][0];
    row += STEPS[move][1];
    pen.lineTo(column + 0.5, row + 0.5);
  }
  pen.lineJoin = pen.lineCap = "round";
  const width = Math.max(0.3, 2.5 / side);
  pen.setLineDash(state.accepted > state.version ? [2 * width, 3 * width] : []);
  for (const [colour, wider] of [[PAPER, 1.7], [state.layer === "path" ? PATH : INK, 1]]) {
    pen.strokeStyle = colour;
    pen.lineWidth = width * wider;
    pen.stroke();
  }
  pen.setLineDash([]);
}

let shownKey = "";

function showKey() {
  const item = (colour, text) => `<span><i style="background:${colour}"></i>${text}</span>`;
  const isWet = state.editedGrid.terrain.includes(2);
  let key = isWet ? item(LAND, "land") + item(WATER, "water") : item(LAND, "passable");
  key += item(BLOCKED, "blocked");
  if (state.layer === "moves") key = NAMES.map((name, move) => item(MOVE_COLOURS[move], name)).join("");
  if (state.layer === "components") {
    const { parts } = state.versionGrid.components;
    const sizes = parts.map((part) => part.length).sort((one, other) => other - one);
    key = `${sizes.length === 1 ? "one component" : `${sizes.length} components`}, of ${sizes.slice(0, 5).join(", ")}`;
    key += `${sizes.length > 5 ? ", .." : ""} cells`;
  }
  if (state.layer === "runs" && state.runs) {
    const { rows, at, done, total, most } = state.runs;
    const marks = [0, 1, 2, 3, 4].map((part) => item(`rgb(${heat(part / 4)})`, Math.round((most * part) / 4))).join("");
    const isDone = at === rows.length;
    const counted = `${total.toLocaleString("en")} runs in ${done.toLocaleString("en")} rows`;
    key = `${marks}<br>${counted}${isDone ? "" : ", counting"}`;
  }
  if (key !== shownKey) document.getElementById("key").innerHTML = shownKey = key;
}

// ---- what a person does

/** Where the pointer is, in cells and parts of them. */
function placeOf(event) {
  const box = canvas.getBoundingClientRect();
  return [corner[0] + (event.clientX - box.left) / side, corner[1] + (event.clientY - box.top) / side];
}

function cellOf(event) {
  return placeOf(event).map(Math.floor);
}

const isInside = ([column, row]) => column >= 0 && row >= 0 && column < state.base.width && row < state.base.height;

function isAt(event, [column, row]) {
  const [toColumn, toRow] = placeOf(event);
  return Math.hypot(toColumn - column - 0.5, toRow - row - 0.5) * side <= Math.max(10, 0.8 * side);
}

/** The cells on the way from one to another, both with it. */
function between([column, row], [toColumn, toRow]) {
  const count = Math.max(Math.abs(toColumn - column), Math.abs(toRow - row), 1), cells = [];
  for (let step = 0; step <= count; step++) {
    const part = step / count;
    cells.push([Math.round(column + (toColumn - column) * part), Math.round(row + (toRow - row) * part)]);
  }
  return cells;
}

function paintTo(cell) {
  const stroke = strokeOf(state.terrain), { value } = stroke.terrain;
  for (const each of between(state.holds.last, cell).filter(isInside)) {
    const place = each[1] * state.base.width + each[0];
    if (state.editedGrid.terrain[place] !== value) stroke.cells.set(place, each);
  }
  state.holds.last = cell;
  if (!stroke.cells.size) strokes.pop();
  showEdits();
}

/** Moves the start or the goal to a cell. */
function moveEnd(end, cell) {
  if (!isInside(cell) || (state[end][0] === cell[0] && state[end][1] === cell[1])) return;
  state[end] = cell;
  state.isDirty = true;
}

/** Keeps the ends in the page's address. */
function keepEnds() {
  history.replaceState(null, "", `#${[...state.start, ...state.goal]}`);
}

canvas.addEventListener("pointerdown", (event) => {
  if (event.button > 1 || !state.base) return;
  canvas.setPointerCapture(event.pointerId);
  if (event.button === 1 || event.shiftKey) {
    state.holds = { pans: placeOf(event) };
    event.preventDefault();
    return;
  }
  const end = isAt(event, state.start) ? "start" : isAt(event, state.goal) ? "goal" : null;
  state.holds = { end, last: cellOf(event) };
  if (!end) paintTo(cellOf(event));
  canvas.focus({ focusVisible: false });
  event.preventDefault();
});

canvas.addEventListener("pointermove", (event) => {
  if (!state.base) return;
  const cell = cellOf(event);
  state.pointer = isInside(cell) ? cell : null;
  put("pointer", state.pointer ? `column ${cell[0]}, row ${cell[1]}` : "\u00a0");
  if (!state.holds) return;
  if (state.holds.pans) {
    const [column, row] = placeOf(event);
    panBy(state.holds.pans[0] - column, state.holds.pans[1] - row);
  } else if (state.holds.end) {
    moveEnd(state.holds.end, cell);
  } else {
    paintTo(cell);
  }
});

for (const name of ["pointerup", "pointercancel"]) {
  canvas.addEventListener(name, () => {
    state.holds = null;
    keepEnds();
  });
}
canvas.addEventListener("pointerleave", () => { state.pointer = null; });

function showTerrains() {
  const rows = state.terrains.map(({ name }) =>
    `<label><input type="radio" name="terrain" value="${name}"> ${name} <kbd>${name[0]}</kbd></label>`);
  document.getElementById("terrains").innerHTML = rows.join("");
  choose("terrain", "blocked");
}

function choose(kind, value) {
  state[kind] = value;
  document.querySelector(`input[name=${kind}][value=${value}]`).checked = true;
}

document.addEventListener("change", (event) => {
  if (event.target.name) choose(event.target.name, event.target.value);
});

const ZOOMS = { "+": 1.25, "-": 0.8, 0: 0 };

document.addEventListener("keydown", (event) => {
  if (event.ctrlKey || event.metaKey || event.altKey) return;
  const layer = { 1: "path", 2: "components", 3: "moves", 4: "runs" }[event.key];
  const terrain = state.terrains.find(({ name }) => name[0] === event.key);
  if (layer) choose("layer", layer);
  if (terrain) choose("terrain", terrain.name);
  if (event.key in ZOOMS && state.base) zoomMiddle(ZOOMS[event.key]);
});

canvas.addEventListener("wheel", (event) => {
  const box = canvas.getBoundingClientRect();
  zoomBy(event.deltaY < 0 ? 1.25 : 0.8, [event.clientX - box.left, event.clientY - box.top]);
  event.preventDefault();
}, { passive: false });

const ARROWS = { ArrowUp: [0, -1], ArrowRight: [1, 0], ArrowDown: [0, 1], ArrowLeft: [-1, 0] };

canvas.addEventListener("keydown", (event) => {
  if (!(event.key in ARROWS) || !state.base) return;
  const end = event.shiftKey ? "start" : "goal", [right, down] = ARROWS[event.key];
  moveEnd(end, [state[end][0] + right, state[end][1] + down]);
  show(state[end]);
  keepEnds();
  event.preventDefault();
});

document.getElementById("save").addEventListener("click", (event) => {
  const { width, height, terrain } = state.versionGrid;
  const rows = Array.from({ length: height }, (_, row) =>
    Array.from(terrain.subarray(row * width, (row + 1) * width), (each) => "@.W"[each]).join(""));
  const text = ["type octile", `height ${height}`, `width ${width}`, "map", ...rows, ""].join("\n");
  event.target.href = URL.createObjectURL(new Blob([text], { type: "text/plain" }));
});

for (const name of ["in", "out", "all"]) {
  document.getElementById(`zoom-${name}`).addEventListener("click", () => zoomMiddle({ in: 1.25, out: 0.8, all: 0 }[name]));
}

window.addEventListener("resize", () => state.base && fit());

begin().then(() => {
  fit();
  frame();
}, (fault) => put("fault", fault.message));
