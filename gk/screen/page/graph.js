"use strict";
// The graph: rows by level, the highest on top; in a row the things in the order of the run, a long row in lines that
// turn at their ends, so that a chain of pipes stays a chain.

/** The least and the most room for a thing in a line. */
const SLOT = 42;
const MOST_SLOT = 60;
const LINE = 58;
const LEFT = 70;
/** Where the level of a row stands; no name goes there. */
const LABELS = 52;
/** Up to so many spots, a thing has its own for the whole run; above, rows are laid out anew for each record. */
const MOST_SPOTS = 120;
/** Above so many flows, those of the things that the record is about stand out. */
const MOST_FLOWS = 60;
const MOST_LETTERS = 22;
/** And of one that matters, where there is room. */
const MOST_OF_IMPORTANT = 40;
/** A name that has less room is left out; on pointing it is there. */
const LEAST_LETTERS = 5;
/** Digits of a number that fit into a thing; of a longer one the last ones stand there, and all of it on pointing. */
const MOST_DIGITS = 4;
const SVG = "http://www.w3.org/2000/svg";

const RANK = new Array(THINGS).fill(THINGS);
DATA.order.forEach((thing, rank) => { RANK[thing] = rank; });
const NEAREST = new Map(pairs(DATA.nearest));

/** An element of a drawing. */
function drawn(tag, attributes, inner) {
  const element = document.createElementNS(SVG, tag);
  for (const [name, value] of Object.entries(attributes)) {
    element.setAttribute(name, value);
  }
  if (inner !== undefined) {
    element.textContent = inner;
  }
  return element;
}

/** Where things stand that are, or were, at each level. */
class Layout {
  constructor(width, lists) {
    this.width = width;
    this.room = width - LEFT - 6;
    this.perLine = Math.max(4, Math.floor(this.room / SLOT));
    this.spots = new Map();
    this.bands = [];
    this.column = new Map();
    this.taken = [];
    let top = 4;
    const sorted = lists.map((list) => [...list].sort((one, other) => RANK[one] - RANK[other]));
    const isLong = (list) => list.length > this.perLine;
    const lengths = sorted.filter(isLong).map((list) => this.lineLength(list));
    if (lengths.length > 0) {
      this.perLine = Math.max(...lengths, Math.floor(this.room / MOST_SLOT));
    } else {
      const most = Math.max(...sorted.map((list) => list.length));
      this.perLine = Math.max(most, Math.min(this.perLine, Math.floor(this.room / MOST_SLOT)), 1);
    }
    this.pitch = this.room / this.perLine;
    const long = sorted.map((list) => (isLong(list) ? this.turning(list) : []));
    const spots = sorted.map((list, level) => (isLong(list) ? long[level] : this.single(list)));
    for (let level = 15; level >= 0; level -= 1) {
      if (sorted[level].length === 0) {
        continue;
      }
      const lines = 1 + Math.max(...spots[level].map(([, , line]) => line));
      const height = lines * LINE + 4;
      this.bands.push({ level, top, height, isWide: !isLong(sorted[level]) });
      for (const [thing, column, line] of spots[level]) {
        const [x, y] = [LEFT + this.pitch * (column + 0.5), top + LINE * line + 31];
        this.spots.set(level * THINGS + thing, { x, y, isWide: !isLong(sorted[level]) });
      }
      top += height + 4;
    }
    this.height = top;
  }

  /** How many things are in each line of a long row. */
  lineLength(list) {
    return Math.ceil(list.length / Math.ceil(list.length / this.perLine));
  }

  /** Several lines, each turning where the one before ends. */
  turning(list) {
    const length = this.lineLength(list);
    return list.map((thing, at) => {
      const line = Math.floor(at / length);
      const along = at % length;
      const column = line % 2 === 0 ? along : length - 1 - along;
      this.column.set(thing, column);
      return [thing, column, line];
    });
  }

  /** One line: each thing below or above the one that it was joined to longest, with room for names where there is. */
  single(list) {
    const room = Math.floor(this.perLine / Math.max(1, list.length));
    const gap = Math.min(3, Math.max(1, room));
    const wanted = list.map((thing, at) => [thing, this.beside(this.column.get(NEAREST.get(thing))) ?? at * gap]);
    wanted.sort((one, other) => one[1] - other[1] || RANK[one[0]] - RANK[other[0]]);
    let free = 0;
    const spots = wanted.map(([thing, column]) => {
      const at = Math.max(column, free);
      free = at + gap;
      return [thing, at, 0];
    });
    let most = this.perLine - 1;
    for (let at = spots.length - 1; at >= 0; at -= 1) {
      spots[at][1] = Math.min(spots[at][1], most);
      most = spots[at][1] - gap;
    }
    spots.forEach(([, column]) => this.taken.push(column));
    return spots;
  }

  /** A column, or one near it where something of another row stands right above: so that no arrow runs through it. */
  beside(column) {
    const free = [0, 2, -2, 4, -4].map((off) => column + off).find((at) => at >= 0 && !this.taken.includes(at));
    return column === undefined ? undefined : free ?? column;
  }

  spot(thing, level) {
    return this.spots.get(level * THINGS + thing);
  }
}

const graph = document.getElementById("graph");
const layers = {};
const shown = new Map();
let fixed = null;

graph.append(drawn("defs", {}));
for (const id of ["tip", "tip-about", "tip-refused", "tip-fall"]) {
  const marker = drawn("marker", { id, viewBox: "0 0 8 8", refX: 7, refY: 4, markerWidth: 8, markerHeight: 8,
    markerUnits: "userSpaceOnUse", orient: "auto" });
  marker.append(drawn("path", { d: "M0 0.5L8 4L0 7.5z", class: id }));
  graph.firstChild.append(marker);
}
for (const name of ["bands", "edges", "things", "flags"]) {
  layers[name] = drawn("g", {});
  graph.append(layers[name]);
}

/** What each text of the graph is set in; its size is that of the boxes. */
const FONTS = { number: "600 11.5px system-ui, sans-serif", need: "10.5px system-ui, sans-serif",
  name: "11px system-ui, sans-serif", flag: "600 11.5px system-ui, sans-serif" };
const pen = document.createElement("canvas").getContext("2d");
const widths = new Map();

/** How wide a text is, without asking the page for a layout. */
function widthOf(text, font) {
  const key = `${font} ${text}`;
  if (!widths.has(key)) {
    pen.font = FONTS[font];
    widths.set(key, pen.measureText(text).width);
  }
  return widths.get(key);
}

/** The boxes of shapes and texts that stand: no text is put over one of them. */
class Boxes {
  constructor() {
    this.taken = [];
  }

  /** The box of a text with its middle at x, on this line. */
  static ofText(text, font, x, line) {
    const half = widthOf(text, font) / 2 + 1;
    return { left: x - half, right: x + half, top: line - 11, bottom: line + 3 };
  }

  /** How much of a box is covered by others. */
  covered(box) {
    const over = (low, high, other, another) => Math.max(0, Math.min(high, another) - Math.max(low, other));
    const area = (other) =>
      over(box.left, box.right, other.left, other.right) * over(box.top, box.bottom, other.top, other.bottom);
    return this.taken.reduce((sum, other) => sum + area(other), 0);
  }

  take(box) {
    this.taken.push(box);
  }
}

/** The room for the graph, asked for once and when it changes: to ask each time would cost a layout of the page. */
let width = 0;

/** Measures the room, and says whether it has changed. */
function measured() {
  const before = width;
  width = Math.max(240, graph.clientWidth || 860);
  return width !== before;
}

/** The layout for a record: the same for all of them, or where too many things were ever there, its own. */
function layoutFor(things) {
  if (EVER.reduce((sum, things) => sum + things.size, 0) <= MOST_SPOTS) {
    fixed = fixed?.width === width ? fixed : new Layout(width, EVER);
    return fixed;
  }
  const lists = Array.from({ length: 16 }, () => []);
  things.forEach(([thing, level]) => lists[level].push(thing));
  return new Layout(width, lists.map((list) => [...new Set(list)]));
}

/** Draws the state after a record, and what the record did. */
function draw(position, state, before, said) {
  const chain = new Map(said.chain);
  const placed = [];
  const ghosts = [];
  for (let thing = 0; thing < THINGS; thing += 1) {
    if (state.kind[thing] !== 0) {
      placed.push([thing, state.level[thing]]);
    } else if (chain.has(thing)) {
      ghosts.push([thing, chain.get(thing), 2]);
    }
    const isGone = before.kind[thing] !== 0 && state.kind[thing] === 0;
    const fell = before.kind[thing] !== 0 && state.kind[thing] !== 0 && before.level[thing] !== state.level[thing];
    if (isGone || fell) {
      ghosts.push([thing, before.level[thing], before.kind[thing]]);
    }
  }
  const layout = layoutFor(placed.concat(ghosts));
  graph.setAttribute("height", layout.height);
  graph.setAttribute("viewBox", `0 0 ${layout.width} ${layout.height}`);
  const lit = joinedTo(selected, state);
  graph.classList.toggle("isolated", lit.size > 0);
  graph.classList.toggle("dim", lit.size === 0 && (said.chain.length > 0 || said.letter === "L"));
  const boxes = new Boxes();
  drawBands(layout, state.freeze, boxes);
  drawThings(layout, placed, ghosts, state, before, said, chain, position, lit, boxes);
  drawEdges(layout, state, before, said, chain, lit, boxes);
}

/** The thing that is looked at by itself; -1 for none. */
let selected = -1;

/** A thing and those that it is joined to, by a handle or as threads of one step; nothing where it is not there. */
function joinedTo(thing, state) {
  const joined = new Set();
  if (thing < 0 || state.kind[thing] === 0) {
    return joined;
  }
  joined.add(thing);
  state.handles((step, place, way, object) => {
    if (step === thing || object === thing) {
      joined.add(step).add(object);
    }
  });
  if (thing < STEPS) {
    state.mates(thing).forEach((mate) => joined.add(mate));
  }
  return joined;
}

function drawBands(layout, freeze, boxes) {
  layers.bands.replaceChildren();
  layout.bands.forEach((band, index) => {
    const box = { x: 0, y: band.top, width: layout.width, height: band.height, rx: 6 };
    layers.bands.append(drawn("rect", { ...box, class: index % 2 === 0 ? "band" : "band odd" }));
    if (band.level >= freeze) {
      layers.bands.append(drawn("rect", { ...box, x: 0.5, width: layout.width - 1, class: "band-frozen" }));
    }
    boxes.take({ left: 0, right: LABELS - 4, top: band.top, bottom: band.top + band.height });
    layers.bands.append(drawn("text", { x: 10, y: band.top + 16, class: "band-word" }, "level"));
    layers.bands.append(drawn("text", { x: 10, y: band.top + 32, class: "band-label" }, String(band.level)));
    if (band.level >= freeze) {
      layers.bands.append(drawn("text", { x: 10, y: band.top + 46, class: "band-word" }, "frozen"));
    }
  });
}

const SHAPES = {
  step: ["circle", { r: 13 }, 14, 14],
  file: ["path", { d: "M-11 -13h14l8 8v18h-22z" }, 13, 15],
  pipe: ["rect", { x: -14, y: -8, width: 28, height: 16, rx: 8 }, 15, 9],
};

function shapeOf(thing, kind) {
  return thing < STEPS ? "step" : kind === FILE ? "file" : "pipe";
}

/** A text of so many letters: a long one loses its front, as numbers tell by their ends. */
function ended(text, most) {
  return text.length > most ? `…${text.slice(1 - most)}` : text;
}

/** A thing's own group, made once, so that it can move. */
function groupOf(key, thing, kind) {
  const shape = shapeOf(thing, kind);
  let group = shown.get(key);
  if (group === undefined || group.dataset.shape !== shape) {
    group?.remove();
    group = drawn("g", {});
    const [tag, attributes] = SHAPES[shape];
    group.append(drawn("title", {}), drawn(tag, { ...attributes, class: `shape ${shape}` }));
    group.append(drawn("text", { y: 4 }, ended(numberOf(thing), MOST_DIGITS)));
    const nameAt = shape === "step" ? -18 : 26;
    group.append(drawn("text", { y: 25, class: "need" }), drawn("text", { y: nameAt, class: "name" }));
    group.append(drawn("text", { y: shape === "step" ? 35 : -17, class: "need" }));
    group.dataset.shape = shape;
    group.addEventListener("pointerenter", () => pick(thing));
    group.addEventListener("pointerleave", () => pick(-1));
    group.addEventListener("click", () => select(thing === selected ? -1 : thing));
    shown.set(key, group);
    layers.things.append(group);
  }
  return group;
}

/** Makes the handles on a thing stand out, while the pointer is on it. */
function pick(thing) {
  for (const edge of layers.edges.children) {
    const isPicked = edge.dataset.from === String(thing) || edge.dataset.to === String(thing);
    edge.classList.toggle("picked", isPicked);
  }
}

/** The texts of a thing that stand below and above it: where each may be, its own line first. */
const NAME_LINES = { step: [-18, 38], file: [26, -18], pipe: [26, -13] };

/** Puts names beside their things, those that matter most first: shorter where there is no room, or none at all. */
function putNames(wanted, layout, boxes) {
  wanted.sort((one, other) => other.weight - one.weight);
  for (const { spot, shape, element, text, weight } of wanted) {
    const most = weight > 0 ? MOST_OF_IMPORTANT : MOST_LETTERS;
    const fitting = (short) => {
      const half = widthOf(short, "name") / 2;
      const x = Math.min(Math.max(spot.x, LABELS + half), layout.width - half - 4);
      const lines = NAME_LINES[shape].map((line) => [line, Boxes.ofText(short, "name", x, spot.y + line)]);
      const found = lines.find(([, box]) => boxes.covered(box) === 0);
      return found && [short, x - spot.x, ...found];
    };
    let found;
    for (let letters = Math.min(text.length, most); !found && letters >= LEAST_LETTERS; letters -= 1) {
      found = fitting(letters < text.length ? `${text.slice(0, letters - 1).trimEnd()}…` : text);
    }
    found ??= text.length < LEAST_LETTERS ? fitting(text) : undefined;
    const [short, x, line, box] = found ?? ["", 0, 0, undefined];
    element.textContent = short;
    element.setAttribute("x", String(x));
    element.setAttribute("y", String(line));
    if (box) {
      boxes.take(box);
    }
  }
}

function drawThings(layout, placed, ghosts, state, before, said, chain, position, lit, boxes) {
  const used = new Set();
  const wanted = [];
  const put = (key, thing, level, kind, classes) => {
    const spot = layout.spot(thing, level);
    if (spot === undefined) {
      return;
    }
    used.add(key);
    const group = groupOf(key, thing, kind);
    group.setAttribute("class", `thing ${classes}`);
    group.style.transform = `translate(${spot.x}px, ${spot.y}px)`;
    const [title, , , need, name, shops] = group.children;
    const isStep = thing < STEPS;
    const plain = `${shapeOf(thing, kind)} ${numberOf(thing)}`;
    const own = nameOf(plain, position);
    const isGhost = classes.includes("ghost");
    const hasNeed = isStep && !isGhost;
    const mates = hasNeed ? withMates(thing, state, position) : "";
    const keeps = state.keeps[thing] > 0 && state.keeps[thing] < ALL ? ` with ${shopWords(state.keeps[thing], position)}` : "";
    const floor = hasNeed ? `, may fall to ${state.need[thing]}${keeps}${mates}` : "";
    const set = isGhost ? before.shops[thing] : state.shops[thing];
    const marks = set === ALL ? "" : ` with ${shopWords(set, position)}`;
    title.textContent = `${own ? `${own} (${plain})` : plain}, level ${level}${marks}${floor}`;
    need.textContent = hasNeed ? `≥${state.need[thing]}` : "";
    shops.textContent = set === ALL ? "" : shopShort(set, position);
    const isEnd = thing === said.chain[0]?.[0] || thing === said.chain.at(-1)?.[0];
    const weight = 4 * (thing === selected) + 2 * (isEnd || classes.includes("about")) + lit.has(thing);
    const isNamed = !isGhost && (spot.isWide || weight > 0);
    const shape = shapeOf(thing, kind);
    name.textContent = "";
    const text = own || (spot.isWide ? ended(plain, MOST_LETTERS) : "");
    wanted.push({ spot, shape, element: name, weight, text: isNamed ? text : "" });
    const [, , rx, ry] = SHAPES[shape];
    boxes.take({ left: spot.x - rx, right: spot.x + rx, top: spot.y - ry, bottom: spot.y + ry });
    boxes.take(Boxes.ofText(ended(numberOf(thing), MOST_DIGITS), "number", spot.x, spot.y + 4));
    [need, shops].filter((each) => each.textContent !== "").forEach((each) => {
      boxes.take(Boxes.ofText(each.textContent, "need", spot.x, spot.y + Number(each.getAttribute("y"))));
    });
  };
  for (const [thing, level] of placed) {
    const classes = [[said.about.includes(thing), "about"], [chain.has(thing), "on-chain"], [lit.has(thing), "lit"],
      [thing === selected, "selected"]].filter(([isSo]) => isSo).map(([, word]) => word);
    put(thing, thing, level, state.kind[thing], classes.join(" "));
  }
  for (const [thing, level, kind] of ghosts) {
    put(`ghost ${thing}`, thing, level, kind, `ghost${chain.has(thing) ? " on-chain" : ""}`);
  }
  putNames(wanted.filter((each) => each.text !== ""), layout, boxes);
  for (const [key, group] of shown) {
    if (!used.has(key)) {
      group.remove();
      shown.delete(key);
    }
  }
}

/** A path from one spot to another, from edge to edge of their shapes, bent to the left of its way; the points on it. */
function bent(from, to, fromShape, toShape) {
  const [dx, dy] = [to.x - from.x, to.y - from.y];
  const length = Math.hypot(dx, dy) || 1;
  const bend = length < 1.1 * MOST_SLOT ? 0 : Math.min(34, length * 0.14);
  const middle = { x: from.x + dx / 2 + (dy / length) * bend, y: from.y + dy / 2 - (dx / length) * bend };
  const start = trimmed(from, middle, fromShape);
  const end = trimmed(to, middle, toShape);
  const round = (number) => Math.round(number * 10) / 10;
  const along = (share, name) =>
    (1 - share) ** 2 * start[name] + 2 * share * (1 - share) * middle[name] + share ** 2 * end[name];
  return {
    path: `M${round(start.x)} ${round(start.y)}Q${round(middle.x)} ${round(middle.y)} ${round(end.x)} ${round(end.y)}`,
    at: (share) => ({ x: round(along(share, "x")), y: round(along(share, "y")) }),
  };
}

/** Puts a word beside a path, at its first share if it may, where it covers least: most often nothing. */
function flag(at, shares, text, classes, layout, boxes) {
  const half = widthOf(text, "flag") / 2;
  const spots = shares.flatMap((share) => [-1, 1].flatMap((side) => [4, -8, 16, -22, 30].map((down) => {
    const point = at(share);
    return { x: point.x + side * (half + 9), y: point.y + down };
  })));
  const isInside = ({ x }) => x - half > LABELS && x + half < layout.width - 2;
  const rated = spots.filter(isInside).map((spot) => {
    const box = Boxes.ofText(text, "flag", spot.x, spot.y);
    return { spot, box, covered: boxes.covered(box) };
  });
  const best = rated.find(({ covered }) => covered === 0) ?? rated.sort((one, other) => one.covered - other.covered)[0];
  if (best) {
    layers.flags.append(drawn("text", { ...best.spot, class: `flag ${classes}` }, text));
    boxes.take(best.box);
  }
}

function trimmed(spot, toward, shape) {
  const [, , rx, ry] = SHAPES[shape];
  const [dx, dy] = [toward.x - spot.x, toward.y - spot.y];
  const length = Math.hypot(dx, dy) || 1;
  const reach = 1 / Math.hypot(dx / length / rx, dy / length / ry) + 1;
  return { x: spot.x + (dx / length) * reach, y: spot.y + (dy / length) * reach };
}

function drawEdges(layout, state, before, said, chain, lit, boxes) {
  layers.edges.replaceChildren();
  layers.flags.replaceChildren();
  let isMany = false;
  const levelOf = (thing) => (state.kind[thing] !== 0 ? state.level[thing] : chain.get(thing));
  const arrow = (from, to, classes, tip) => {
    const [one, other] = [layout.spot(from, levelOf(from)), layout.spot(to, levelOf(to))];
    if (one === undefined || other === undefined) {
      return undefined;
    }
    const shape = (thing) => shapeOf(thing, state.kind[thing] || 2);
    const { path, at } = bent(one, other, shape(from), shape(to));
    const isNear = said.about.includes(from) || said.about.includes(to);
    const isLit = lit.has(from) && lit.has(to) && (from === selected || to === selected);
    const edge = drawn("path", { d: path, class: `edge ${classes}${isNear ? " near" : ""}${isLit ? " lit" : ""}` });
    // Among very many, an arrow's head says nothing.
    if (tip && !(isMany && tip === "tip" && !isNear && !isLit)) {
      edge.setAttribute("marker-end", `url(#${tip})`);
    }
    [edge.dataset.from, edge.dataset.to] = [from, to];
    layers.edges.append(edge);
    return at;
  };

  const links = new Set(said.chain.slice(1).map(([thing], at) => said.chain[at][0] * THINGS + thing));
  const flows = new Map();
  state.handles((step, place, way, thing, marked) => {
    const key = way === WRITES ? step * THINGS + thing : thing * THINGS + step;
    const flow = flows.get(key) ?? { maps: true, marked: true };
    flows.set(key, { maps: flow.maps && way === MAPS, marked: flow.marked && marked });
  });
  isMany = flows.size > MOST_FLOWS;
  graph.classList.toggle("many", isMany);
  const last = [];
  // Threads of one step share memory: a line joins each to the next one, and has no tip, as data goes both ways.
  const steps = state.steps();
  steps.slice(1).forEach((step, at) => {
    if (state.group[step] === state.group[steps[at]]) {
      arrow(steps[at], step, "shares", "");
    }
  });
  for (const key of links) {
    const [from, to] = [Math.floor(key / THINGS), key % THINGS];
    if (from < STEPS && to < STEPS) {
      last.push([from, to, "chain", "tip-refused"]);
    }
  }
  for (const [key, flow] of flows) {
    const [from, to] = [Math.floor(key / THINGS), key % THINGS];
    const classes = `${flow.maps ? "maps" : ""} ${flow.marked && !flow.maps ? "marked" : ""}`;
    const isAbout = said.about.includes(from) && said.about.includes(to) && said.chain.length === 0;
    if (links.has(key)) {
      last.push([from, to, `${classes} chain`, "tip-refused"]);
    } else if (isAbout) {
      last.push([from, to, `${classes} about`, "tip-about"]);
    } else {
      arrow(from, to, classes, "tip");
    }
  }
  last.forEach((edge) => arrow(...edge));
  let isSaid = false;
  for (const [from, to] of said.sought) {
    const at = arrow(from, to, "sought", "tip-refused");
    if (at !== undefined && !isSaid) {
      flag(at, from < STEPS ? [0.5, 0.7, 0.3, 0.84, 0.16] : [0.16, 0.3, 0.5, 0.7, 0.84], "✗ refused", "", layout, boxes);
      isSaid = true;
    }
  }
  for (let thing = 0; thing < THINGS; thing += 1) {
    const wasThere = before.kind[thing] !== 0 && state.kind[thing] !== 0;
    if (wasThere && before.level[thing] !== state.level[thing]) {
      drawFall(layout, thing, before.level[thing], state.level[thing], shapeOf(thing, state.kind[thing]), boxes);
    }
  }
}

function drawFall(layout, thing, from, to, shape, boxes) {
  const [one, other] = [layout.spot(thing, from), layout.spot(thing, to)];
  if (one === undefined || other === undefined) {
    return;
  }
  const { path, at } = bent(one, other, shape, shape);
  layers.edges.append(drawn("path", { d: path, class: "edge fall", "marker-end": "url(#tip-fall)" }));
  flag(at, [0.86, 0.7, 0.5, 0.3, 0.14], `↓ fell from ${from} to ${to}`, "fall", layout, boxes);
}
