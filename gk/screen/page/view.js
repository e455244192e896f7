"use strict";
// What is said of a record, the tables, and the ways to go from one record to another.

const MOST_LINKS = 9;
const MOST_REFUSALS = 200;
/** Things that are offered while one types. */
const MOST_FOUND = 400;
const LAST = RECORDS.length;
const byId = (id) => document.getElementById(id);
/** The address follows after so many milliseconds without a key: browsers stop a page that changes it too often. */
const SETTLED = 300;
let current = -1;
let settling = 0;

/** An element of the page with a text. */
function made(tag, inner, classes) {
  const element = document.createElement(tag);
  element.textContent = inner ?? "";
  if (classes) {
    element.className = classes;
  }
  return element;
}

function items(list, texts) {
  list.replaceChildren(...texts.map((text) => made("li", text)));
}

/** The answer in words, with a sign before it. */
function answerWords({ letter, value, lost }) {
  if (letter === "R") {
    return `✗ Refused (${value}): ${DATA.refusals[value - 1] ?? ""}`;
  }
  const marks = lost === 0 ? "" : lost === 1 ? ", 1 shop mark lost" : `, ${lost} shop marks lost`;
  return letter === "L" ? `↓ Lowered: level ${value} now${marks}` : `✓ Allowed, level ${value}`;
}

const NOTHING = { letter: "", chain: [], how: [], sought: [], about: [], why: [], ways: [], notes: [], changed: [] };

function show(position) {
  const to = Math.min(LAST, Math.max(0, Math.round(position) || 0));
  if (to === current) {
    return;
  }
  current = to;
  const state = stateAfter(to);
  const before = to > 0 ? stateAfter(to - 1) : new State();
  const said = to > 0 ? record(to) : NOTHING;
  showWhere(to, said);
  showSaid(to, said, state);
  showBooks(state);
  draw(to, state, before, said);
  showSteps(to, state, before);
  showObjects(to, state, before);
  showIts(to, state);
  clearTimeout(settling);
  settling = setTimeout(() => history.replaceState(null, "", address()), SETTLED);
}

function showWhere(to, said) {
  byId("slider").value = to;
  const where = to > 0 ? `record ${to} of ${LAST}, ${answerWords(said)}` : "before the first record";
  byId("slider").setAttribute("aria-valuetext", where);
  byId("number").value = to;
  // A button that leads nowhere stays where it is, so that who has come to it by keyboard is not thrown back.
  const leadsNowhere = {
    first: to === 0,
    back: to === 0,
    next: to === LAST,
    last: to === LAST,
    "refused-next": refusalFrom(to, 1) === undefined,
    "refused-back": refusalFrom(to, -1) === undefined,
    "its-next": nextOf(ITS, to, 1) === undefined,
    "its-back": nextOf(ITS, to, -1) === undefined,
  };
  Object.entries(leadsNowhere).forEach(([id, isSo]) => byId(id).setAttribute("aria-disabled", String(isSo)));
  for (const link of document.querySelectorAll("#refusals a, #its a")) {
    if (link.hash === `#${to}`) {
      link.setAttribute("aria-current", "true");
    } else {
      link.removeAttribute("aria-current");
    }
  }
}

function showSaid(to, said, state) {
  const isStart = to === 0;
  byId("position").textContent = isStart ? "Before the first record" : `Record ${to} of ${LAST}`;
  byId("line").textContent = isStart ? "" : replyLine(said);
  const start = LAST === 0 ? "The journal is empty: nothing is asked" : "Nothing is there yet";
  byId("asked").textContent = isStart ? start : text(said.asked, to);
  byId("answer").textContent = isStart ? "Empty tables, books open" : answerWords(said);
  byId("answer").className = said.letter || "none";
  showChain(to, said, state);
  items(byId("why"), said.why.map((phrase) => text(phrase, to)));
  const notes = said.notes.map((phrase) => made("li", text(phrase, to), "note"));
  byId("ways").replaceChildren(...said.ways.map((phrase) => made("li", text(phrase, to))), ...notes);
  byId("ways-part").hidden = said.ways.length + said.notes.length === 0;
  const nothing = said.letter === "R" ? "Nothing: a refused call changes nothing." : "No level, no handle and no need.";
  items(byId("changed"), said.changed.length > 0 ? said.changed.map((phrase) => text(phrase, to)) : [nothing]);
  byId("changed-part").hidden = isStart;
  const aloud = ["position", "asked", "answer"].map((id) => byId(id).textContent);
  byId("live").textContent = `${aloud.join(". ")}.`;
}

/**
 * The chain of a refusal 9, or of the 9 behind a 15, from the low thing to the high file, and in words; the middle of a
 * long one is left out.
 */
function showChain(to, said, state) {
  const links = said.chain;
  const isSought = (from, there) => said.sought.some(([one, other]) => one === from && other === there);
  const rows = links.map(([thing, level, shops], at) => {
    const classes = at === 0 ? "start" : isSought(links[at - 1][0], thing) ? "sought" : "";
    const row = made("li", "", classes);
    const ends = at === 0 || at === links.length - 1 ? "ends" : "";
    row.append(made("span", called(thing, state, to), ends));
    if (classes === "sought") {
      row.append(made("span", "✗ refused", "here"));
    }
    const label = made("span", `level ${level}`, `level ${ends}`);
    if (links.some(([, , set]) => set !== ALL)) {
      label.append(" ", made("small", shopShort(shops, to)));
    }
    row.append(label);
    return row;
  });
  const isNear = (at) => rows.slice(Math.max(0, at - 1), at + 2).some((each) => each.className === "sought");
  const isKept = (at) => rows.length <= MOST_LINKS || at < 3 || at >= rows.length - 3 || isNear(at);
  const kept = [];
  for (let at = 0, left = 0; at < rows.length; at += 1) {
    left = isKept(at) ? 0 : left + 1;
    if (left === 0) {
      kept.push(rows[at]);
    } else if (isKept(at + 1)) {
      kept.push(made("li", `${left} more, step by pipe by step`, "more"));
    }
  }
  byId("chain").replaceChildren(...kept);
  const [title, ...acts] = said.how.map((phrase) => text(phrase, to));
  byId("chain-title").textContent = title ?? "";
  byId("acts").textContent = acts.length > 0 ? `${capital(acts.join("; "))}.` : "";
  byId("chain-part").hidden = links.length === 0;
}

function showBooks(state) {
  const isClosed = state.freeze < NO_FREEZE;
  byId("books").textContent = isClosed
    ? `Books closed from level ${state.freeze} up: no such file is opened for writing`
    : "Books open. The better looked over, the higher. Data may go down or across, never up.";
  byId("books").className = isClosed ? "closed" : "";
}

/** A row of a table; its first cell selects the thing, where it is one. */
function row(body, head, cells, hasMoved, thing = -1) {
  const line = document.createElement("tr");
  const first = made("th", thing < 0 ? head : "");
  first.scope = "row";
  if (thing >= 0) {
    const button = made("button", head);
    button.type = "button";
    button.addEventListener("click", () => select(thing === selected ? -1 : thing));
    first.append(button);
    line.classList.toggle("selected", thing === selected);
  }
  line.append(
    first,
    ...cells.map((cell) => {
      const filled = made("td");
      filled.append(...[cell].flat());
      return filled;
    }),
  );
  line.classList.toggle("moved", hasMoved);
  body.append(line);
}

/** A level, and small beside it the shop marks. */
function label(level, shops, to) {
  return [`${level} `, made("small", shopShort(shops, to), "shops")];
}

function fellFrom(thing, state, before, to) {
  const now = label(state.level[thing], state.shops[thing], to);
  const isOther = before.level[thing] !== state.level[thing] || before.shops[thing] !== state.shops[thing];
  const fell = before.kind[thing] !== 0 && isOther;
  return fell ? [...label(before.level[thing], before.shops[thing], to), " → ", ...now] : now;
}

/** Which sign is which shop group's, where a thing lacks a shop mark; "" where none does. */
function legend(state, to) {
  const lacks = [...state.kind.keys()].some((thing) => state.kind[thing] !== 0 && state.shops[thing] !== ALL);
  const signs = shopSigns(to);
  const named = signs.map((sign, group) => [sign, nameOf(`shop ${group}`, to)]).filter(([, name]) => name !== "");
  const numbers = named.length < GROUPS ? "a digit is the number of a shop group, " : "";
  const names = named.length > 0 ? `${named.map(([sign, name]) => `${sign} ${name}`).join(", ")}; ` : "";
  return lacks ? `Shop marks: ${names}${numbers}· is one that is not there` : "";
}

function hasChanged(thing, state, before) {
  const every = ["kind", "level", "need", "shops", "keeps"];
  const fields = thing < STEPS ? [...every, "group"] : every;
  return fields.some((field) => state[field][thing] !== before[field][thing]);
}

/** Who is a thread of the same step, to stand behind a step's name; "" where it is by itself. */
function withMates(step, state, to) {
  const mates = state.mates(step).map((mate) => called(mate, state, to));
  return mates.length > 0 ? ` · thread of one step with ${mates.join(", ")}` : "";
}

function showSteps(to, state, before) {
  const body = byId("steps").tBodies[0];
  body.replaceChildren();
  const held = new Map();
  state.handles((step, place, way, thing, marked) => {
    const word = way === READS ? "reads" : way === WRITES ? "writes" : "has mapped";
    const list = held.get(step) ?? [];
    list.push(`${place}: ${word} ${called(thing, state, to)}${marked ? ", marked" : ""}`);
    held.set(step, list);
  });
  for (const step of state.steps()) {
    const name = capital(called(step, state, to)) + withMates(step, state, to);
    const holds = (held.get(step) ?? ["nothing"]).join("; ");
    const cells = [fellFrom(step, state, before, to), label(state.need[step], state.keeps[step], to), holds];
    row(body, name, cells, hasChanged(step, state, before), step);
  }
  if (body.rows.length === 0) {
    row(body, "No step runs", ["", "", ""], false);
  }
}

function showObjects(to, state, before) {
  const body = byId("objects").tBodies[0];
  body.replaceChildren();
  const [writers, readers] = [new Map(), new Map()];
  state.handles((step, place, way, thing) => {
    const side = way === WRITES ? writers : readers;
    side.set(thing, (side.get(thing) ?? new Set()).add(`${called(step, state, to)}${way === MAPS ? " (mapped)" : ""}`));
  });
  const list = (side, thing) => [...(side.get(thing) ?? ["–"])].join(", ");
  let live = 0;
  for (let thing = FIRST; thing < THINGS; thing += 1) {
    if (state.kind[thing] !== 0) {
      live += 1;
      const cells = [fellFrom(thing, state, before, to), list(writers, thing), list(readers, thing)];
      row(body, capital(called(thing, state, to)), cells, hasChanged(thing, state, before), thing);
    }
  }
  if (body.rows.length === 0) {
    row(body, "No file and no pipe", ["", "", ""], false);
  }
  byId("live-objects").textContent = `${live} of ${DATA.most} live`;
  byId("shop-legend").textContent = legend(state, to);
}

// One thing by itself.

/** The records of the thing that is selected. */
let ITS = [];

/** What a thing is called that may not be there now. */
function calledEver(thing, position) {
  const plain = `${shapeOf(thing, KIND[thing])} ${numberOf(thing)}`;
  const name = nameOf(plain, position);
  return name ? `${name} (${plain})` : plain;
}

/** Shows a thing by itself, with what it is joined to; with -1 everything. */
function select(thing) {
  selected = thing;
  ITS = thing < 0 ? [] : recordsOf(thing);
  ["its-back", "its-next", "everything", "its-part"].forEach((id) => { byId(id).hidden = thing < 0; });
  byId("find").value = thing < 0 ? "" : calledEver(thing, LAST);
  byId("find").removeAttribute("aria-invalid");
  byId("not-found").textContent = "";
  byId("its").replaceChildren(...ITS.slice(0, MOST_REFUSALS).map(linkTo));
  const more = ITS.length - MOST_REFUSALS;
  byId("its-more").textContent = more > 0 ? `And ${more} more.` : "";
  showAgain();
}

/** The record and the thing that are shown, as the end of an address. */
function address() {
  const thing = selected < 0 ? "" : `:${shapeOf(selected, KIND[selected])}-${numberOf(selected)}`;
  return `#${current}${thing}`;
}

/** The same record once more. */
function showAgain() {
  const position = current;
  current = -1;
  show(position);
}

/** Why the selected thing has its level: since which record, and through which ones. */
function showIts(to, state) {
  if (selected < 0) {
    return;
  }
  const name = capital(state.kind[selected] !== 0 ? called(selected, state, to) : calledEver(selected, to));
  const chain = causesOf(selected, to);
  const [first, last] = [chain[0], chain.at(-1)];
  byId("its-title").textContent = name;
  byId("because-title").textContent = last === undefined
    ? "It is not there after this record"
    : `It has level ${state.level[selected]} since record ${last[1]}` +
      (first === last ? "" : `, because of ${calledEver(first[0], to)}`);
  byId("because").replaceChildren(...(chain.length > 1 ? chain : []).map(([, position]) => linkTo(position)));
}

/** All things that were ever there, with what they are called at some time. */
const EVERY_NAME = (() => {
  const things = [...new Set(EVER.flatMap((list) => [...list]))].sort((one, other) => one - other);
  return things.flatMap((thing) => {
    const plain = `${shapeOf(thing, KIND[thing])} ${numberOf(thing)}`;
    const names = (NAMES.get(plain) ?? []).map(([, name]) => name).filter((name) => name);
    return [[plain, thing], ...names.flatMap((name) => [[name, thing], [`${name} (${plain})`, thing]])];
  });
})();

/** The thing that is meant by a text: one that is called so, that starts so, or has it in its name; -1 for none. */
function found(text) {
  const wanted = text.trim().toLowerCase();
  const isThere = stateAfter(Math.max(0, current)).kind;
  const rated = EVERY_NAME.map(([name, thing]) => {
    const at = name.toLowerCase().indexOf(wanted);
    const rank = name.toLowerCase() === wanted ? 0 : at === 0 ? 2 : at > 0 ? 4 : 9;
    return [rank + (isThere[thing] === 0), thing];
  });
  const best = rated.reduce((one, other) => (other[0] < one[0] ? other : one), [9, -1]);
  return wanted === "" || best[0] > 5 ? -1 : best[1];
}

/** Selects what is meant, or says that there is nothing. */
function find() {
  const field = byId("find");
  const thing = found(field.value);
  const isMissing = thing < 0 && field.value.trim() !== "";
  if (!isMissing) {
    select(thing);
  }
  field.setAttribute("aria-invalid", String(isMissing));
  byId("not-found").textContent = isMissing ? "nothing is called so" : "";
}

byId("found").replaceChildren(...EVERY_NAME.filter(([name]) => !name.endsWith(")")).slice(0, MOST_FOUND).map(([name]) => {
  const option = document.createElement("option");
  option.value = name;
  return option;
}));
byId("find").addEventListener("change", find);

// Going from record to record.

/** Of rising records the next one from a record, or with -1 the one before. */
function nextOf(list, position, way) {
  let [low, high] = [0, list.length];
  while (low < high) {
    const middle = (low + high) >> 1;
    if (way > 0 ? list[middle] <= position : list[middle] < position) {
      low = middle + 1;
    } else {
      high = middle;
    }
  }
  return list[way > 0 ? low : low - 1];
}

const refusalFrom = (position, way) => nextOf(REFUSED, position, way);
const toRefusal = (way) => show(refusalFrom(current, way) ?? current);
const toIts = (way) => show(nextOf(ITS, current, way) ?? current);
const MOVES = {
  first: () => show(0),
  back: () => show(current - 1),
  next: () => show(current + 1),
  last: () => show(LAST),
  "refused-back": () => toRefusal(-1),
  "refused-next": () => toRefusal(1),
  "its-back": () => toIts(-1),
  "its-next": () => toIts(1),
  everything: () => select(-1),
};
for (const [id, move] of Object.entries(MOVES)) {
  byId(id).addEventListener("click", move);
}
byId("slider").addEventListener("input", (event) => show(Number(event.target.value)));
byId("number").addEventListener("change", (event) => show(Number(event.target.value)));

document.addEventListener("keydown", (event) => {
  const isTyping = event.target.id === "number";
  if (event.ctrlKey || event.altKey || event.metaKey) {
    return;
  }
  // What is typed to find something is no key of the page.
  if (event.target.id === "find" && event.key !== "Escape") {
    return;
  }
  const steps = event.shiftKey ? 10 : 1;
  const moves = {
    ArrowRight: () => show(current + steps),
    ArrowLeft: () => show(current - steps),
    n: () => toRefusal(1),
    N: () => toRefusal(1),
    p: () => toRefusal(-1),
    P: () => toRefusal(-1),
    j: () => toIts(1),
    J: () => toIts(1),
    k: () => toIts(-1),
    K: () => toIts(-1),
    "/": () => byId("find").focus(),
    Escape: () => select(-1),
  };
  if (Object.hasOwn(moves, event.key) && !(isTyping && event.key.startsWith("Arrow"))) {
    event.preventDefault();
    moves[event.key]();
  }
});

/** Refusals and falls along the slider: at each pixel a mark, as high as the share of its records that have one. */
function drawStrip() {
  const strip = byId("strip");
  const width = Math.max(100, strip.clientWidth || 800);
  const at = (position) => Math.round(8 + ((width - 16) * position) / Math.max(1, LAST));
  const perPixel = Math.max(1, LAST / (width - 16));
  strip.replaceChildren(drawn("path", { d: `M8 13.5H${width - 8}`, class: "strip-rule" }));
  for (const [list, name] of [[LOWERED, "strip-lowered"], [REFUSED, "strip-refused"]]) {
    const counts = new Map();
    list.forEach((position) => counts.set(at(position), (counts.get(at(position)) ?? 0) + 1));
    const mark = ([x, count]) => `M${x} ${Math.round(10 - 10 * Math.min(1, count / perPixel))}V13`;
    strip.append(drawn("path", { d: [...counts].map(mark).join(""), class: name }));
  }
}

/** A record in a list: a link that leads there. */
function linkTo(position) {
  const said = record(position);
  const refusal = said.letter === "R" ? ` – ${said.value}` : "";
  const link = made("a", `${position}: ${text(said.asked, position)}${refusal}`);
  link.href = `#${position}`;
  const line = document.createElement("li");
  line.append(link);
  return line;
}

function listRefusals() {
  const rows = REFUSED.slice(0, MOST_REFUSALS).map(linkTo);
  byId("refusals").replaceChildren(...rows);
  const more = REFUSED.length - rows.length;
  byId("refusals-more").textContent = REFUSED.length === 0 ? "None." : more > 0 ? `And ${more} more.` : "";
}

function fromHash() {
  const asked = /^#(\d+|end)(?::([a-z]+)-([\d,]+))?$/.exec(location.hash);
  const start = DATA.at >= 0 ? DATA.at : REFUSED[0] ?? LAST;
  show(!asked ? start : asked[1] === "end" ? LAST : Number(asked[1]));
  const thing = asked?.[2] ? found(`${asked[2]} ${asked[3]}`) : -1;
  if (thing >= 0 && thing !== selected) {
    select(thing);
  }
}

byId("slider").max = byId("number").max = LAST;
byId("of").textContent = `of ${LAST}`;
byId("summary").textContent =
  `${LAST} records: ${LAST - LOWERED.length - REFUSED.length} allowed, ${LOWERED.length} lowered, ` +
  `${REFUSED.length} refused. ` +
  `Handles: ${DATA.end[0]} made, ${DATA.end[1]} gone, ${DATA.end[2]} open at the end.`;
listRefusals();
drawStrip();
window.addEventListener("hashchange", fromHash);
new ResizeObserver(() => {
  if (measured()) {
    drawStrip();
    showAgain();
  }
}).observe(byId("picture"));
measured();
fromHash();
