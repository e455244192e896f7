"use strict";
// The run: states are rebuilt from what each record changed. Every level, need and handle was asked of the proved
// gatekeeper when the page was made; nothing is worked out here.

const STEPS = 32;
const PLACES = 16;
/** Things are known by their place: the steps, one for the freeze, then the files and pipes by rising number. */
const FREEZE = 32;
const FIRST = 33;
const NO_FREEZE = 16;
const READS = 1;
const WRITES = 2;
const MAPS = 3;
const FILE = 1;
/** From where on a number that goes with a step is the lowest one of a thread of the same step. */
const GROUP = 512;
/** A state is kept at every so many records. */
const EVERY = 256;

const DATA = JSON.parse(document.getElementById("run").textContent);
const RECORDS = DATA.records;
/** The numbers of files and pipes are texts, so that none is rounded. */
const OBJECTS = DATA.objects;
const THINGS = FIRST + OBJECTS.length;
/** Letters of a piece of what a record changed: a thing, a handle, and the shop marks of a thing. */
const OF_THING = 4;
const OF_HANDLE = 5;
const OF_SETS = 5;
/** The shop groups, and the set with the mark of each. */
const GROUPS = 8;
const ALL = 255;

class State {
  constructor() {
    this.kind = new Uint8Array(THINGS); // 0 not there; 1 a step or file; 2 a pipe
    this.level = new Uint8Array(THINGS);
    this.need = new Uint8Array(THINGS);
    this.shops = new Uint8Array(THINGS); // the set of its shop marks
    this.keeps = new Uint8Array(THINGS); // the set of those that it has to keep
    this.group = Uint8Array.from({ length: STEPS }, (_, step) => step);
    this.way = new Uint8Array(STEPS * PLACES);
    this.object = new Uint16Array(STEPS * PLACES);
    this.marked = new Uint8Array(STEPS * PLACES);
    this.freeze = NO_FREEZE;
  }

  copy() {
    const copy = new State();
    for (const field of ["kind", "level", "need", "shops", "keeps", "group", "way", "object", "marked"]) {
      copy[field].set(this[field]);
    }
    copy.freeze = this.freeze;
    return copy;
  }

  /** Makes the changes of a record. */
  apply(changes) {
    const [things, handles, sets] = changes === "" ? ["", "", ""] : [...changes.split("."), ""];
    for (let at = 0; at < things.length; at += OF_THING) {
      const number = unpacked(things, at, OF_THING);
      const [thing, stands] = [Math.floor(number / 768), number % 768];
      if (thing === FREEZE) {
        this.freeze = stands;
      } else if (thing < STEPS && stands >= GROUP) {
        this.group[thing] = stands - GROUP;
      } else {
        if (thing < STEPS) {
          this.group[thing] = thing;
        }
        this.kind[thing] = stands >> 8;
        this.level[thing] = (stands >> 4) & 15;
        this.need[thing] = stands & 15;
        // Where other sets do not stand at the end.
        this.shops[thing] = ALL;
        this.keeps[thing] = this.need[thing] > 0 ? ALL : 0;
      }
    }
    for (let at = 0; at < sets.length; at += OF_SETS) {
      const number = unpacked(sets, at, OF_SETS);
      this.shops[number >> 16] = (number >> 8) & 255;
      this.keeps[number >> 16] = number & 255;
    }
    for (let at = 0; at < handles.length; at += OF_HANDLE) {
      const number = unpacked(handles, at, OF_HANDLE);
      const place = number & 511;
      this.marked[place] = (number >> 9) & 1;
      this.way[place] = (number >> 10) & 3;
      this.object[place] = number >> 12;
    }
  }

  /** The running steps, threads of one step together: by the lowest number of each step, and in it by number. */
  steps() {
    const there = [];
    for (let step = 0; step < STEPS; step += 1) {
      if (this.kind[step] !== 0) {
        there.push(step);
      }
    }
    return there.sort((one, other) => this.group[one] - this.group[other] || one - other);
  }

  /** The other threads of the same step. */
  mates(step) {
    return this.steps().filter((other) => other !== step && this.group[other] === this.group[step]);
  }

  /** Calls with each handle: step, place, way, thing, marked. */
  handles(visit) {
    for (let place = 0; place < STEPS * PLACES; place += 1) {
      if (this.way[place] !== 0) {
        const step = Math.floor(place / PLACES);
        visit(step, place % PLACES, this.way[place], this.object[place], this.marked[place] === 1);
      }
    }
  }
}

const LETTERS = "ABCDEFGHIJKLMNOPQRSTUVWXYZabcdefghijklmnopqrstuvwxyz0123456789-_";
const DIGIT = new Uint8Array(128);
for (let at = 0; at < 64; at += 1) {
  DIGIT[LETTERS.charCodeAt(at)] = at;
}

/** The number of so many letters, six bits each. */
function unpacked(text, at, letters) {
  let number = 0;
  for (let next = at; next < at + letters; next += 1) {
    number = (number << 6) | DIGIT[text.charCodeAt(next)];
  }
  return number;
}

/** A record by its position, with the fields of its list named. */
function record(position) {
  const [letter, packed, code, changes, asked, why, ways, notes, changed, about, chain, sought, how] =
    RECORDS[position - 1];
  // With a level of the chain goes the set of the shop marks that are missing, with the value how many were lost.
  const links = pairs(chain).map(([thing, height]) => [thing, height & 255, ALL ^ (height >> 8)]);
  const said = { asked, why, ways, notes, changed, about, chain: links, sought: pairs(sought), how: how ?? [] };
  return { position, letter, value: packed & 255, lost: packed >> 8, code, changes, ...said };
}

function pairs(list) {
  const found = [];
  for (let at = 0; list !== undefined && at < list.length; at += 2) {
    found.push([list[at], list[at + 1]]);
  }
  return found;
}

/** States at every so many records, the refusals, the falls, and which things were ever at which level. */
const KEPT = [];
const REFUSED = [];
const LOWERED = [];
const EVER = Array.from({ length: 16 }, () => new Set());
/** What each thing was when it was last there: as State.kind. */
const KIND = new Uint8Array(THINGS);
(() => {
  const state = new State();
  for (let position = 0; position <= RECORDS.length; position += 1) {
    if (position > 0) {
      const [letter, , , changes] = RECORDS[position - 1];
      state.apply(changes);
      (letter === "R" ? REFUSED : letter === "L" ? LOWERED : []).push(position);
      if (letter === "R") {
        record(position).chain.forEach(([thing, level]) => EVER[level].add(thing));
      }
      for (let at = 0; at < changes.indexOf("."); at += OF_THING) {
        const thing = Math.floor(unpacked(changes, at, OF_THING) / 768);
        if (thing !== FREEZE && state.kind[thing] !== 0) {
          EVER[state.level[thing]].add(thing);
          KIND[thing] = state.kind[thing];
        }
      }
    }
    if (position % EVERY === 0) {
      KEPT.push(state.copy());
    }
  }
})();

/** The state after a record; after record 0 everything is empty. */
function stateAfter(position) {
  const state = KEPT[Math.floor(position / EVERY)].copy();
  for (let at = position - (position % EVERY) + 1; at <= position; at += 1) {
    state.apply(RECORDS[at - 1][3]);
  }
  return state;
}

/**
 * The records through which a thing came to the level that it has after a record, from the one with which the level came
 * in: [thing, record] each. Which record is the cause of which was found when the page was made.
 */
function causesOf(thing, position) {
  const isIt = ([place, , from, until]) => place === thing && from <= position && (until === 0 || position < until);
  const chain = [];
  let at = DATA.trail.findIndex(isIt);
  let record = position;
  while (at >= 0) {
    const [place, isFile, , , marks] = DATA.trail[at];
    let mark = -1;
    for (let next = 0; next < marks.length && marks[next] <= record; next += 3) {
      mark = next;
    }
    const isEnd = isFile === 1 && chain.length > 0;
    chain.unshift([place, marks[mark]]);
    [at, record] = isEnd ? [-1, 0] : [marks[mark + 1], marks[mark + 2]];
  }
  return chain;
}

/** The records that are about a thing, change it, or have it on their chain. */
function recordsOf(thing) {
  const found = [];
  for (let position = 1; position <= RECORDS.length; position += 1) {
    const [, , , changes, , , , , , about, chain] = RECORDS[position - 1];
    let isOf = about.includes(thing) || pairs(chain).some(([other]) => other === thing);
    for (let at = 0; !isOf && at < changes.indexOf("."); at += OF_THING) {
      isOf = Math.floor(unpacked(changes, at, OF_THING) / 768) === thing;
    }
    if (isOf) {
      found.push(position);
    }
  }
  return found;
}

// Words.

const NAMES = new Map();
for (const [kind, number, from, name] of DATA.names) {
  const key = `${kind} ${number}`;
  NAMES.set(key, (NAMES.get(key) ?? []).concat([[from, name]]));
}

/** The name of a thing at a record, or "". */
function nameOf(plain, position) {
  let name = "";
  for (const [from, given] of NAMES.get(plain) ?? []) {
    name = from <= position ? given || "" : name;
  }
  return name;
}

const KINDS = { s: "step", f: "file", p: "pipe", o: "file or pipe" };

/** What a shop group is called at a record. */
function shopOf(group, position) {
  return nameOf(`shop ${group}`, position) || `shop ${group}`;
}

/** The shop groups whose mark is in a set. */
function groupsOf(set) {
  return Array.from({ length: GROUPS }, (_, group) => group).filter((group) => (set >> group) & 1);
}

/** A set of shop marks in a sentence. */
function shopWords(set, position) {
  if (set === 0 || set === ALL) {
    return set === 0 ? "no shop marks" : "all shop marks";
  }
  const names = groupsOf(set).map((group) => shopOf(group, position));
  const last = names.pop();
  return names.length === 0 ? `the shop mark of ${last}` : `the shop marks of ${names.join(", ")} and ${last}`;
}

/** A sign for each shop group: the first letter of its name where no other group has it, or else its number. */
function shopSigns(position) {
  const firsts = Array.from({ length: GROUPS }, (_, group) => {
    const first = nameOf(`shop ${group}`, position).slice(0, 1).toUpperCase();
    return /^[A-Z]$/.test(first) ? first : "";
  });
  const isOwn = (first) => first !== "" && firsts.filter((other) => other === first).length === 1;
  return firsts.map((first, group) => (isOwn(first) ? first : String(group)));
}

/** A set of shop marks in a table: a sign for each that is there, and a dot for each that is not. */
function shopShort(set, position) {
  if (set === 0 || set === ALL) {
    return set === 0 ? "none" : "all";
  }
  return shopSigns(position).map((sign, group) => ((set >> group) & 1 ? sign : "·")).join("");
}

/** A text at the front of a sentence: with a capital, but that a name stays as it is, an article at its front apart. */
function capital(text) {
  const isFront = /^(?:(?:step|file|pipe|file or pipe) \d|(?:the|an?) )/.test(text);
  return isFront ? text[0].toUpperCase() + text.slice(1) : text;
}

/** A phrase written out: its words, with the numbers put in. */
function text(phrase, position) {
  let at = 0;
  const written = DATA.words[phrase[0]].replace(/\{([sfponlm])\}/g, (mark, sign) => {
    at += 1;
    const number = phrase[at];
    if (sign === "n") {
      return String(number);
    }
    if (sign === "l") {
      return ranges(number);
    }
    if (sign === "m") {
      return shopWords(number, position);
    }
    const plain = `${KINDS[sign]} ${number}`;
    const name = nameOf(plain, position);
    return name ? `${name} (${plain})` : plain;
  });
  return DATA.words[phrase[0]].startsWith("{") ? capital(written) : written;
}

/** Rising numbers in short: "1 to 4, 7". */
function ranges(list) {
  const parts = [];
  for (const number of list) {
    const last = parts.at(-1);
    if (last && number === last[1] + 1) {
      last[1] = number;
    } else {
      parts.push([number, number]);
    }
  }
  const word = ([first, last]) => `${first}${last - first > 1 ? " to " : ", "}${last}`;
  return parts.map((part) => (part[0] === part[1] ? String(part[0]) : word(part))).join(", ");
}

/** The number of a thing, as a text. */
function numberOf(thing) {
  return thing < STEPS ? String(thing) : OBJECTS[thing - FIRST];
}

/** What a thing is called without its name. */
function plainName(thing, state) {
  if (thing < STEPS) {
    return `step ${thing}`;
  }
  return `${state.kind[thing] === FILE ? "file" : "pipe"} ${numberOf(thing)}`;
}

/** What a thing is called at a record. */
function called(thing, state, position) {
  const plain = plainName(thing, state);
  const name = nameOf(plain, position);
  return name ? `${name} (${plain})` : plain;
}

/** The line that the program replies with. */
function replyLine({ position, code, letter, value, lost }) {
  return `${position} ${code} ${letter} ${value}${letter === "L" ? ` ${lost}` : ""}`;
}
