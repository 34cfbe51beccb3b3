/* The events by columns, and which of them are chosen.
 * Of each event there are its time, and the numbers of its action, outcome and parties. */

const PARTIES = ["initiator", "target", "observer"];
const OUTCOMES = ["failure", "pending", "unknown", "success"];
const MARKS = ["\u2715", "\u2026", "?", "\u2713"];
const conflicts = parts(member(data.listed, "conflicts"));
const rulings = parts(member(data.listed, "rulings"));
const isSettled = conflict => member(conflict, "ruled") !== undefined;
const unsettled = conflicts.filter(conflict => !isSettled(conflict));
const openValues = [], owners = [];   // the bodies of contradicted events, and which conflict each is of
conflicts.forEach((conflict, at) => {
  if (isSettled(conflict) || plain(member(conflict, "kind")) !== "E") return;
  for (const value of parts(member(conflict, "values"))) owners[openValues.push(value) - 1] = at;
});
const inLog = parts(member(data.log, "events"));
const events = inLog.concat(openValues);   // put in order of time below
const conflictOf = new Int32Array(events.length).fill(-1);   // of a body of a contradicted event its conflict
const isOpen = event => conflictOf[event] >= 0;

/** Folds a text for comparing alone: composed, and in small letters. */
const folded = string => (/[^\0-\x7f]/.test(string) ? string.normalize("NFC") : string).toLowerCase();

/** Numbers the distinct texts of a column in the order in which they come, of parties with their names. */
class Column {
  constructor(count = events.length) {
    Object.assign(this, {texts: [], names: [], others: [], first: [], at: new Int32Array(count), numbers: new Map(), ofParties: new Map(), ofTexts: new Map(), ofCells: new Map()});
  }
  /** Returns the number of an identifier with a name and perhaps another identifier. */
  number(string, name = "", other = "") {
    const known = name || other ? this.ofParties : this.numbers, key = name || other ? `${string.length} ${name.length} ${string}${name}${other}` : string;
    let number = known.get(key);
    if (number === undefined) {
      number = this.texts.push(string) - 1;
      known.set(key, number);
      this.names.push(name);
      this.others.push(other);
      if (!this.ofTexts.has(string)) this.ofTexts.set(string, number);
      this.first.push(this.ofTexts.get(string));   // that with the same identifier which came first
    }
    return number;
  }
  /** Returns the number of what a cell means; one that is shared is read once. */
  numberOf(cell, read) {
    if (typeof cell !== "number") return this.number(...read());
    let number = this.ofCells.get(cell);
    if (number === undefined) this.ofCells.set(cell, number = this.number(...read()));
    return number;
  }
  /** Returns the number of a party. */
  numberOfParty(holder, role) {
    const embedded = member(holder, role), other = member(holder, role + "Id");
    return this.numberOf(embedded === undefined ? other : other === undefined ? embedded : undefined, () => party(holder, role));
  }
  of(event) { return this.texts[this.at[event]]; }
  /** Counts the events of each number. */
  counts() {
    const counts = new Int32Array(this.texts.length);
    for (const number of this.at) counts[number]++;
    return counts;
  }
  /** Ranks what is shown, names before identifiers, so that sorting compares numbers. */
  ranks() {
    if (!this.ranked) {
      const shown = this.texts.map((string, number) => [this.names[number] || string, string]);
      const order = [...shown.keys()].sort((a, b) => compareTexts(shown[a][0], shown[b][0]) || compareTexts(shown[a][1], shown[b][1]));
      this.ranked = new Int32Array(order.length);
      order.forEach((number, rank) => { this.ranked[number] = rank; });
    }
    return this.ranked;
  }
  /** Marks the numbers that a filter lets pass: `=text` exactly, else those that have it in an identifier or a name. */
  passes(wanted) {
    const exact = wanted.startsWith("="), own = exact ? wanted.slice(1).normalize("NFC") : folded(wanted);
    const test = exact ? string => string === own || string.normalize("NFC") === own : string => folded(string).includes(own);
    return Uint8Array.from(this.texts, (string, number) => test(string) || this.names[number] && test(this.names[number]) || this.others[number] && test(this.others[number]) ? 1 : 0);
  }
}

const compareTexts = (a, b) => a < b ? -1 : Number(a > b);
const columns = {action: new Column(), outcome: new Column(), initiator: new Column(), target: new Column(), observer: new Column()};
const times = new Float64Array(events.length);
const outcomes = new Uint8Array(events.length);

/** Reads a time: the whole second, in milliseconds since 1970, and its fraction. */
function secondAnd(time) {
  const [, fraction, sign, hours, minutes] = /^.{19}(\.\d+)?(?:Z|([+-])(\d\d):(\d\d))$/.exec(time);
  const offset = sign ? (sign === "-" ? -1 : 1) * (Number(hours) * 60 + Number(minutes)) : 0;
  return [Date.parse(time.slice(0, 19) + "Z") - offset * 60000, Number(fraction || 0)];
}

/** Reads a time: its instant in milliseconds since 1970, that of a late fraction as the last 1/32 before the next second. */
function instant(time) {
  const [second, fraction] = secondAnd(time);
  return second + Math.min(fraction * 1000, 1000 - 1 / 32);
}

/** Writes an instant for reading, as exactly as its event has it. */
function utc(event) {
  const fraction = /\.\d+/.exec(plain(member(events[event], "eventTime")));
  return new Date(Math.floor(times[event] / 1000) * 1000).toISOString().slice(0, 19).replace("T", " ") + (fraction || "");
}

/** Returns what a party is known by: the identifier, the name, and an identifier beside it if there is one. */
function party(event, role) {
  const embedded = member(event, role), other = plain(member(event, role + "Id"));
  if (embedded === undefined) return [other, "", ""];
  const name = member(embedded, "name");
  return [plain(member(embedded, "id")), name !== undefined && isText(name) ? real(name) : "", other];
}

/** Compares texts by their characters' numbers, as the log has them in order. */
function byCharacters(a, b) {
  let at = 0;
  while (at < a.length && a[at] === b[at]) at++;
  const [one, other] = [a, b].map(string => at < string.length ? string.charCodeAt(at) : -1);
  return (one >= 0xd800 && other >= 0xd800 ? (one + 0x2000 & 0xffff) - (other + 0x2000 & 0xffff) : one - other) || 0;
}

/** Puts the bodies of contradicted events among the events of the log, in its order: by instant, identifier and text. */
function mergeOpen() {
  const exact = events.map(event => secondAnd(plain(member(event, "eventTime")))), before = events.slice(), idOf = at => plain(member(before[at], "id"));
  const compare = (a, b) => exact[a][0] - exact[b][0] || exact[a][1] - exact[b][1] || byCharacters(idOf(a), idOf(b)) || byCharacters(text(before[a]), text(before[b]));
  const order = before.map((_, at) => at).sort((a, b) => a < inLog.length && b < inLog.length ? a - b : compare(a, b));
  order.forEach((from, to) => { events[to] = before[from]; conflictOf[to] = from < inLog.length ? -1 : owners[from - inLog.length]; });
}

if (openValues.length) mergeOpen();
let fine = false;   // whether some time has more than microseconds
events.forEach((event, at) => {
  const outcome = plain(member(event, "outcome")), time = plain(member(event, "eventTime"));
  times[at] = instant(time);
  fine = fine || /\.\d{7}/.test(time);
  outcomes[at] = OUTCOMES.indexOf(outcome.split("/")[0]);
  const action = member(event, "action");
  columns.action.at[at] = columns.action.numberOf(action, () => [plain(action)]);
  columns.outcome.at[at] = columns.outcome.number(outcome);
  for (const role of PARTIES) columns[role].at[at] = columns[role].numberOfParty(event, role);
});

/* ---- What is chosen, and which events that leaves. ---- */

const TEXTS = ["search", "action", "initiator", "target", "observer", "via", "late"];   // the filters that are typed
const all = {...Object.fromEntries(TEXTS.map(name => [name, ""])), from: -Infinity, until: Infinity};
const chosen = {...all, outcomes: new Set([0, 1, 2, 3]), open: true, sort: "time", falling: false};
let passing = [];   // events that pass all but the range of time
let listed = [];    // those within the range, sorted
let hidden = [];    // bodies of contradicted events that pass, while they are switched off
const watchers = [];

const LONGEST_PATTERN = 64;   // characters of a text that a search begins with
const inPattern = unit => "\\u" + unit.charCodeAt(0).toString(16).padStart(4, "0");

/** A search for a text in all texts and member names, in either case; what is shared is looked at once. */
class Search {
  constructor(wanted) {
    this.wanted = folded(wanted);
    this.seen = new RegExp(this.wanted.slice(0, LONGEST_PATTERN).replace(/\W/g, inPattern) + "|[^\\0-\\x7f]", "i");   // a text in which it finds nothing hasn't the wanted one
    this.known = new Uint8Array(data.table.length);
    this.shapes = data.shapes.map(names => names.some(name => folded(name).includes(this.wanted)));
  }
  /** Tells whether a value has the text somewhere. */
  finds(cell) {
    if (typeof cell === "string") return this.seen.test(cell) && folded(cell).includes(this.wanted);
    if (typeof cell === "number") {
      if (!this.known[cell]) this.known[cell] = this.finds(data.table[cell]) ? 2 : 1;
      return this.known[cell] === 2;
    }
    if (typeof cell[0] === "string") return cell[0].includes(this.wanted);
    if (cell[0] && this.shapes[cell[0] - 1]) return true;
    for (let at = 1; at < cell.length; at++) {
      const part = cell[at], known = typeof part === "number" ? this.known[part] : 0;   // most parts are shared, and known
      if (known ? known === 2 : this.finds(part)) return true;
    }
    return false;
  }
}

const FIELDS = {   // what a word of a search may ask of: for a text a test of events
  ...Object.fromEntries(Object.keys(columns).map(name => [name, wanted => columnTest(columns[name], wanted)])),
  id: wanted => textTest(event => [plain(member(events[event], "id"))], wanted),
  type: wanted => textTest(event => [plain(member(events[event], "eventType"))], wanted),
  tag: wanted => textTest(event => parts(member(events[event], "tags")).map(plain), wanted),
  via: wanted => viaTest(wanted),
};

function columnTest(column, wanted) {
  const marks = column.passes(wanted);
  return event => marks[column.at[event]] === 1;
}

function textTest(textsOf, wanted) {
  const exact = wanted.startsWith("="), own = exact ? wanted.slice(1).normalize("NFC") : folded(wanted);
  return event => textsOf(event).some(string => exact ? string.normalize("NFC") === own : folded(string).includes(own));
}

const MOST_WORDS = 20;   // of a search: each is looked for in all that the others let pass

/** Lists the words of a search: `word`, `"two words"` and `field:word` are wanted, and with a `-` before them unwanted. */
function wordsOf(typed) {
  return [...typed.matchAll(/(-?)(?:([a-z]+):)?(?:(=?)"([^"]*)"?|([^\s"]\S*))/g)].map(([whole, minus, field, exact, quoted, bare]) => {
    const isField = field !== undefined && Object.hasOwn(FIELDS, field), word = quoted === undefined ? bare : exact + quoted;
    return {isWanted: !minus, field: isField ? field : "", word: isField || field === undefined ? word : whole.slice(minus.length).replaceAll('"', "")};
  });
}

/** Returns a test for a word of a search: of values, and of events where a field is named. */
function wordTest({isWanted, field, word}, cellOf) {
  if (field) {
    const test = FIELDS[field](word);
    return event => test(event) === isWanted;
  }
  const search = new Search(word);
  return item => cellOf(item).some(cell => search.finds(cell)) === isWanted;
}

/** Keeps those items of which a search finds each wanted word and no unwanted one in their values; a word of a field is for events alone. */
function searched(items, cellOf, areEvents = false) {
  for (const word of wordsOf(chosen.search).slice(0, MOST_WORDS)) {
    const test = wordTest(word.field && !areEvents ? {...word, field: ""} : word, cellOf);
    items = items.filter(test);
  }
  return items;
}

const DURATION = /^(\d{1,6})(s|min|h|d|w)$/, SECONDS = {s: 1, min: 60, h: 3600, d: 86400, w: 604800};

/** Returns how many seconds a text means, as `5min`; NaN if it is no duration. */
function durationOf(typed) {
  const [, count, unit] = DURATION.exec(typed) || [];
  return unit ? Number(count) * SECONDS[unit] : NaN;
}

/** Lists the events that pass all filters but the range of time, and those bodies of contradicted ones that do. */
function filtered() {
  const tests = Object.keys(columns).filter(name => chosen[name]).map(name => columnTest(columns[name], chosen[name])), late = durationOf(chosen.late);
  if (chosen.via) tests.push(viaTest(chosen.via));
  if (!Number.isNaN(late)) tests.push(event => lags()[event] >= late);
  const found = [];
  for (let event = 0; event < events.length; event++) {
    if (chosen.outcomes.has(outcomes[event]) && tests.every(test => test(event))) found.push(event);
  }
  return searched(found, event => [events[event]], true);
}

/** Sorts events by the chosen column; equal ones stay in the order of the log. */
function sorted(list) {
  const direction = chosen.falling ? -1 : 1;
  if (chosen.sort === "time") return chosen.falling ? list.reverse() : list;
  if (chosen.sort === "late") {
    const found = lags(), after = event => Number.isNaN(found[event]) ? -Infinity : found[event];
    return list.sort((a, b) => after(a) === after(b) ? a - b : direction * (after(a) < after(b) ? -1 : 1));
  }
  const {at} = columns[chosen.sort], ranks = columns[chosen.sort].ranks();
  return list.sort((a, b) => direction * (ranks[at[a]] - ranks[at[b]]) || a - b);
}

/** Works out again what is listed, and shows it. */
function update({filters = true} = {}) {
  if (filters) passing = filtered();
  const within = passing.filter(event => times[event] >= chosen.from && times[event] < chosen.until);
  hidden = chosen.open ? [] : within.filter(isOpen);
  listed = sorted(within.filter(isSwitchedOn));
  for (const show of watchers) show();
}

/** Tells whether an event isn't switched off as the body of a contradicted one. */
const isSwitchedOn = event => chosen.open || !isOpen(event);

/** Says how many bodies of how many contradicted events these are. */
function contradicted(bodies) {
  const keys = new Set(bodies.map(event => conflictOf[event])).size;
  return `${counted(bodies.length)} ${bodies.length === 1 ? "body" : "bodies"} of ${counted(keys)} contradicted ${keys === 1 ? "event" : "events"}`;
}

/** Sets filters from elsewhere on the page, and shows the events. */
function choose(filters) {
  Object.assign(chosen, filters);
  for (const input of document.querySelectorAll("[data-filter]")) input.value = named(chosen[input.dataset.filter]);
  update();
}
