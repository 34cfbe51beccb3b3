/* The timeline: events by time and outcome, values of open conflicts below, and the range that is selected. */

const SECOND = 1e3, MINUTE = 6e4, HOUR = 36e5, DAY = 864e5, YEAR = 315576e5, MONTH = YEAR / 12;
const multiples = (unit, ...counts) => counts.map(count => count * unit);
const STEPS = [...multiples(1, 1, 2, 5, 10, 20, 50, 100, 200, 500), ...multiples(SECOND, 1, 2, 5, 10, 30),
  ...multiples(MINUTE, 1, 2, 5, 10, 30), ...multiples(HOUR, 1, 2, 3, 6, 12), ...multiples(DAY, 1, 2, 7),
  ...multiples(YEAR, 1 / 12, 1 / 4, 1, 2, 5, 10, 50, 100, 500, 1000)];
const HIGH = 124, BASE = 104, TOP = 15;
let wide = 1200;   // of the drawing, in pixels
const timeline = {from: 0, until: 1, step: 1e3, bins: [], anchor: null, cursor: null};

/** Returns the round borders between which a span of time is drawn, and the step of a bin. */
function frameOf(first, last) {
  const step = STEPS.find(each => (last - first) / each < wide / 8) || STEPS[STEPS.length - 1];
  const from = Math.floor(first / step) * step;
  return {from, until: Math.max(from + step, (Math.floor(last / step) + 1) * step), step};
}

/** Sets the time that is drawn. */
function frame(first, last) {
  Object.assign(timeline, frameOf(first, last), {anchor: null, cursor: null});
}

/** Frames the whole log, with some room around few events. */
function frameAll() {
  const first = times[0] || 0, last = times[times.length - 1] || 0;
  const room = Math.max(0, (10000 - (last - first)) / 2);
  frame(first - room, last + room);
}

/** Counts passing events by bin and outcome. */
function binned() {
  const bins = Array.from({length: Math.round((timeline.until - timeline.from) / timeline.step)}, () => [0, 0, 0, 0]);
  for (const event of passing) {
    if (!isSwitchedOn(event)) continue;
    const bin = bins[Math.floor((times[event] - timeline.from) / timeline.step)];
    if (bin) bin[outcomes[event]]++;
  }
  return bins;
}

const total = bin => bin[0] + bin[1] + bin[2] + bin[3];
const stamp = time => Math.abs(time) <= 864e13 ? new Date(time).toISOString().replace("T", " ").replace(/(:00)?\.000Z$/, "").replace(/Z$/, "") : "";
const day = time => stamp(time).replace(/ 00:00$/, "");

/** Lists the borders that are so far apart; months and years begin where the calendar has them. */
function borders(from, until, every) {
  const months = Math.round(every / MONTH), found = [];
  if (every < MONTH) {
    for (let time = Math.ceil(from / every) * every; time < until; time += every) found.push(time);
    return found;
  }
  const begin = new Date(from), first = Math.floor((begin.getUTCFullYear() * 12 + begin.getUTCMonth()) / months) * months;
  for (let month = first, time = NaN; !(time >= until); month += months) {
    time = new Date(0).setUTCFullYear(Math.floor(month / 12), month % 12, 1);
    if (time >= from && time < until) found.push(time);
  }
  return found;
}

/** Writes the label of a border, without what the label before has told; a month or a year alone where labels are so far apart. */
function label(time, before, every) {
  if (every >= MONTH) return every >= YEAR ? String(new Date(time).getUTCFullYear()) : day(time).slice(0, -3);
  if (before === null || stamp(time).slice(0, 10) !== stamp(before).slice(0, 10)) return day(time);
  return stamp(time).slice(11);
}

/** Draws a bin: a column of its outcomes, failures lowest. */
function bar(bin, at, width, most) {
  const column = draw("g");
  let top = BASE;
  bin.forEach((count, outcome) => {
    if (!count) return;
    const height = Math.max(1.2, count / most * (BASE - TOP));
    top -= height;
    column.append(draw("rect", {class: OUTCOMES[outcome], x: at * width + 0.4, y: top, width: Math.max(1, width - 0.8), height}));
  });
  const time = timeline.from + at * timeline.step;
  column.append(draw("title", {}, span(time, time + timeline.step) + "\n" + words(bin)));
  return column;
}

/** Draws below the bars when bodies of contradicted events say that they happened, of those that pass. */
function openStrip(width) {
  const counts = new Map(), group = draw("g");
  for (const event of passing.filter(isOpen)) {
    const at = Math.floor((times[event] - timeline.from) / timeline.step);
    if (at >= 0 && at < timeline.bins.length) counts.set(at, (counts.get(at) || 0) + 1);
  }
  const most = Math.max(1, ...counts.values());
  for (const [at, count] of counts) {
    const box = {x: at * width + 0.4, y: BASE + 1.5, width: Math.max(1, width - 0.8), height: 3.5, opacity: 0.3 + 0.7 * count / most};
    group.append(draw("rect", {class: "conflicted", ...box}, draw("title", {}, `${counted(count)} bodies of contradicted events`)));
  }
  return group;
}

/** Draws the labels of a frame below its bars. */
function axis({from, until}, base) {
  const group = draw("g", {class: "axis"});
  const every = STEPS.find(step => (until - from) / step <= wide / (step < MONTH ? 120 : 60)) || STEPS[STEPS.length - 1];
  let before = null;
  for (const time of borders(from, until, every)) {
    const x = (time - from) / (until - from) * wide;
    group.append(draw("line", {x1: x, x2: x, y1: base, y2: base + 16}));
    const said = label(time, before, every);
    if (x + 3 + 6 * said.length < wide) group.append(draw("text", {x: x + 3, y: base + 16}, said));
    before = time;
  }
  return group;
}

/** Returns the round numbers of events at which a level is drawn, two to five of them if there are so many events. */
function levels(most) {
  const power = 10 ** Math.floor(Math.log10(most)), step = [power / 5, power / 2, power, 2 * power].find(each => each >= 1 && most / each <= 5) || 1;
  return Array.from({length: Math.floor(most / step)}, (_, at) => (at + 1) * step);
}

/** Draws how many events a height is: beside the drawing if there is room, or within it. */
function scale(most) {
  const group = draw("g", {class: "axis scale"}), isBeside = id("histogram").getBoundingClientRect().left >= 26;
  for (const level of levels(most)) {
    const y = BASE - level / most * (BASE - TOP), place = isBeside ? {x: -4, y: y + 3, "text-anchor": "end"} : {x: 2, y: y - 2};
    group.append(draw("line", {class: "level", x1: 0, x2: wide, y1: y, y2: y}), draw("text", place, level.toLocaleString("en", {notation: "compact"})));
  }
  return group;
}

/** Draws the timeline again. */
function drawTimeline() {
  wide = id("histogram").clientWidth || wide;
  timeline.bins = binned();
  const most = Math.max(1, ...timeline.bins.map(total)), width = wide / timeline.bins.length;
  const picture = draw("svg", {viewBox: `0 0 ${wide} ${HIGH}`, "aria-hidden": "true"});
  const front = Math.max(timeline.from, chosen.from), back = Math.min(timeline.until, chosen.until);
  if (chosen.from > -Infinity || chosen.until < Infinity) {
    const place = time => (time - timeline.from) / timeline.step * width;
    picture.append(draw("rect", {class: "range", x: place(front), y: 0, width: Math.max(0, place(back) - place(front)), height: BASE}));
  }
  picture.append(draw("line", {class: "ground", x1: 0, x2: wide, y1: BASE, y2: BASE}));
  timeline.bins.forEach((bin, at) => {
    const time = timeline.from + at * timeline.step, column = total(bin) ? bar(bin, at, width, most) : null;
    if (column && (time + timeline.step <= chosen.from || time >= chosen.until)) column.setAttribute("class", "faint");
    if (column) picture.append(column);
  });
  picture.append(openStrip(width), scale(most), axis(timeline, BASE));
  id("histogram").replaceChildren(picture);
  const open = passing.filter(event => isOpen(event) && times[event] >= timeline.from && times[event] < timeline.until);
  id("highest").textContent = `${words(sum(timeline.bins))}; at most ${counted(most)} in ${length(timeline.step)}`
    + (open.length ? `; ${chosen.open ? "among them" : "not among them"} ${contradicted(open)}, as the line below shows` : "");
  sayRange();
  id("from").value = chosen.from > -Infinity ? day(chosen.from) : "";
  id("until").value = chosen.until < Infinity ? day(chosen.until) : "";
}

/** Names a length of time. */
function length(step) {
  const units = [[31557600e3, "year"], [26298e5, "month"], [6048e5, "week"], [864e5, "day"], [36e5, "hour"], [6e4, "minute"], [1e3, "second"], [1, "millisecond"]];
  const [unit, name] = units.find(([each]) => step >= each && step % each === 0) || units[units.length - 1];
  return step / unit === 1 ? "a " + name : counted(step / unit) + " " + name + "s";
}

const span = (from, until) => day(from) + " \u2013 " + day(until);
const sum = bins => OUTCOMES.map((_, outcome) => bins.reduce((before, bin) => before + bin[outcome], 0));
const words = bin => bin.map((count, outcome) => count ? counted(count) + " " + OUTCOMES[outcome] : "").filter(Boolean).join(", ") || "no event";

/** Says for those who don't see it what is selected, as the value of a slider over the bins. */
function sayRange() {
  const {anchor, cursor, bins} = timeline, whole = cursor === null;
  const [first, last] = whole ? [0, bins.length - 1] : [Math.min(anchor, cursor), Math.max(anchor, cursor)];
  const range = span(timeline.from + first * timeline.step, timeline.from + (last + 1) * timeline.step);
  const said = {"aria-valuemin": 0, "aria-valuemax": bins.length - 1, "aria-valuenow": cursor || 0,
    "aria-valuetext": (whole ? "all: " : "") + range + ": " + words(sum(bins.slice(first, last + 1)))};
  for (const [name, value] of Object.entries(said)) id("histogram").setAttribute(name, value);
}

/** Selects the bins from one to another. */
function select(one, other) {
  chosen.from = timeline.from + Math.min(one, other) * timeline.step;
  chosen.until = timeline.from + (Math.max(one, other) + 1) * timeline.step;
  update({filters: false});
}

/** Selects all time. */
function selectAll() {
  Object.assign(chosen, {from: -Infinity, until: Infinity});
  frameAll();
  update({filters: false});
}

/** Draws the selected time alone. */
function zoom() {
  if (chosen.from === -Infinity && chosen.until === Infinity) return;
  frame(Math.max(chosen.from, timeline.from), Math.min(chosen.until, timeline.until) - 1);
  update({filters: false});
}

/** Returns the instant that a text is, in UTC; NaN if it is none. A month and a day are their beginning. */
function timeOf(typed) {
  const whole = typed.replace(" ", "T").replace(/^(\d{4}-\d\d)$/, "$1-01").replace(/^(\d{4}-\d\d-\d\d)$/, "$1T00:00"), time = Date.parse(whole.replace(/Z?$/, "Z"));
  return /^\d{4}-\d\d/.test(typed) && stamp(time).startsWith(typed.slice(0, 10)) ? time : NaN;   // a browser takes "5", and a 30th of February
}

/** Reads the borders of the range as they are typed. */
function typedRange() {
  const read = (name, none) => {
    const typed = id(name).value.trim(), time = timeOf(typed), isTime = !Number.isNaN(time);
    id(name).setAttribute("aria-invalid", typed !== "" && !isTime);
    return isTime ? time : none;
  };
  Object.assign(chosen, {from: read("from", -Infinity), until: read("until", Infinity)});
  timeline.anchor = timeline.cursor = null;
  update({filters: false});
}

/** Moves the selection by keys. */
function timelineKey(event) {
  const end = timeline.bins.length;
  const move = {ArrowLeft: -1, ArrowDown: -1, ArrowRight: 1, ArrowUp: 1, PageUp: 10, PageDown: -10, Home: -end, End: end}[event.key];
  if (event.key === "Enter") zoom();
  else if (event.key === "Escape") selectAll();
  else if (move === undefined) return;
  else {
    const start = timeline.cursor === null ? (move > 0 ? -1 : end) : timeline.cursor;
    timeline.cursor = Math.min(end - 1, Math.max(0, start + move));
    if (!event.shiftKey || timeline.anchor === null) timeline.anchor = timeline.cursor;
    select(timeline.anchor, timeline.cursor);
  }
  event.preventDefault();
}

/** Lets the pointer select. */
function timelinePointer() {
  const box = id("histogram");
  const at = event => {
    const {left, width} = box.firstChild.getBoundingClientRect();
    return Math.min(timeline.bins.length - 1, Math.max(0, Math.floor((event.clientX - left) / width * timeline.bins.length)));
  };
  box.addEventListener("pointerdown", event => {
    if (event.button) return;
    timeline.anchor = timeline.cursor = at(event);
    box.setPointerCapture(event.pointerId);
    select(timeline.anchor, timeline.cursor);
  });
  box.addEventListener("pointermove", event => {
    if (!box.hasPointerCapture(event.pointerId) || at(event) === timeline.cursor) return;
    timeline.cursor = at(event);
    select(timeline.anchor, timeline.cursor);
  });
  box.addEventListener("dblclick", zoom);
  box.addEventListener("keydown", timelineKey);
}

/** Makes the mark of an outcome. */
const chip = outcome => make("span", {class: "chip " + OUTCOMES[outcome], "aria-hidden": "true"}, MARKS[outcome]);

/** Makes a switch with a mark, a name and a count. */
function toggle(checked, mark, name, count, action) {
  const box = make("input", {type: "checkbox"});
  box.checked = checked;
  box.addEventListener("change", () => { action(box.checked); update(); });
  return make("label", {class: "switch"}, box, mark, " " + name + " ", make("b", {}, counted(count)));
}

/** Makes the switches of outcomes, and one for bodies of contradicted events. */
function switches() {
  const counts = [0, 0, 0, 0];
  outcomes.forEach((outcome, event) => { if (isSwitchedOn(event)) counts[outcome]++; });
  const turn = outcome => on => chosen.outcomes[on ? "add" : "delete"](outcome);
  const made = OUTCOMES.map((name, outcome) => toggle(chosen.outcomes.has(outcome), chip(outcome), name, counts[outcome], turn(outcome)));
  const strip = make("span", {class: "chip conflicted"}), turnOpen = on => {
    chosen.open = on;
    switches();
    id("outcomes").querySelector("label:last-of-type input").focus();
  };
  made.push(button("Only failures", () => {
    chosen.outcomes = new Set([0]);
    switches();
    update();
    id("outcomes").querySelector("button").focus();
  }, {class: "small"}));
  if (openValues.length) made.push(toggle(chosen.open, strip, "contradicted", openValues.length, turnOpen));
  id("outcomes").replaceChildren(id("outcomes").firstElementChild, ...made);
}
