/* Who did what to what: failures and events by initiator and target. */

/** Counts the listed events by initiator and target: failures first, then the most. */
function pairs() {
  const counts = new Map(), {initiator, target} = columns;
  for (const event of listed) {
    const who = initiator.first[initiator.at[event]], whom = target.first[target.at[event]], key = who * target.texts.length + whom;
    let pair = counts.get(key);
    if (!pair) counts.set(key, pair = {initiator: who, target: whom, by: [0, 0, 0, 0], actions: new Map(), all: 0, open: 0});
    const action = columns.action.at[event];
    pair.by[outcomes[event]]++;
    pair.all++;
    if (isOpen(event)) pair.open++;
    pair.actions.set(action, (pair.actions.get(action) || 0) + 1);
  }
  return [...counts.values()].sort((a, b) => b.by[0] - a.by[0] || b.all - a.all || a.initiator - b.initiator || a.target - b.target);
}

/** Draws how many events of each outcome there are, as a bar. */
function shares(by, most) {
  const picture = draw("svg", {class: "shares", viewBox: "0 0 100 8", preserveAspectRatio: "none", "aria-hidden": "true"});
  let x = 0;
  by.forEach((count, outcome) => {
    const width = count / most * 100;
    if (count) picture.append(draw("rect", {class: OUTCOMES[outcome], x, y: 0, width, height: 8}));
    x += width;
  });
  return picture;
}

/** Puts a party of a column into a cell, by name and identifier. */
function partyOf(cell, column, number) {
  const name = column.names[number], identifier = column.texts[number];
  if (name && name !== identifier) put(cell, cut(name, 200)).append(" ");
  return put(cell, cut(identifier, 300), name && name !== identifier ? "small" : "bdi");
}

/** Shows the events of a pair, or of the one side that it has. */
function showPair(pair) {
  const sides = ["initiator", "target"].filter(side => pair[side] !== undefined);
  choose(Object.fromEntries(sides.map(side => [side, "=" + columns[side].texts[pair[side]]])));
  showPanel("events");
}

/** Makes the row of a pair; it leads to its events. */
function pairRow(pair, most) {
  const {initiator, target, action} = columns;
  const often = [...pair.actions].sort((a, b) => b[1] - a[1] || a[0] - b[0]);
  const actions = make("td");
  often.slice(0, 3).forEach(([number, count], at) => put(actions, (at ? ", " : "") + cut(action.texts[number], 60)).append(" ", make("small", {}, counted(count))));
  if (often.length > 3) actions.append(` and ${counted(often.length - 3)} more`);
  const go = button(counted(pair.all), () => showPair(pair), {class: "link", "aria-label": counted(pair.all) + " events" + openWords(pair) + ": show them"});
  return make("tr", {}, partyOf(make("td", {class: "party"}), initiator, pair.initiator), partyOf(make("td", {class: "party"}), target, pair.target), actions,
    make("td", {class: "number" + (pair.by[0] ? " failed" : "")}, counted(pair.by[0])), make("td", {class: "number"}, ...openMark(pair), go), make("td", {class: "sharing"}, shares(pair.by, most)));
}

/** Adds up the pairs of each initiator or of each target: failures first, then the most. */
function sums(found, side) {
  const counts = new Map();
  for (const pair of found) {
    const number = pair[side];
    if (!counts.has(number)) counts.set(number, {[side]: number, by: [0], all: 0, open: 0});
    counts.get(number).by[0] += pair.by[0];
    counts.get(number).open += pair.open;
    counts.get(number).all += pair.all;
  }
  return [...counts.values()].sort((a, b) => b.by[0] - a.by[0] || b.all - a.all || a[side] - b[side]);
}

/** Says how many of a pair's events are bodies of contradicted ones. */
const openWords = pair => pair.open ? `, ${counted(pair.open)} of them bodies of contradicted events` : "";

/** Makes the mark of a pair that has such a body, or nothing. */
const openMark = pair => pair.open ? [make("span", {class: "badge open", title: openWords(pair).slice(2)}, "\u2260"), " "] : [];

/** Makes the cell of a matrix; darker where more failed. */
function matrixCell(pair) {
  if (!pair) return make("td");
  const failed = pair.by[0], depth = failed ? Math.min(5, 1 + Math.floor(Math.log10(failed) * 1.4)) : 0;
  const words = `${counted(pair.all)} events, ${counted(failed)} failed${openWords(pair)}`;
  const go = button("", () => showPair(pair), {title: words, "aria-label": words + ": show them"});
  go.append(...openMark(pair));
  if (failed) go.append(make("b", {}, counted(failed)), "/");
  go.append(counted(pair.all));
  return make("td", {class: "heat" + depth}, go);
}

const NAMES = {initiator: "Initiator", target: "Target"};

/** Makes the matrix of those initiators and targets that have most failures, the one side in rows, with their sums. */
function matrix(found, side, other) {
  const rows = sums(found, side).slice(0, 14), heads = sums(found, other).slice(0, 10);
  const cells = new Map(found.map(pair => [pair[side] + " " + pair[other], pair]));
  const label = (column, number, scope) => partyOf(make("th", {scope, title: cut(named(column.names[number] + "\n" + column.texts[number]), 400)}), column, number);
  const line = (head, sum, pairs) => make("tr", {}, head, matrixCell(sum), ...pairs.map(matrixCell));
  const corner = make("td", {class: "corner"}, `${NAMES[side]} \u2193 ${NAMES[other]} \u2192`);
  const top = make("tr", {}, corner, make("th", {scope: "col"}, "all"), ...heads.map(sum => label(columns[other], sum[other], "col")));
  const body = rows.map(sum => line(label(columns[side], sum[side], "row"), sum, heads.map(head => cells.get(sum[side] + " " + head[other]))));
  const all = {by: [found.reduce((before, pair) => before + pair.by[0], 0)], all: listed.length, open: listed.filter(isOpen).length};
  const marked = all.open ? " \u2260 marks bodies of contradicted events." : "";
  const caption = make("caption", {}, `Failures / events; a number leads to its events.${marked} ${counting()}`);
  return make("table", {class: "matrix"}, caption, make("thead", {}, top), make("tbody", {}, line(make("th", {scope: "row"}, "all"), all, heads), ...body));
}

/** Says of what the failures and events are counted. */
function counting() {
  const every = chosen.open ? events.length : inLog.length;
  return listed.length === every ? `All ${counted(every)} events are counted.`
    : `Only the ${counted(listed.length)} events of ${counted(every)} that pass the filters are counted.`;
}

/** Makes the panel of pairs. */
function pairsPanel(panel) {
  const body = make("tbody"), top = make("div", {class: "pages"}), square = make("div", {class: "scroll"});
  let sides = ["initiator", "target"], found = [], most = 1;
  const heads = heading(["Initiator", "Target", "Actions", "Failures", "Events", "By outcome"], ["Failures", "Events"]);
  const table = make("table", {class: "pairs"}, make("caption", {class: "unseen"}, "Initiators and targets"), heads, body);
  const list = paged(50, top, body, pair => pairRow(pair, most));
  const draw = () => square.replaceChildren(found.length ? matrix(found, ...sides) : make("p", {class: "none"}, whyNone()));
  const note = make("div");
  const show = () => {
    if (panel.hidden) return;
    found = pairs();
    note.replaceChildren(openNote());
    most = found.reduce((before, pair) => Math.max(before, pair.all), 1);
    draw();
    list(found);
  };
  watchers.push(show);
  panel.append(button("Swap rows and columns", () => { sides.reverse(); draw(); }, {id: "swap"}), note, square, top, make("div", {class: "scroll"}, table));
  return show;
}
