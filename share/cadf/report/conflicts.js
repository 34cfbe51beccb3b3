/* Conflicts and rulings: what differs, side by side, and which values a person chooses. */

const KINDS = {E: "event", R: "resource", G: "geolocation", M: "metric", P: "property", C: "chain", T: "tag", A: "attachment", U: "ruling"};
const kindsOf = kind => KINDS[kind].replace(/y$/, "ie") + "s";
const BESIDE = new Set(["id", "typeURI", "reporterchain", "reporterchains", "tags", "attachments"]);
const kindOf = at => plain(member(conflicts[at], "kind")), keyOf = at => plain(member(conflicts[at], "key"));
const ruledKeys = new Map();   // the digests that are ruled, by kind and key
for (const ruling of rulings) {
  const [kind, key, digest] = parts(ruling).map(plain), name = kind + key;
  ruledKeys.set(name, (ruledKeys.get(name) || new Set()).add(digest));
}
const ruledOf = at => ruledKeys.get(kindOf(at) + keyOf(at)) || new Set();

/** Lists all values of a conflict by place, each with its digest and whether it is ruled, and shown for that. */
function valuesOf(at) {
  const ruled = plain(member(conflicts[at], "ruled")), others = parts(member(conflicts[at], "values")).values(), ofKey = ruledOf(at);
  return data.digests[at].map((digest, index) => {
    const shown = digest === ruled && data.shown[at] !== 0;
    return {value: shown ? data.shown[at][0] : others.next().value, place: index + 1, digest, ruled: ofKey.has(digest), shown};
  });
}

/* A path is the numbers of its names and places: with the names themselves, a long one would be in each path below it. */
const pathNames = [], pathNumbers = new Map();
const namesOf = path => path.split("/").slice(1).map(number => pathNames[number]);

/** Makes a path one step longer. */
function stepped(path, name) {
  if (!pathNumbers.has(name)) pathNumbers.set(name, pathNames.push(name) - 1);
  return `${path}/${pathNumbers.get(name)}`;
}

/** Writes a path, cut off where it is long. */
function pathText(path) {
  let written = "";
  for (const name of namesOf(path)) {
    const short = cut(String(name), 200);
    if (typeof name === "number") written += `[${name}]`;
    else written += /^[\w:-]+$/.test(short) ? (written ? "." : "") + short : `[${JSON.stringify(short)}]`;
    if (written.length > 600) break;
  }
  return cut(written || "value", 600);
}

/** Lists a value's leaves by their paths: the empty path is that of the value itself. */
function leaves(cell, path = "", found = new Map(), skipped = new Set()) {
  const inside = entries(cell).filter(([name]) => !skipped.has(name));
  if (!inside.length) found.set(path, text(cell));
  for (const [name, part] of inside) {
    leaves(part, stepped(path, name), found);
  }
  return found;
}

/** Compares values path by path: those that differ, and those that are the same in all. */
function compared(values, isEvent) {
  const flat = values.map(({value}) => leaves(value, "", new Map(), isEvent ? BESIDE : new Set()));
  const counts = new Map();   // of each path, how many values have there what the first has
  for (const each of flat) for (const [path, string] of each) counts.set(path, (counts.get(path) || 0) + Number(string === flat[0].get(path)));
  const texts = new Map([...counts.keys()].map(path => [path, pathText(path)])), same = path => counts.get(path) === flat.length;
  const paths = [...texts.keys()].sort((a, b) => Number(texts.get(a) > texts.get(b)) - Number(texts.get(a) < texts.get(b)));
  return {flat, differing: paths.filter(path => !same(path)), equal: paths.filter(same)};
}

/** Names who reported an event by a chain, from the first to the last. */
const route = chain => parts(chain).map(step => { const [identifier, name] = party(step, "reporter"); return name || identifier; }).join(" \u2192 ");

/** Makes the cell that says what came with a value: its chains, and how many tags and attachments. */
function cameCell(value) {
  const made = make("td", {class: "minor came"}), chains = chainsOf(value);
  for (const chain of chains.slice(0, 3)) put(made, cut(route(chain), 200), "div");
  if (chains.length > 3) made.append(make("div", {}, `and ${counted(chains.length - 3)} more chains`));
  for (const [name, list] of [["tag", "tags"], ["attachment", "attachments"]]) {
    const count = parts(member(value, list)).length;
    if (count) made.append(make("div", {}, `${counted(count)} ${name}${count > 1 ? "s" : ""}`));
  }
  if (!made.childElementCount) made.append("nothing");
  return made;
}

/** Cuts a text between two places, and no character in two. */
function piece(string, from, until) {
  const half = at => at > 0 && /[\udc00-\udfff]/.test(string[at] || "") ? 1 : 0;
  return string.slice(from - half(from), until - half(until));
}

/** Returns how many characters all texts have in common at their front, or at their back behind some at the front. */
function common(texts, most, at) {
  let count = 0;
  while (count < most && texts.every(each => at(each, count) === at(texts[0], count))) count++;
  return count;
}

/** Puts a text into an element with the part marked that is not common to all; long common parts are left out. */
function putMarked(element, string, front, back) {
  const end = string.length - back, start = Math.max(0, front - 80), stop = Math.min(end, front + 2000);
  put(element, (start ? "\u2026" : "") + piece(string, start, front));
  if (end > front) put(element, piece(string, front, stop), "mark");
  put(element, stop < end ? `\u2026 (${counted(string.length)} characters)` : piece(string, end, Math.min(string.length, end + 200)) + (back > 200 ? "\u2026" : ""));
  return element;
}

/** Makes a row of a comparison. */
function comparison(path, flat, differs) {
  const present = flat.filter(each => each.has(path)).map(each => each.get(path));
  const least = present.reduce((least, each) => Math.min(least, each.length), Infinity), many = differs && present.length > 1;
  const front = many ? common(present, least, (each, count) => each[count]) : 0;
  const back = many ? common(present, least - front, (each, count) => each[each.length - 1 - count]) : 0;
  const cell = each => {
    if (!each.has(path)) return make("td", {class: "absent"}, "absent");
    return many ? putMarked(make("td"), each.get(path), front, back) : put(make("td"), cut(each.get(path), 2000));
  };
  return make("tr", {class: differs ? "differs" : ""}, put(make("th", {scope: "row"}), pathText(path)), ...flat.map(cell));
}

/* ---- Choices. ---- */

const choices = new Map();   // of a conflict the place of the value that is chosen
const choiceWatchers = [];

/** Chooses values, by conflict; none where the place is 0. */
function chooseValues(pairs) {
  for (const [at, place] of pairs) place ? choices.set(at, place) : choices.delete(at);
  for (const show of choiceWatchers) show();
}

/** Spells a text in JSON that any file, terminal and shell takes within single quotes. */
const inAscii = string => JSON.stringify(string).replace(/[^ -~]|'/g, escaped);

/** Writes the line that `cadf-conflicts --rule` takes for a value. */
const choiceLine = (at, place) => `${kindOf(at)} ${inAscii(keyOf(at))} ${place} ${data.digests[at][place - 1]}`;

/** Writes the command that makes the ruling of one value. */
const command = (at, place) => `printf '%s\\n' '${choiceLine(at, place)}' | cadf-conflicts --rule /dev/stdin SITE >rulings.cadf`;

/** Writes the file of all choices, in the order of the conflict list. */
function choicesFile() {
  const head = `# Choices for the log ${inAscii(plain(member(data.log, "id")))}, by the conflict list ${id("conflict-digest").textContent}\n`;
  return head + [...choices].sort((a, b) => a[0] - b[0]).map(([at, place]) => choiceLine(at, place) + "\n").join("");
}

/** Hands the file of all choices to the browser to be saved. */
function saveChoices() {
  save("choices.txt", "text/plain", [choicesFile()]);
}

/** Names what tells a conflict's values apart: what they have at the paths at which they differ, and who reported them. */
function tellings(at) {
  const count = valuesOf(at).length, some = paths[at].slice(0, Math.max(20, Math.floor(20000 / count)));   // so many values may part in as many paths
  const named = some.map(path => [path, valuesOf(at).map(({value}) => told(value, path))]);
  const found = valuesOf(at).map((_, index) => new Map(named.map(([path, values]) => [JSON.stringify([path, values[index]]), [pathText(path), values[index]]])));
  if (kindOf(at) === "E") valuesOf(at).forEach(({value}, index) => {
    for (const step of chainsOf(value).flatMap(parts)) {
      const [identifier, name] = party(step, "reporter");
      found[index].set(JSON.stringify([identifier]), ["reporter", name || identifier]);
    }
  });
  return found;
}

/** Returns the text of what a value has at a path. */
function told(value, path) {
  const cell = namesOf(path).reduce((inner, name) => inner === undefined ? undefined : typeof name === "number" ? parts(inner)[name] : member(inner, name), value);
  return cell === undefined ? "absent" : text(cell);
}

/** Counts by what one value alone of a conflict can be told, over conflicts: the most useful first. */
function criteria(members) {
  const found = new Map();
  for (const at of members) {
    if (ruledOf(at).size) continue;
    const each = tellings(at), counts = new Map();
    each.forEach((keys, index) => { for (const key of keys.keys()) counts.set(key, counts.has(key) ? 0 : index + 1); });
    for (const [key, place] of counts) {
      if (!place) continue;
      if (!found.has(key)) found.set(key, {words: each[place - 1].get(key), places: []});
      found.get(key).places.push([at, place]);
    }
  }
  return [...found.values()].sort((a, b) => b.places.length - a.places.length).slice(0, 40);
}

/** Makes what chooses values in all listed conflicts; `listed` returns those. */
function bulkChoice(listed) {
  const select = make("select", {"aria-label": "What the values to choose have"}), said = make("span", {role: "status", class: "minor"});
  let found = [];
  const fill = () => {
    found = criteria(listed());
    select.replaceChildren(...found.map(({words: [name, value], places}, at) =>
      make("option", {value: at}, named(cut(`${name}${name === "reporter" ? ": " : " is "}${value}`, 90)) + ` (${counted(places.length)})`)));
    select.disabled = go.disabled = !found.length;
    said.textContent = "";
  };
  const go = button("Choose in all that are listed", () => {
    const {places} = found[select.value];
    chooseValues(places);
    said.textContent = `${counted(places.length)} chosen of ${counted(listed().length)} listed`;
  });
  return {element: make("div", {class: "bar"}, make("label", {}, "The value whose ", select), go, said), fill};
}

/** Makes what saves and clears the choices. */
function choiceBar() {
  const count = make("b"), save = button("Save the choices", saveChoices, {id: "save"});
  const copy = button("Copy", () => navigator.clipboard.writeText(choicesFile()).catch(() => { count.textContent = "This browser doesn't copy: save instead. "; }));
  const clear = button("Clear", () => chooseValues([...choices.keys()].map(at => [at, 0])));
  const show = () => {
    count.textContent = `${counted(choices.size)} chosen`;
    for (const each of [save, copy, clear]) each.disabled = !choices.size;
  };
  choiceWatchers.push(show);
  show();
  return make("div", {class: "bar chosen"}, make("span", {role: "status", id: "chosen"}, count), save, copy, clear,
    make("span", {class: "minor"}, "then ", make("code", {}, "cadf-conflicts --rule choices.txt SITE >rulings.cadf"), " and ", make("code", {}, "cadf-take SITE rulings.cadf")));
}

/* ---- The comparison. ---- */

/** Makes the head of a value: its place, what chooses it if one may, and what a ruling says of it. */
function valueHead(at, {place, ruled, shown}, mayChoose) {
  const made = make("th", {scope: "col"}), name = `value ${place}`;
  if (!mayChoose || ruledOf(at).size) made.append(name);
  else {
    const pick = make("input", {type: "radio", name: "choice-" + at, value: place, "aria-label": `Choose ${name} of ` + cut(named(keyOf(at)), 80)});
    pick.checked = choices.get(at) === place;
    pick.addEventListener("change", () => chooseValues([[at, place]]));
    made.append(make("label", {class: "pick"}, pick, " " + name));
  }
  if (shown) made.append(" ", make("span", {class: "badge settled"}, "ruled, shown in the log"));
  else if (ruled) made.append(" ", make("span", {class: "badge open"}, "ruled"));
  return made;
}

const COLUMNS = 6, PATTERNS = 10;

/** Makes the comparison of values of a kind, some at a time, each below its head. */
function compareTable(kind, values, from, turn, head) {
  const isEvent = kind === "E", result = compared(values, isEvent);
  const some = values.slice(from, from + COLUMNS), flat = result.flat.slice(from, from + COLUMNS);
  const body = make("tbody", {}, ...result.differing.slice(0, 500).map(path => comparison(path, flat, true)));
  const foot = make("tfoot");
  if (result.differing.length > 500) foot.append(make("tr", {}, make("td", {colspan: some.length + 1, class: "minor"}, `and ${counted(result.differing.length - 500)} more paths`)));
  if (isEvent) foot.append(make("tr", {}, make("th", {scope: "row"}, "came with it"), ...some.map(({value}) => cameCell(value))));
  const heads = make("thead", {}, make("tr", {}, make("th", {scope: "col"}, "path"), ...some.map(head)));
  const made = make("div", {}, make("div", {class: "scroll"}, make("table", {class: "compare"}, make("caption", {class: "unseen"}, "Values side by side"), heads, body, foot)));
  if (values.length > COLUMNS) made.prepend(pager(values.length, COLUMNS, from / COLUMNS, page => turn(page * COLUMNS)));
  return [made, result];
}

/** Makes the comparison of a contradicted event's values that stands above one of them, and what leads to the choice among them. */
function sideBySide(at) {
  const values = valuesOf(at), made = make("div");
  const lead = button("Choose among them", () => showConflict(at), {class: "small"});
  const show = from => made.replaceChildren(titled(`Contradicted: ${counted(values.length)} values, of which the log shows none`, compareTable("E", values, from, show, value => valueHead(at, value, false))[0], lead));
  show(0);
  return made;
}

/** Makes a value in full, with the line that rules for it alone. */
function fullValue(at, {value, place}) {
  const string = command(at, place), made = titled(`Value ${place}`, kindOf(at) === "E" ? detail(value) : block(value));
  if (!ruledOf(at).size) made.append(make("p", {class: "command"}, "to rule for it alone: ", make("code", {tabindex: 0}, string), " ", copier(() => string)));
  return made;
}

/** Makes what can be opened of a conflict: the parts that are the same, and each value in full. */
function conflictMore(at, values, {equal, flat}) {
  const more = make("details", {}, make("summary", {}, `${equal.length} ${equal.length === 1 ? "path is" : "paths are"} the same; values in full, and commands`));
  more.addEventListener("toggle", () => {
    if (more.childElementCount > 1) return;
    more.append(make("table", {class: "compare"}, make("caption", {class: "unseen"}, "Paths that are the same"), make("tbody", {}, ...equal.slice(0, 500).map(path => comparison(path, flat.slice(0, 1), false)))));
    more.append(...values.slice(0, 20).map(value => fullValue(at, value)));
    if (values.length > 20) more.append(make("p", {class: "minor"}, `and ${counted(values.length - 20)} more values`));
  });
  return more;
}

/** Says what a conflicted event is about, as its first value has it. */
function about(value) {
  const made = make("p", {class: "minor about"}), short = role => { const [identifier, name] = party(value, role); return cut(name || identifier, 40); };
  put(made, plain(member(value, "eventTime")).replace("T", " "));
  put(put(made, cut(plain(member(value, "action")), 40)), short("initiator")).append(" \u2192 ");
  return put(made, short("target"));
}

/** Says in what state a conflict is, in a class and in words. */
function stateOf(at) {
  if (member(conflicts[at], "ruled") !== undefined) return ["settled", "settled by a ruling"];
  const ruled = ruledOf(at), held = data.digests[at].filter(digest => ruled.has(digest)).length;
  if (held > 1) return ["open", "rulings disagree: none is shown, for good"];
  return ["open", ruled.size ? "open: the ruled value isn't here yet" : "open"];
}

/** Makes the card of a conflict. */
function conflictCard(at) {
  const values = valuesOf(at), card = make("article", {class: "conflict"}), [state, words] = stateOf(at);
  const title = put(make("h3", {}, make("span", {class: "kind"}, KINDS[kindOf(at)]), " "), cut(keyOf(at), 1024));
  title.append(" ", make("span", {class: "badge " + state}, words));
  const show = from => {
    const [table, result] = compareTable(kindOf(at), values, from, show, value => valueHead(at, value, true)), count = result.differing.length;
    const differ = make("p", {class: "minor"}, `${counted(values.length)} values differ in ${counted(count)} ${count === 1 ? "path" : "paths"}`);
    const bar = make("div", {class: "bar"}, title, differ, ...(kindOf(at) === "E" ? [about(values[0].value)] : []));
    card.replaceChildren(bar, table, conflictMore(at, values, result));
  };
  show(0);
  return card;
}

/** Lists the paths at which values part; what is shared is known to be equal without a look. */
function parting(cells, path, found, skipped = new Set()) {
  if (cells.every(cell => cell === cells[0])) return found;
  if (!cells.every(isObject)) {
    if (cells.some(cell => text(cell) !== text(cells[0]))) found.push(path);
    return found;
  }
  const held = new Map();   // what the values have of each name
  for (const [name, part] of cells.flatMap(entries)) held.has(name) ? held.get(name).push(part) : held.set(name, [part]);
  for (const name of [...held.keys()].sort()) {
    if (skipped.has(name)) continue;
    if (held.get(name).length < cells.length) found.push(stepped(path, name));
    else parting(held.get(name), stepped(path, name), found);
  }
  return found;
}

let paths = [];   // of each conflict, when they are first shown

/** Finds of each conflict the paths at which its values part. */
function findPaths() {
  paths = conflicts.map((_, at) => parting(valuesOf(at).map(({value}) => value), "", [], kindOf(at) === "E" ? BESIDE : undefined));
}

/** Lists the conflicts, open ones first. */
const openFirst = () => conflicts.map((_, at) => at).sort((a, b) => isSettled(conflicts[a]) - isSettled(conflicts[b]));

/** Groups conflicts by the paths at which their values part. */
function patterns() {
  const groups = new Map();
  openFirst().forEach(at => {
    const kind = kindOf(at), key = JSON.stringify([kind, ...paths[at]]);
    if (!groups.has(key)) groups.set(key, {kind, differing: paths[at], members: []});
    groups.get(key).members.push(at);
  });
  return [...groups.values()].sort((a, b) => b.members.length - a.members.length);
}

/** Lists the groups of conflicts; each can be chosen. */
function patternList(groups, everything, pick) {
  const list = make("ul", {class: "patterns"});
  const add = (label, members, differing) => {
    const made = button(label, () => {
      for (const each of list.querySelectorAll("button")) each.setAttribute("aria-pressed", String(each === made));
      pick(members);
    }, {"aria-pressed": String(!differing)});
    for (const path of (differing || []).slice(0, 8)) put(made, cut(pathText(path), 60), "code");
    if (differing && differing.length > 8) made.append(` and ${differing.length - 8} more`);
    list.append(make("li", {}, made));
  };
  add(`all ${counted(conflicts.length)}`, everything);
  for (const {kind, differing, members} of groups.slice(0, PATTERNS)) add(`${counted(members.length)} ${members.length > 1 ? kindsOf(kind) + " differ" : KINDS[kind] + " differs"} in `, members, differing);
  if (groups.length > PATTERNS) list.append(make("li", {class: "minor"}, `and ${counted(groups.length - PATTERNS)} more groups`));
  return list;
}

const STATES = {
  settles: "settles its key: the log shows the value",
  disagrees: "stands against another ruling of the key: none is shown",
  waits: "waits: no such value is held",
  idle: "has no effect yet: the key has this value alone",
};

/** Makes the table of rulings, some at a time. */
function rulingTable() {
  const body = make("tbody"), top = make("div", {class: "pages"});
  const list = paged(50, top, body, ([ruling, state]) => {
    const [kind, key, digest] = parts(ruling).map(plain);
    return make("tr", {}, make("td", {}, KINDS[kind]), put(make("td", {class: "party"}), key), make("td", {}, make("code", {}, digest)), make("td", {}, STATES[state]));
  });
  const heads = heading(["Kind", "Key", "SHA-256 of the value", "What it does"]);
  const table = make("table", {class: "pairs"}, make("caption", {class: "unseen"}, "Rulings"), heads, body);
  list(rulings.map((ruling, at) => [ruling, data.states[at]]));
  return titled(`Rulings: ${counted(rulings.length)}`, ...(rulings.length > 50 ? [top] : []), make("div", {class: "scroll"}, table));
}

let pickConflicts = null;   // shows these conflicts alone, once their view was filled

/** Shows one conflict in their view. */
function showConflict(at) {
  showPanel("conflicts");
  pickConflicts([at]);
  id("panel-conflicts").focus();
}

/** Lists conflicts by group and search, open ones first, with what chooses among their values. */
function conflictList(panel) {
  findPaths();
  const cards = make("div"), top = make("div", {class: "pages"});
  const everything = openFirst();
  let group = everything, listed = everything, before = "";
  const bulk = bulkChoice(() => listed), list = paged(20, top, cards, conflictCard, () => group.length);
  const show = pick => {
    if (!pick && (panel.hidden || before === chosen.search && cards.childElementCount)) return;
    group = pick || group;
    before = chosen.search;
    listed = searched(group, at => [conflicts[at], ...(data.shown[at] === 0 ? [] : [data.shown[at][0]])]);
    list(listed);
    bulk.fill();
  };
  watchers.push(() => show());
  choiceWatchers.push(() => {
    for (const pick of cards.querySelectorAll("input[type=radio]")) pick.checked = choices.get(Number(pick.name.slice(7))) === Number(pick.value);
  });
  pickConflicts = show;
  panel.append(patternList(patterns(), everything, show), bulk.element, choiceBar(), top, cards);
  return () => show();
}

/** Makes the panel of conflicts and rulings. */
function conflictsPanel(panel) {
  panel.append(make("p", {class: "minor"}, conflicts.length
    ? "A ruling records a person's decision which value of a key the log shows, and is never taken back. Choose values, save the choices, and make rulings of them."
    : "Nothing contradicts: the log shows all facts."));
  const show = conflicts.length ? conflictList(panel) : () => {};
  if (rulings.length) panel.append(rulingTable());
  return show;
}
