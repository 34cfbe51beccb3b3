/* Lists of many pages, an event in full, and the table of events. */

/** Makes the buttons that turn pages. */
function pager(count, size, page, turn, without = count) {
  const last = Math.max(0, Math.ceil(count / size) - 1);
  const step = (label, to, name) => {
    const made = button(label, () => turn(to), {"aria-label": name});
    made.disabled = to < 0 || to > last || to === page;
    return made;
  };
  const words = count ? `${counted(page * size + 1)}\u2013${counted(Math.min(count, (page + 1) * size))} of ${counted(count)}` : "none";
  const rest = without > count ? make("span", {class: "minor"}, `filtered from ${counted(without)}`) : "";
  const pages = make("nav", {class: "pager", "aria-label": "Pages"}, make("span", {class: "where", role: "status"}, words), rest);
  if (last) pages.append(step("\u00ab", 0, "First page"), step("\u2039", page - 1, "Page before"), step("\u203a", page + 1, "Next page"), step("\u00bb", last, "Last page"));
  return pages;
}

let printing = false;
const lists = [];   // the lists that are printed whole, each with its element and what shows it again

/** Names the cells of a table by their columns, for a window that is too narrow for those. */
function nameCells(body) {
  const table = body.closest("table.pairs"), heads = table ? [...table.tHead.rows[0].cells] : [];
  for (const row of heads.length ? body.rows : []) heads.forEach((head, at) => { row.cells[at].dataset.label = head.textContent; });
}

/** Ties a list to its pages: returns a function that shows the first page of what it is given. */
function paged(size, top, body, row, without = () => undefined) {
  let items = [], page = 0;
  const show = () => {
    const room = printing ? Math.max(1, items.length) : size, rows = document.createDocumentFragment();
    const turn = to => { page = to; show(); };
    top.replaceChildren(pager(items.length, room, printing ? 0 : page, turn, without()));
    for (const item of printing ? items : items.slice(page * size, (page + 1) * size)) rows.append(row(item));
    body.replaceChildren(rows);
    nameCells(body);
  };
  lists.push({body, show});
  return found => { items = found; page = 0; show(); };
}

/** Shows the lists in view whole for a printer, or a page of them again. */
function print(isPrinting) {
  printing = isPrinting;
  for (const {body, show} of lists) if (body.getClientRects().length) show();
}

/* ---- An event in full. ---- */

const LINES = 3000;

/** Writes a value over several lines into an element, as long as there is room. */
function pretty(cell, into, indent, room) {
  const node = real(cell), inner = indent + "  ";
  if (typeof node === "string") return put(into, JSON.stringify(cut(node, 20000)));
  if (typeof node[0] === "string") return into.append(node[0]);
  const [open, close] = node[0] ? ["{", "}"] : ["[", "]"];
  const inside = entries(node);
  into.append(open);
  for (const [at, [name, part]] of inside.entries()) {
    into.append((at ? "," : "") + "\n" + inner);
    if (room.lines-- <= 0) return into.append("\u2026 cut here: copy it as JSON to see all");
    if (node[0]) put(into, JSON.stringify(name), "b").append(": ");
    pretty(part, into, inner, room);
  }
  into.append(inside.length ? "\n" + indent + close : close);
}

/** Writes a character as JSON can without showing it. */
const escaped = char => char.split("").map(unit => "\\u" + unit.charCodeAt(0).toString(16).padStart(4, "0")).join("");

/** Makes a block with a value over several lines. */
function block(cell) {
  const made = make("pre", {tabindex: 0});
  pretty(cell, made, "", {lines: LINES});
  return made;
}

/** Returns all chains of an event. */
function chainsOf(event) {
  const longest = member(event, "reporterchain"), every = member(event, "reporterchains");
  return every === undefined ? (longest === undefined ? [] : [longest]) : parts(every);
}

/** Joins chains to a tree of steps; where chains begin alike they share steps. */
function chainTree(chains, longest) {
  const root = {next: new Map(), depth: 0, best: true};
  const wanted = longest === undefined ? [] : parts(longest).map(text);
  for (const chain of chains) {
    let node = root;
    parts(chain).forEach((step, at) => {
      const key = text(step);
      if (!node.next.has(key)) node.next.set(key, {step, next: new Map(), depth: at + 1, best: node.best && wanted[at] === key});
      node = node.next.get(key);
    });
    node.ends = true;
  }
  return root;
}

const BOX = 168, GAP = 34, ROW = 46, DRAWN = 80;

/** Draws a step of a chain. */
function drawStep(node) {
  const [reporter, name] = party(node.step, "reporter");
  const role = plain(member(node.step, "role")), time = plain(member(node.step, "reporterTime"));
  const x = (node.depth - 1) * (BOX + GAP) + 1, y = node.row * ROW + 3;
  const group = draw("g", {class: "step " + (node.best ? "best" : "")});
  group.append(draw("rect", {x, y, width: BOX, height: 36, rx: 4}), draw("text", {x: x + 8, y: y + 15}, cut(named(name || reporter), 23)),
    draw("text", {x: x + 8, y: y + 29, class: "minor"}, role + (time ? "  " + time.slice(0, 19).replace("T", " ") : "")));
  if (node.ends) group.append(draw("circle", {cx: x + BOX, cy: y + 18, r: 4}));
  group.append(draw("title", {}, named([role, reporter, name, time].filter(Boolean).join("\n"))));
  return group;
}

/** Places the steps of a tree in rows and draws them with their lines; returns how many rows it took. */
function drawBranch(node, row, picture) {
  node.row = row;
  let rows = 0;
  for (const child of [...node.next.values()].sort((a, b) => b.best - a.best)) {
    if (row + rows > DRAWN) break;
    const taken = drawBranch(child, row + rows, picture);
    if (node.depth) {
      const x = node.depth * (BOX + GAP) - GAP, y = row * ROW + 21, low = (row + rows) * ROW + 21;
      picture.prepend(draw("path", {class: child.best ? "best" : "", d: `M${x} ${y} C${x + GAP * 0.6} ${y} ${x + GAP * 0.4} ${low} ${x + GAP + 1} ${low}`}));
    }
    picture.append(drawStep(child));
    rows += taken;
  }
  return Math.max(1, rows);
}

/** Draws all chains of an event; the shown one is marked. */
function chainGraph(event) {
  const chains = chainsOf(event), longest = parts(member(event, "reporterchain")).length;
  const picture = draw("svg", {class: "chains", role: "img"});
  const rows = drawBranch(chainTree(chains, member(event, "reporterchain")), 0, picture);
  const width = longest * (BOX + GAP) - GAP + 8, height = Math.min(rows, DRAWN + 1) * ROW;
  const words = chains.length === 1 ? "1 chain" : `${chains.length} chains`;
  const told = chain => parts(chain).map(step => named(party(step, "reporter")[0])).join(" \u2192 ");
  picture.setAttribute("viewBox", `0 0 ${width} ${height}`);
  picture.setAttribute("width", width);
  picture.setAttribute("height", height);
  picture.setAttribute("aria-label", cut(`${words}, the longest of ${longest} steps: ` + chains.slice(0, 8).map(told).join("; "), 2000));
  return make("div", {class: "scroll low", tabindex: 0, role: "group", "aria-label": "Reporter chains"}, picture);
}

/** Makes a titled part of an opened event. */
const titled = (title, ...content) => make("section", {}, make("h3", {}, title), ...content);

const MOST = 100;
const howMany = (title, found) => found.length > MOST ? `${title}: the first ${MOST} of ${counted(found.length)}` : title;

/** Shows an event in full: chains, tags, attachments, and the text. */
function detail(event) {
  const made = make("div", {class: "detail"}), left = make("div"), chains = chainsOf(event);
  const drawn = chains.length > DRAWN ? `, about ${DRAWN} drawn` : "";
  const title = chains.length > 1 ? `Reporter chains: ${counted(chains.length)}, the longest marked${drawn}` : "Reporter chain";
  if (chains.length) made.append(titled(title, chainGraph(event)));
  const tags = parts(member(event, "tags")), attachments = parts(member(event, "attachments"));
  if (tags.length) left.append(titled(howMany("Tags", tags), make("ul", {class: "tags"}, ...tags.slice(0, MOST).map(tag => put(make("li"), plain(tag))))));
  if (attachments.length) left.append(titled(howMany("Attachments", attachments), ...attachments.slice(0, MOST).map(block)));
  const whole = titled("Event", block(event));
  whole.firstChild.append(" ", copier(() => text(event).replace(ODD, escaped), "Copy as JSON"));
  made.append(make("div", {class: "halves"}, whole, left));
  return made;
}

/* ---- The table of events. ---- */

const SIZE = 100, LONGEST_NAME = 1024;   // bytes of an identifier, so characters at most
const opened = new Set();   // events that are shown in full when their row is in view
const HEADS = [["time", "Time (UTC)"], ["outcome", "Outcome"], ["action", "Action"], ["initiator", "Initiator"], ["target", "Target"], ["observer", "Observer"], ["late", "Reported after"]];

/** Makes a cell for a party: its name, and its identifier. */
function partyCell(event, role) {
  const [identifier, name] = party(events[event], role);
  const made = make("td", {class: "party", "data-label": role, title: cut(named(name ? name + "\n" + identifier : identifier), 400)});
  const both = name && name !== identifier;
  if (both) put(made, cut(name, LONGEST_NAME)).append(" ");
  return put(made, cut(identifier, LONGEST_NAME), both ? "small" : "bdi");
}

/** Makes the cell of an action; the body of a contradicted event says there that it is one. */
function actionCell(event) {
  const action = columns.action.of(event), made = make("td", {"data-label": "action", title: cut(named(action), 400)});
  if (isOpen(event)) made.append(make("span", {class: "badge open"}, `contradicted, 1 of ${data.digests[conflictOf[event]].length}`), " ");
  return put(made, cut(action, 200));
}

/** Makes the row of an event, and what opens it. */
function row(event) {
  const made = make("tr", {class: "event"}), outcome = outcomes[event], rows = document.createDocumentFragment();
  const opener = button("", () => open(), {class: "opener", "aria-expanded": "false"});
  opener.append(make("span", {class: "turn", "aria-hidden": "true"}, "\u25b8"), utc(event));
  const open = () => {
    const was = opener.getAttribute("aria-expanded") === "true";
    opener.setAttribute("aria-expanded", String(!was));
    made.classList.toggle("open", !was);
    opened[was ? "delete" : "add"](event);
    if (was) made.nextSibling.remove();
    else made.after(make("tr", {class: "opened"}, make("td", {colspan: HEADS.length}, ...(isOpen(event) ? [sideBySide(conflictOf[event])] : []), detail(events[event]))));
  };
  const outcomeCell = put(make("td", {class: "outcome"}, chip(outcome), " "), columns.outcome.of(event));
  made.append(make("td", {class: "time"}, opener), outcomeCell, actionCell(event), ...PARTIES.map(role => partyCell(event, role)),
    make("td", {class: "late", "data-label": "reported after"}, lagText(lag(events[event]))), put(make("td", {class: "printed"}), plain(member(events[event], "id"))));
  made.addEventListener("click", click => { if (!opener.contains(click.target) && !String(getSelection())) open(); });
  rows.append(made);
  if (opened.has(event)) open();
  return rows;
}

/** Makes a head that sorts; on paper it is a text, since a browser prints a button on the first page alone. */
function head([name, label]) {
  const sorter = button(label, () => {
    Object.assign(chosen, {falling: chosen.sort === name && !chosen.falling, sort: name});
    update({filters: false});
  });
  return make("th", {scope: "col", "data-sort": name, class: name}, sorter, make("span", {class: "printed", "aria-hidden": "true"}, label));
}

/** Makes the filter of a column: a choice for actions, else a text with suggestions. */
function filterOf([name, label]) {
  if (["time", "outcome", "late"].includes(name)) return make("td");
  const column = columns[name], counts = column.counts();
  const often = column.texts.map((_, number) => number).filter(number => !column.texts[number].match(ODD))
    .sort((a, b) => counts[b] - counts[a] || a - b).slice(0, 300);   // a browser shows an option as it is
  const list = make("datalist", {id: "known-" + name});
  for (const number of often) list.append(make("option", {value: "=" + (column.names[number] || column.texts[number])}, named(column.names[number] && column.texts[number]) + " (" + counted(counts[number]) + ")"));
  const input = make("input", {"data-filter": name, list: list.id, placeholder: "contains, or =exactly", "aria-label": "Filter by " + label, spellcheck: "false", autocomplete: "off"});
  input.addEventListener("input", calmed(() => { chosen[name] = input.value; update(); }));
  return make("td", {"data-label": label}, input, list);
}

/** Says why no event is listed. */
function whyNone() {
  const some = id("range").textContent ? " The page has not all of the log: its head says what." : "";
  return (hidden.length ? "No event of the log passes the filters." : events.length ? "No event passes the filters." : "The log shows no event.") + some;
}

/** Says how many bodies of contradicted events are listed, or that some would be, which a button shows. */
function openNote() {
  const bodies = listed.filter(isOpen), made = make("p", {class: "minor contradicted", role: "status"});
  if (bodies.length) made.append(`Among them ${contradicted(bodies)}: the log shows none of these, until a ruling.`);
  if (hidden.length) made.append(`Switched off, though the filters let them pass: ${contradicted(hidden)}. `, button("Show them", () => {
    chosen.open = true;
    switches();
    update();
  }, {class: "small"}));
  return made;
}

/** Makes the head of a table. */
const heading = (labels, numeric = []) => make("thead", {}, make("tr", {}, ...labels.map(label => make("th", {scope: "col", class: numeric.includes(label) ? "number" : ""}, label))));

/** Makes the panel of events; it shows itself again whenever what is listed changes. */
function eventsPanel(panel) {
  const body = make("tbody"), top = make("div", {class: "pages"});
  const heads = make("thead", {}, make("tr", {}, ...HEADS.map(head), make("th", {scope: "col", class: "printed"}, "Identifier")), make("tr", {class: "filters"}, ...HEADS.map(filterOf)));
  const table = make("table", {class: fine ? "events fine" : "events"}, make("caption", {class: "unseen"}, "Events that pass the filters"), heads, body);
  const list = paged(SIZE, top, body, row, () => chosen.open ? events.length : inLog.length);
  const note = make("div");
  const show = () => {
    list(listed);
    note.replaceChildren(openNote());
    if (!listed.length) body.append(make("tr", {}, make("td", {colspan: HEADS.length, class: "none"}, whyNone())));
    const order = chosen.falling ? "descending" : "ascending";
    for (const each of table.querySelectorAll("th")) each.setAttribute("aria-sort", each.dataset.sort === chosen.sort ? order : "none");
  };
  watchers.push(show);
  panel.append(make("div", {class: "bar"}, top, savers()), note, make("div", {class: "scroll"}, table));
}
