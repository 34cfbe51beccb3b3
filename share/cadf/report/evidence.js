/* What a finding is evidence of: its question in the address, on paper, and with rows that are saved. */

const MOST_LINK = 8192, MOST_VALUE = 1024;   // characters of a link that are read, and of one of its fields
const FRESH = {...chosen};
let linked = "";   // the fields of a link that this page doesn't know

/** Lists the filters that are set, and the order, as names and texts. */
function asked() {
  const found = TEXTS.filter(name => chosen[name]).map(name => [name, chosen[name]]);
  if (chosen.outcomes.size < OUTCOMES.length) found.push(["outcome", OUTCOMES.filter((_, at) => chosen.outcomes.has(at)).join(",") || "none"]);
  if (!chosen.open) found.push(["contradicted", "no"]);
  for (const name of ["from", "until"]) if (Number.isFinite(chosen[name])) found.push([name, day(chosen[name])]);
  if (chosen.sort !== FRESH.sort || chosen.falling) found.push(["sort", (chosen.falling ? "-" : "") + chosen.sort]);
  return found;
}

/** Takes one field of a link. Returns whether it has a meaning here. */
function takeField(name, value) {
  const time = timeOf(value), order = value.replace(/^-/, ""), of = value === "none" ? [] : value.split(",").map(each => OUTCOMES.indexOf(each));
  if (TEXTS.includes(name)) chosen[name] = value;
  else if (name === "outcome" && !of.includes(-1)) chosen.outcomes = new Set(of);
  else if (name === "contradicted" && value === "no") chosen.open = false;
  else if ((name === "from" || name === "until") && !Number.isNaN(time)) chosen[name] = time;
  else if (name === "sort" && HEADS.some(([each]) => each === order)) Object.assign(chosen, {sort: order, falling: value !== order});
  else if (name === "view" && panels.has(value)) showPanel(value);
  else return false;
  return true;
}

/** Takes the filters of the address; what it doesn't know is passed over and told. */
function takeLink() {
  const link = location.hash.slice(1);
  if (!link.includes("=")) return;
  Object.assign(chosen, FRESH, {outcomes: new Set(OUTCOMES.keys())});
  const fields = [...new URLSearchParams(link.slice(0, MOST_LINK))], odd = fields.filter(([name, value]) => value.length > MOST_VALUE || !takeField(name, value));
  linked = odd.slice(0, 5).map(([name]) => cut(name, 40)).join(", ") + (link.length > MOST_LINK ? " \u2026" : "");
  id("link").hidden = false;
  switches();
  frameAll();
  choose({});
}

/** Puts the filters and the view into the address, so that it can be sent, and survives a reload. */
function writeLink() {
  const view = [...panels.keys()].find(name => !panels.get(name).panel.hidden);
  const fields = [...asked(), ...(view === "events" ? [] : [["view", view]])];
  try {
    history.replaceState(null, "", fields.length ? "#" + new URLSearchParams(fields) : location.href.split("#")[0]);
  } catch { /* a page that isn't from a file or a server has no address of its own */ }
}

/** Says how many events the link shows, and what of it isn't known. */
function tellLink() {
  id("link").textContent = `This link shows ${counted(listed.length)} of ${counted(events.length)} events. `;
  if (linked.trim()) put(put(id("link"), "It has more that this page doesn't know: "), linked);
}

/** Says of what rows are: the log, the part of it that the page has, the filters, how many rows there are, and what the page was made of. */
function questionRows() {
  const bodies = listed.filter(isOpen), of = id("range").textContent ? " of this range" : "";
  const rows = `${counted(listed.length)} of ${counted(events.length)} events` + (bodies.length ? `, among them ${contradicted(bodies)}` : "")
    + (hidden.length ? `; switched off, though the filters let them pass: ${contradicted(hidden)}` : "");
  const found = [["log", plain(member(data.log, "id"))], ["page", id("range").textContent || "all of the log"],
    ["filters", asked().map(([name, value]) => `${name}: ${value}`).join("; ") || "none"], ["rows", rows],
    [`SHA-256 of the log text${of}`, id("log-digest").textContent], [`SHA-256 of the conflict list${of}`, id("conflict-digest").textContent]];
  if (!id("seal").hidden) found.push([id("seal").querySelector("dt").textContent, id("seal").querySelector("code").textContent]);
  if (data.union) found.push(["compared with", data.union.names[1]]);
  if (!id("other").hidden) found.push([id("other").querySelector("dt").textContent, id("other").querySelector("code").textContent]);
  found.push(["made by", `cadf-report with ${id("version").textContent}`]);
  return found;
}

/** Puts the question above a print. */
function printQuestion() {
  id("question").replaceChildren(...questionRows().map(([name, value]) => make("div", {}, make("dt", {}, name), put(make("dd"), value))));
}

/* ---- Rows that are saved. ---- */

/** Hands a file to the browser to be saved. */
function save(name, type, pieces) {
  const address = URL.createObjectURL(new Blob(pieces, {type}));
  make("a", {href: address, download: name}).click();
  setTimeout(() => URL.revokeObjectURL(address), 60000);
}

/** Spells the line of an event, as `cadf-events` writes it. */
const lineOf = event => isOpen(event) ? `{"contradicted":${data.digests[conflictOf[event]].length},"event":${text(events[event])}}\n` : text(events[event]) + "\n";

/** Saves the rows as lines of JSON, below one with the question. */
function saveLines() {
  save("events.jsonl", "application/jsonl", [JSON.stringify({question: Object.fromEntries(questionRows())}) + "\n", ...listed.map(lineOf)]);
}

const FORMULA = /^[=+\-@\t\r]/;   // with which a field begins that a spreadsheet runs

/** Spells a line of CSV; a field that a spreadsheet would run has a `'` before it. */
function csvLine(fields) {
  return fields.map(field => FORMULA.test(field) ? "'" + field : field).map(field => /[",\r\n]/.test(field) ? `"${field.replaceAll('"', '""')}"` : field).join(",") + "\n";
}

/** Lists the fields of an event, in the columns of `cadf-events --format csv`. */
function csvFields(event) {
  const parties = PARTIES.map(role => party(events[event], role)), own = ["eventTime", "id", "eventType", "action", "outcome"];
  return [...own.map(name => plain(member(events[event], name))), ...parties.map(([identifier]) => identifier), ...parties.map(([, name]) => name),
    isOpen(event) ? String(data.digests[conflictOf[event]].length) : ""];
}

/** Saves the rows as CSV, below lines with the question. */
function saveCsv() {
  const head = ["time", "id", "type", "action", "outcome", ...PARTIES, ...PARTIES.map(role => role + "Name"), "contradicted"];
  save("events.csv", "text/csv", [...questionRows().map(([name, value]) => csvLine([`# ${name}: ${value}`])), csvLine(head), ...listed.map(event => csvLine(csvFields(event)))]);
}

/** Makes the buttons that save the rows. */
const savers = () => make("span", {class: "bar savers"}, "save these rows: ", button("JSON lines", saveLines, {class: "small"}), button("CSV", saveCsv, {class: "small"}));
