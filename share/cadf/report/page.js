/* The rest of the log, the views, and the start. */

const LISTS = {E: ["events", "id"], R: ["resources", "id"], G: ["geolocations", "id"], M: ["metrics", "metricId"]};

/** Makes a table of named values, some at a time. */
function namedValues(title, found) {
  const body = make("tbody"), top = make("div", {class: "pages"});
  paged(50, top, body, ([name, value]) => make("tr", {}, put(make("th", {scope: "row"}), name), make("td", {}, block(value))))(found);
  return titled(`${title}: ${counted(found.length)}`, ...(found.length > 50 ? [top] : []), make("table", {class: "compare"}, make("caption", {class: "unseen"}, title), body));
}

/** Lists the properties and entities of the log. */
function restOf() {
  const own = new Set(["id", "typeURI", "events", "resources", "geolocations", "metrics"]);
  const lists = ["R", "G", "M"].map(kind => {
    const [list, name] = LISTS[kind];
    return [list[0].toUpperCase() + list.slice(1), parts(member(data.log, list)).map(each => [plain(member(each, name)), each])];
  });
  return [["Properties", entries(data.log).filter(([name]) => !own.has(name))], ...lists].filter(([, found]) => found.length);
}

/* ---- What was set aside. ---- */

/** Makes the row of an entry: its file, its line, its faults, and the beginning of what it has. */
function asideRow([file, line, faults, beginning]) {
  const why = make("td"), what = make("td");
  for (const fault of faults) put(why, cut(fault, 300), "div");
  if (beginning) what.append(make("details", {}, make("summary", {}, "its beginning"), put(make("pre", {tabindex: 0}), beginning)));
  return make("tr", {}, put(make("td", {class: "party"}), cut(file, 300)), put(make("td", {class: "number"}), line), why, what);
}

/** Makes the panel of what was set aside; it obeys the search. */
function asidePanel(panel) {
  const body = make("tbody"), top = make("div", {class: "pages"});
  const list = paged(50, top, body, asideRow, () => data.aside.length);
  const show = () => {
    if (!panel.hidden) list(searched(data.aside, entry => entry.flat()));
  };
  watchers.push(show);
  panel.append(make("p", {class: "minor"}, "These lines and events are in no log: mend them, and take them again."), top,
    make("div", {class: "scroll"}, make("table", {class: "pairs"}, make("caption", {class: "unseen"}, "What was set aside"), heading(["File", "Line", "Faults", "What it has"], ["Line"]), body)));
  return show;
}

/* ---- The views, and the start. ---- */

const panels = new Map(), linkLater = calmed(writeLink, 300);

/** Shows one of the views. */
function showPanel(name) {
  for (const [each, {tab, panel, show}] of panels) {
    tab.setAttribute("aria-selected", String(each === name));
    tab.tabIndex = each === name ? 0 : -1;
    panel.hidden = each !== name;
    if (each === name && show) show();
  }
  linkLater();
}

/** Moves between tabs by keys. */
function tabKey(event) {
  const names = [...panels.keys()], at = names.findIndex(name => panels.get(name).tab === event.target);
  const to = {ArrowRight: at + 1, ArrowLeft: at - 1, Home: 0, End: names.length - 1}[event.key];
  if (to === undefined) return;
  const name = names[(to + names.length) % names.length];
  showPanel(name);
  panels.get(name).tab.focus();
  event.preventDefault();
}

/** Adds a view; it is filled when it is first shown. */
function addPanel(name, label, count, fill, eager) {
  const tab = button(label, () => showPanel(name), {role: "tab", id: "tab-" + name, "aria-controls": "panel-" + name});
  if (count !== null) tab.append(" ", make("b", {}, counted(count)));
  const panel = make("div", {role: "tabpanel", id: "panel-" + name, "aria-labelledby": "tab-" + name, tabindex: -1});
  panel.hidden = true;
  let again = eager ? fill(panel) : undefined, filled = Boolean(eager);
  const show = () => {
    if (!filled) again = fill(panel);
    filled = true;
    if (again) again();
  };
  panels.set(name, {tab, panel, show});
  id("tabs").append(tab);
  id("panels").append(panel);
}

/** Works out the digest of the log text from what the page holds, and compares. */
async function prove() {
  if (!crypto.subtle) {
    id("proved").textContent = "This browser hashes nothing from an address that isn't secure: open the page from a file.";
    return;
  }
  id("proved").textContent = "Working\u2026";
  await new Promise(resolve => setTimeout(resolve, 20));
  const answers = [];
  try {
    for (const [cell, name] of [[data.log, "log-digest"], [data.listed, "conflict-digest"]]) {
      const sum = await crypto.subtle.digest("SHA-256", new TextEncoder().encode(text(cell) + "\n"));
      answers.push([...new Uint8Array(sum)].map(byte => byte.toString(16).padStart(2, "0")).join("") === id(name).textContent);
    }
  } catch {
    id("proved").textContent = "The texts are too long for this browser: hash what the command writes.";
    return;
  }
  id("proved").textContent = answers.every(Boolean) ? "\u2713 The data in this page make both digests." : "\u2715 The data in this page do not make these digests.";
}

/** Explains the count of conflicts by those of values. */
function explained() {
  const settled = conflicts.length - unsettled.length, part = openValues.length;
  const values = unsettled.reduce((before, conflict) => before + parts(member(conflict, "values")).length, 0);
  const some = part && part < values ? `, ${counted(part)} of them of events,` : "";
  return conflicts.length ? `Of ${counted(conflicts.length)} conflicts ${counted(unsettled.length)} are open: their ${counted(values)} values${some} are in the list alone.`
    + (settled ? ` ${counted(settled)} are settled: the log shows the ruled value, and the list has the others.` : "") : "";
}

/** Fills the head of the page. */
function fillHead() {
  const name = plain(member(data.log, "id"));
  id("log").textContent = "";
  put(id("log"), name);
  document.title = "CADF: " + cut(named(name), 80);
  id("span").textContent = events.length ? utc(0) + " \u2013 " + utc(events.length - 1) + " UTC" : "no events";
  id("when").hidden = !events.length;
  id("other").hidden = !id("other").querySelector("code").textContent;
  id("range").hidden = !id("range").textContent;
  id("seal").hidden = !id("seal").querySelector("code").textContent;
  id("open").textContent = counted(unsettled.length);
  id("sums").textContent = explained();
  id("union").hidden = !data.union;
  if (data.union) id("union").lastElementChild.textContent = counted(data.union.every);
  id("aside").hidden = !data.aside;
  if (!data.aside) id("asides").textContent = "What was set aside before it came into a site is not on it.";
}

/** Ties the controls of the page to what they do. */
function wire() {
  id("prove").addEventListener("click", prove);
  id("zoom").addEventListener("click", zoom);
  id("whole").addEventListener("click", selectAll);
  id("from").addEventListener("change", typedRange);
  id("until").addEventListener("change", typedRange);
  id("tabs").addEventListener("keydown", tabKey);
  id("search").dataset.filter = "search";
  id("search").addEventListener("input", calmed(() => { chosen.search = id("search").value; update(); }));
  for (const name of ["via", "late"]) {
    id(name).dataset.filter = name;
    id(name).addEventListener("input", calmed(() => {
      chosen[name] = id(name).value.trim();
      update();
    }));
  }
  watchers.push(() => id("search").setAttribute("aria-invalid", wordsOf(chosen.search).length > MOST_WORDS));
  watchers.push(() => id("late").setAttribute("aria-invalid", chosen.late !== "" && Number.isNaN(durationOf(chosen.late))));
  id("clear").addEventListener("click", () => {
    Object.assign(chosen, {outcomes: new Set([0, 1, 2, 3]), open: true});
    switches();
    frameAll();
    choose(all);
  });
  addEventListener("hashchange", takeLink);
  addEventListener("beforeprint", () => { printQuestion(); print(true); });
  addEventListener("afterprint", () => print(false));
  addEventListener("resize", calmed(() => { drawTimeline(); }));
  timelinePointer();
}

id("opening").remove();
document.querySelector("main").hidden = false;
fillHead();
switches();
frameAll();
watchers.push(drawTimeline);
addPanel("events", "Events", events.length, eventsPanel, true);
addPanel("pairs", "Who to what", null, pairsPanel);
addPanel("conflicts", "Conflicts", conflicts.length, conflictsPanel);
if (data.lacks.length) addPanel("sites", "Two sites", data.lacks.reduce((before, side) => before + parts(side).length, 0), sitesPanel);
const rest = restOf();
const fillRest = panel => panel.append(...rest.map(([title, found]) => namedValues(title, found)));
addPanel("complete", "Is it complete?", null, completePanel);
if (data.aside) addPanel("aside", "Set aside", data.aside.length, asidePanel);
if (rest.length) addPanel("rest", "Rest of the log", rest.reduce((sum, [, found]) => sum + found.length, 0), fillRest);
wire();
showPanel("events");
watchers.push(tellLink, linkLater);
update();
takeLink();
document.documentElement.dataset.ready = String(Math.round(performance.now()));
