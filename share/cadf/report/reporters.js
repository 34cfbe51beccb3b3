/* Who reported events, how late, and what speaks for or against that the log is complete. */

let heard = null, lagging = null;   // worked out when they are first asked for

/** Returns the reporters as a column, which of them each event has, and when each was heard first and last. */
function reporters() {
  if (heard) return heard;
  const column = new Column(0), of = new Array(events.length);
  events.forEach((event, at) => {
    const found = [];
    for (const chain of chainsOf(event)) for (const step of parts(chain)) {
      const number = column.numberOfParty(step, "reporter");
      if (!found.includes(number)) found.push(number);
    }
    of[at] = found;
  });
  return heard = {column, of};
}

/** Returns of each event how many seconds after its time it was reported last, as `lag` does. */
function lags() {
  if (!lagging) lagging = Float64Array.from(events, lag);
  return lagging;
}

/** Returns how many whole seconds after its time an event was reported last, exactly; NaN if no report has a time. */
function lag(event) {
  let last = NaN, own = null;
  for (const chain of chainsOf(event)) for (const step of parts(chain)) {
    const time = member(step, "reporterTime");
    if (time === undefined) continue;
    own = own || secondAnd(plain(member(event, "eventTime")));
    const [second, fraction] = secondAnd(plain(time)), found = (second - own[0]) / 1000 - Number(fraction < own[1]);
    if (!(found <= last)) last = found;
  }
  return last;
}

/** Returns a test whether a reporter of an event has this identifier or name. */
function viaTest(wanted) {
  const {column, of} = reporters(), marks = column.passes(wanted);
  return event => of[event].some(number => marks[number]);
}

/** Writes a number of seconds by its two largest units. */
function lagText(seconds) {
  if (Number.isNaN(seconds)) return "";
  const units = [["d", 86400], ["h", 3600], ["min", 60], ["s", 1]], size = Math.abs(seconds);
  const at = Math.max(0, units.findIndex(([, each]) => size >= each)), rest = size >= 1 ? at : 3;
  const words = units.slice(rest, rest + 2).map(([name, each], place) => [name, Math.floor((place ? size % units[rest][1] : size) / each)]);
  return (seconds < 0 ? "\u2212" : "") + words.filter(([, count], place) => count || !place).map(([name, count]) => `${count} ${name}`).join(" ");
}

/* ---- Is it complete? ---- */

/** Lists the runs of days within the log on which nothing happened. */
function emptyDays() {
  const found = [];
  for (let at = 1; at < times.length; at++) {
    const before = Math.floor(times[at - 1] / DAY), next = Math.floor(times[at] / DAY);
    if (next - before > 1) found.push([(before + 1) * DAY, (next - 1) * DAY, next - before - 1]);
  }
  return found;
}

/** Counts by reporter: events, bodies of contradicted ones, those that came late, and the longest time between two of its events. */
function byReporter() {
  const {column, of} = reporters(), after = lags();
  const found = column.texts.map((_, number) => ({number, events: 0, open: 0, late: 0, before: NaN, gap: 0, from: NaN, first: Infinity, last: -Infinity}));
  of.forEach((numbers, event) => {
    for (const number of numbers) {
      const own = found[number], gap = times[event] - own.before;
      own.events++;
      if (isOpen(event)) own.open++;
      if (after[event] >= 3600) own.late++;
      if (gap > own.gap) Object.assign(own, {gap, from: own.before});
      own.before = times[event];
    }
  });
  for (const [at, event] of events.entries()) for (const step of chainsOf(event).flatMap(parts)) {
    const time = member(step, "reporterTime"), own = found[column.numberOfParty(step, "reporter")], reported = time === undefined ? times[at] : instant(plain(time));
    own.first = Math.min(own.first, reported);
    own.last = Math.max(own.last, reported);
  }
  return found.sort((a, b) => b.events - a.events || a.number - b.number);
}

/** Makes the row of a reporter; it leads to its events. */
function reporterRow(own) {
  const {column} = reporters(), go = button(counted(own.events), () => {
    choose({via: "=" + column.texts[own.number]});
    showPanel("events");
  }, {class: "link", "aria-label": counted(own.events) + " events: show them"});
  const gap = own.gap ? `${lagText(Math.floor(own.gap / 1000))} from ${stamp(own.from).slice(0, 16)}` : "";
  return make("tr", {}, partyOf(make("td", {class: "party"}), column, own.number), make("td", {class: "number"}, go), make("td", {class: "number"}, counted(own.open)),
    make("td", {class: "number"}, counted(own.late)), make("td", {class: "time"}, stamp(own.first).slice(0, 19)), make("td", {class: "time"}, stamp(own.last).slice(0, 19)), make("td", {}, gap));
}

/** Lists what speaks for or against that the log is complete. */
function completeness() {
  const days = emptyDays(), made = make("ul", {class: "complete"}), add = (what, ...words) => made.append(make("li", {}, make("b", {}, what + ":"), " ", ...words));
  const of = id("seal").hidden ? "no seal" : id("seal").querySelector("dt").textContent;
  add("Made of", of, ...(id("seal").hidden ? "" : [" ", make("code", {}, id("seal").querySelector("code").textContent)]), ". Compare it with one that was kept elsewhere.");
  if (id("windows").textContent) add("Windows", id("windows").textContent + ".");
  if (id("range").textContent) put(made.appendChild(make("li", {}, make("b", {}, "Not all:"), " ")), id("range").textContent);
  add("Events", events.length ? `from ${utc(0)} until ${utc(events.length - 1)} UTC.` : "none.");
  if (events.length) add("Days without an event", days.length ? counted(days.reduce((sum, [,, count]) => sum + count, 0)) + ": "
    + days.slice(0, 20).map(([first, last]) => day(first) + (last > first ? " \u2013 " + day(last) : "")).join(", ") + (days.length > 20 ? ", \u2026" : ".") : "none between the first and the last.");
  add("Open conflicts", unsettled.length ? counted(unsettled.length) + "." : "none.");
  add("Set aside, and in no log", data.aside ? counted(data.aside.length) + "." : "not on this page: --set-aside adds it.");
  return made;
}

/** Makes the panel of what speaks for a complete log. */
function completePanel(panel) {
  const body = make("tbody"), top = make("div", {class: "pages"}), found = byReporter();
  const heads = heading(["Reporter", "Events", "Contradicted", "An hour late, or more", "First heard (UTC)", "Last heard (UTC)", "Longest time between two of its events"], ["Events", "Contradicted", "An hour late, or more"]);
  const table = make("table", {class: "pairs"}, make("caption", {}, `Reporters: ${counted(found.length)}; a number leads to its events`), heads, body);
  paged(50, top, body, reporterRow)(found);
  panel.append(completeness(), top, make("div", {class: "scroll"}, table));
}
