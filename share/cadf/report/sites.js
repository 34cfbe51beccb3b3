/* Two sites: what the files of the page and another site lack of each other, by kind and over time. */

const SIDES = ["these files lack", "the other site lacks"];
const LACK_BASE = 50, LACK_HIGH = 2 * LACK_BASE + 18;

/** Reads what a side lacks: of each fact its kind, key, value, the body that it came with and, of an event's, the time. */
function lacking(side) {
  return parts(data.lacks[side]).map(cell => {
    const [kind, key, value, body] = parts(cell), has = isObject(body);
    return {side, kind: plain(kind), key: plain(key), value, body: has ? body : undefined, time: has ? instant(plain(member(body, "eventTime"))) : NaN, cell};
  });
}

/** Draws when the events of lacking facts happened: what these files lack above the line, what the other lacks below it. */
function lackTimeline(facts) {
  const times = facts.map(({time}) => time).filter(time => !Number.isNaN(time));
  if (!times.length) return "";
  const [first, last] = times.reduce(([low, high], time) => [Math.min(low, time), Math.max(high, time)], [Infinity, -Infinity]);
  const drawn = frameOf(first, Math.max(last, first + 10000)), count = Math.round((drawn.until - drawn.from) / drawn.step);
  const bins = SIDES.map(() => new Int32Array(count));
  for (const {side, time} of facts) if (!Number.isNaN(time)) bins[side][Math.floor((time - drawn.from) / drawn.step)]++;
  const most = Math.max(...bins[0], ...bins[1]), width = wide / count;
  const named = `Facts of events by time, ${span(drawn.from, drawn.until)} UTC: at most ${counted(most)} in ${length(drawn.step)}`;
  const picture = draw("svg", {viewBox: `0 0 ${wide} ${LACK_HIGH}`, role: "img", "aria-label": named});
  bins.forEach((counts, side) => counts.forEach((number, at) => {
    if (!number) return;
    const height = Math.max(1.5, number / most * (LACK_BASE - 4)), from = drawn.from + at * drawn.step;
    const box = {class: "lack" + side, x: at * width + 0.4, y: side ? LACK_BASE : LACK_BASE - height, width: Math.max(1, width - 0.8), height};
    picture.append(draw("rect", box, draw("title", {}, `${span(from, from + drawn.step)}\n${counted(number)} ${SIDES[side]}`)));
  }));
  picture.append(draw("line", {class: "ground", x1: 0, x2: wide, y1: LACK_BASE, y2: LACK_BASE}), axis(drawn, LACK_HIGH - 17));
  return make("figure", {class: "lacks"}, picture, make("figcaption", {class: "minor"}, make("span", {class: "chip lack0"}), " above: these files lack it; ",
    make("span", {class: "chip lack1"}), " below: the other site lacks it. " + named));
}

/** Makes the table of how many facts of each kind a side lacks; a number lists them. */
function lackCounts(facts, pick) {
  const kinds = Object.keys(KINDS).filter(kind => facts.some(fact => fact.kind === kind));
  const cell = (side, kind) => {
    const found = facts.filter(fact => fact.side === side && (kind === "" || fact.kind === kind));
    const label = `${counted(found.length)} ${kind ? kindsOf(kind) : "facts"} that ${SIDES[side]}: list them`;
    return make("td", {class: "number"}, found.length ? button(counted(found.length), () => pick(found), {class: "link", "aria-label": label}) : "0");
  };
  const rows = ["", ...kinds].map(kind => make("tr", {}, make("th", {scope: "row"}, kind ? kindsOf(kind) : "all facts"), cell(0, kind), cell(1, kind)));
  return make("table", {class: "compare counts-of"}, make("caption", {class: "unseen"}, "Facts that a site lacks, by kind"), heading(["Kind", ...SIDES.map(side => side[0].toUpperCase() + side.slice(1))], []), make("tbody", {}, ...rows));
}

/** Makes the row of a fact that a side lacks. */
function lackRow({side, kind, key, value, body, time}) {
  const what = make("td"), closed = make("details", {}, make("summary", {}, "value"));
  closed.addEventListener("toggle", () => { if (closed.childElementCount === 1) closed.append(block(value)); });
  if (body !== undefined) what.append(about(body));
  what.append(closed);
  return make("tr", {}, make("td", {}, SIDES[side]), make("td", {}, KINDS[kind]), put(make("td", {class: "party"}), cut(key, 200)),
    make("td", {class: "time"}, Number.isNaN(time) ? "" : stamp(time)), what);
}

/** Spells the body of an event, or another value. */
const bodyText = cell => isObject(cell) ? JSON.stringify(entries(cell).filter(([name]) => !BESIDE.has(name)).map(([name, part]) => [name, text(part)])) : text(cell);

/** Makes what compares the values of conflicts that two sites have together alone, and says which of them has each. */
function betweenSites(facts) {
  const {names, every, open, between} = data.union, body = make("div"), top = make("div", {class: "pages"});
  const lacked = SIDES.map((_, side) => new Set(facts.filter(fact => fact.side === side).map(fact => fact.kind + fact.key + bodyText(fact.value))));
  const list = paged(20, top, body, ([cell]) => {
    const kind = plain(member(cell, "kind")), key = plain(member(cell, "key")), card = make("article", {class: "conflict"});
    const holder = value => lacked.findIndex(each => each.has(kind + key + bodyText(value)));
    const values = parts(member(cell, "values")).map((value, at) => ({value, place: at + 1}));
    const head = ({value, place}) => {
      const lacking = holder(value), made = make("th", {scope: "col"}, `value ${place}: `);
      return lacking < 0 ? put(made, "both sites") : put(made, cut(names[1 - lacking], 80));
    };
    const title = put(make("h3", {}, make("span", {class: "kind"}, KINDS[kind]), " "), cut(key, 1024));
    const show = from => card.replaceChildren(make("div", {class: "bar"}, title, ...(kind === "E" ? [about(values[0].value)] : [])), compareTable(kind, values, from, show, head)[0]);
    show(0);
    return card;
  });
  list(between);
  const said = `Together they have ${counted(every)} conflicts, of which ${counted(open)} are open`;
  return titled("Conflicts of both together", make("p", {id: "together"}, between.length ? `${said}; ${counted(between.length)} are between them alone:` : said + "."), ...(between.length ? [top, body] : []));
}

/** Makes the panel of two sites; its list obeys the range of time and the search. */
function sitesPanel(panel) {
  const facts = [...lacking(0), ...lacking(1)].sort((a, b) => (a.time || 0) - (b.time || 0));
  const body = make("tbody"), top = make("div", {class: "pages"});
  const list = paged(50, top, body, lackRow, () => facts.length);
  let group = facts;
  const show = () => {
    if (panel.hidden) return;
    const limits = chosen.from > -Infinity || chosen.until < Infinity;
    list(searched(group.filter(({time}) => !limits || time >= chosen.from && time < chosen.until), ({cell}) => [cell]));
  };
  watchers.push(show);
  const [here, other] = data.union.names, named = put(make("p", {id: "named"}, "These files: "), cut(here, 400));
  named.append(". The other site: ");
  panel.append(put(named, cut(other, 400)));
  if (!facts.length) panel.append(make("p", {class: "none"}, "Both sites hold the same facts."));
  else {
    const table = make("table", {class: "pairs"}, make("caption", {class: "unseen"}, "Facts that a site lacks"), heading(["Who lacks it", "Kind", "Key", "Time (UTC)", "What"]), body);
    const title = make("h3", {}, "Facts that a site lacks"), pick = found => {
      group = found;
      show();
      title.scrollIntoView();
    };
    panel.append(lackCounts(facts, pick), lackTimeline(facts), betweenSites(facts), title, top, make("div", {class: "scroll"}, table));
  }
  return show;
}
