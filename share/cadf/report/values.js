/* The data of the page, and how it is written to it.
 * A cell is a text, the number of a table entry, ["literal"], a list as [0, parts..] or an object as [shape, parts..]. */

/** Unpacks the data, which are JSON that was deflated, in base64. */
async function unpacked() {
  const packed = atob(document.getElementById("data").textContent), bytes = new Uint8Array(packed.length);
  for (let at = 0; at < packed.length; at++) bytes[at] = packed.charCodeAt(at);
  return JSON.parse(await new Response(new Blob([bytes]).stream().pipeThrough(new DecompressionStream("deflate"))).text());
}

const data = await unpacked();
const positions = data.shapes.map(names => new Map(names.map((name, at) => [name, at + 1])));

/** Follows a number to its entry. */
const real = cell => typeof cell === "number" ? data.table[cell] : cell;
const isText = cell => typeof real(cell) === "string";
const isLiteral = cell => Array.isArray(real(cell)) && typeof real(cell)[0] === "string";
const isObject = cell => Array.isArray(real(cell)) && typeof real(cell)[0] === "number" && real(cell)[0] > 0;
const parts = cell => cell === undefined || isText(cell) || isLiteral(cell) ? [] : real(cell).slice(1);

/** Returns a member of an object, or undefined. */
function member(cell, name) {
  const node = real(cell), at = isObject(node) ? positions[node[0] - 1].get(name) : undefined;
  return at === undefined ? undefined : node[at];
}

/** Returns the names and values of an object, or the places and values of a list. */
function entries(cell) {
  const node = real(cell);
  return parts(cell).map((part, at) => [node[0] > 0 ? data.shapes[node[0] - 1][at] : at, part]);
}

/** Spells a value as `cadf` does. */
function text(cell) {
  const node = real(cell);
  if (typeof node === "string") return JSON.stringify(node);
  if (typeof node[0] === "string") return node[0];
  if (node[0] === 0) return "[" + parts(node).map(text).join(",") + "]";
  return "{" + entries(node).map(([name, part]) => JSON.stringify(name) + ":" + text(part)).join(",") + "}";
}

/** Returns a text as it is and any other value spelled; "" for nothing. */
const plain = cell => cell === undefined ? "" : isText(cell) ? real(cell) : text(cell);

/* ---- Writing: data goes through `put` alone, as text nodes; an attribute or an option has it `named`. ---- */

const SVG = "http://www.w3.org/2000/svg";
const UNSEEN = "[\\p{Cc}\\p{Cf}\\p{Zl}\\p{Zp}\\p{Co}\\u00a0\\u034f\\u115f\\u1160\\u1680\\u17b4\\u17b5\\u2000-\\u200a\\u202f\\u205f\\u2800\\u3000\\u3164\\uffa0\\ufe00-\\ufe0f\\u{e0100}-\\u{e01ef}]";
const JOINED = `[${["Arabic", "Syriac", "Mongolian", "Devanagari", "Bengali", "Gurmukhi", "Gujarati", "Oriya", "Tamil", "Telugu", "Kannada", "Malayalam", "Sinhala", "Khmer", "Myanmar"]
  .map(script => `\\p{Script=${script}}`).join("")}]`, PICTURE = "\\p{Extended_Pictographic}";
// Of these a joiner between letters that it joins or parts isn't odd, nor one within a picture of several.
const ODD = new RegExp(`(?=${UNSEEN})(?!(?<=${JOINED})[\\u200c\\u200d](?=${JOINED})|(?<=[${PICTURE}\\ufe0f\\u{1f3fb}-\\u{1f3ff}])\\u200d(?=${PICTURE})|(?<=${PICTURE})\\ufe0f).`, "gsu");
const codePoint = char => "U+" + char.codePointAt(0).toString(16).toUpperCase().padStart(4, "0");
const named = string => string.replace(ODD, char => "\u2039" + codePoint(char) + "\u203a");
const cut = (string, most) => string.length <= most || string.length <= 2 * most && [...string].length <= most
  ? string : [...string.slice(0, 2 * most)].slice(0, most - 1).join("") + "\u2026";
const id = name => document.getElementById(name);
const counted = number => number.toLocaleString("en");

/** Makes an element with attributes and children; texts among them are the page's own. */
function make(name, attributes = {}, ...children) {
  const element = document.createElement(name);
  for (const each of Object.keys(attributes)) element.setAttribute(each, attributes[each]);
  element.append(...children);
  return element;
}

/** Makes a drawn element. */
function draw(name, attributes = {}, ...children) {
  const element = document.createElementNS(SVG, name);
  for (const each of Object.keys(attributes)) element.setAttribute(each, attributes[each]);
  element.append(...children);
  return element;
}

/** Puts a text of the data into an element: isolated, with characters that can't be seen or turn others named. */
function put(element, string, kind = "bdi") {
  const isolated = make(kind);
  let last = 0;
  for (const found of string.matchAll(ODD)) {
    isolated.append(string.slice(last, found.index), make("span", {class: "odd"}, codePoint(found[0])));
    last = found.index + found[0].length;
  }
  isolated.append(string.slice(last));
  element.append(isolated);
  return element;
}

/** Makes a button that does something. */
function button(label, action, attributes = {}) {
  const made = make("button", {type: "button", ...attributes}, label);
  made.addEventListener("click", action);
  return made;
}

/** Makes a button that copies what a call writes, and says so. */
function copier(write, label = "Copy") {
  const made = button(label, async () => {
    try {
      await navigator.clipboard.writeText(write());
      made.textContent = "Copied";
    } catch {
      made.textContent = "Select and copy by hand";
    }
    setTimeout(() => { made.textContent = label; }, 1500);
  }, {class: "small"});
  return made;
}

/** Calls something when no further call came for a while. */
function calmed(action, wait = 150) {
  let timer = 0;
  return () => { clearTimeout(timer); timer = setTimeout(action, wait); };
}
