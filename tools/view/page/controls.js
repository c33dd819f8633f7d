"use strict";
// Starts the page, and shows the state after one entry at a time: the slider, the keys, the search and the clock.

const NEAR = 16; // entries shown before and after the one at work
const CALM = 400; // milliseconds without another entry, after which the address names the one shown
const PREPARED = 20000; // entries that are followed at a time while nothing else is to be done

const byId = (id) => document.getElementById(id);
const styles = getComputedStyle(document.documentElement);
const MONO = styles.getPropertyValue("--mono");
const COLOUR_NAMES = ["ink", "paper", "quiet", "line", "free", "ghost", "ghostPaper", "accent"];
const COLOURS = Object.fromEntries(COLOUR_NAMES.map((name) => [name, styles.getPropertyValue(`--${name}`).trim()]));

const script = JSON.parse(byId("data").textContent);
const lines = script.journal === "" ? [] : script.journal.split("\n");
script.byName = new Map(script.buffers.map((buffer) => [buffer.name, buffer.index]));
const timeline = new Timeline(script, lines);
let shown = -1;
let owners = null;
let clock = 0;
let address = 0;

/** Shows the state after `number` entries. */
function show(number) {
  number = Math.min(Math.max(0, Math.round(number) || 0), lines.length);
  if (number === shown) return;
  shown = number;
  const line = number ? lines[number - 1] : "";
  const before = timeline.at(Math.max(0, number - 1));
  const old = ownersOf(before);
  const words = number ? explain(before, line) : { sentence: START, kernel: "" };
  const marked = number ? buffersOf(before, line) : [];
  const state = timeline.at(number);
  owners = ownersOf(state);
  showEntry(number, line, words);
  for (const area of AREAS) showArea(area, old[area]);
  const actor = line.split(" ")[0];
  showBuffers(script, state, marked);
  showThreads(script, state, actor, waitsAfter(number));
  showEngines(state, actor);
  showGhosts(script, state);
  showLists(script, state);
  showLines(number);
}

const START = "Before the first entry: no buffer is live, all memory is free, and all bytes are zero.";

function showEntry(number, line, { sentence, kernel }) {
  byId("slider").value = byId("number").value = number;
  byId("slider").setAttribute("aria-valuetext", `entry ${number} of ${lines.length}: ${line || "the start"}`);
  byId("line").replaceChildren(make("span", null, number ? String(number) : ""), line || "the start");
  byId("sentence").textContent = sentence;
  say("");
  byId("kernel").textContent = kernel ? `Linux 6.1: ${kernel}` : "";
  clearTimeout(address);
  address = setTimeout(() => history.replaceState(null, "", `#${number}`), CALM);
}

function showArea(area, old) {
  const figure = byId(`area-${area}`);
  const now = owners[area];
  figure.querySelector(".account").textContent = accountText(area, now);
  if (!now.length) return;
  figure.querySelector(".spans").textContent = areaText(script, now);
  drawArea(figure.querySelector("canvas"), script, now, now.map((owner, page) => Number(owner !== old[page])), chosen());
}

/** Returns the index of the chosen buffer, or null. */
function chosen() {
  return byId("search").value ? script.byName.get(byId("search").value) : null;
}

/** Says how many pages of an area are whose. */
function accountText(area, now) {
  if (!now.length) return "none in this script";
  const account = accountOf(now);
  const shares = ["live", "target", "ghost", "free"].filter((kind) => account[kind]).map((kind) => `${account[kind]} ${kind}`);
  return `${counted(now.length, AREA_UNITS[area])}: ${shares.join(", ")}`;
}

/** Returns what each waiting thread waits for after `number` entries. */
function waitsAfter(number) {
  const found = new Map();
  for (const [thread, waits] of Object.entries(script.waits)) {
    let [low, high] = [0, waits.length];
    while (low < high) {
      const middle = (low + high) >> 1;
      if (waits[middle][0] <= number) low = middle + 1;
      else high = middle;
    }
    if (low && (waits[low - 1][1] === 0 || number < waits[low - 1][1])) found.set(Number(thread), waits[low - 1][2]);
  }
  return found;
}

/** Lists the entries around the one at work. */
function showLines(number) {
  const first = Math.max(1, Math.min(number - NEAR, lines.length - 2 * NEAR));
  const last = Math.min(lines.length, first + 2 * NEAR);
  byId("lines").replaceChildren(...Array.from({ length: last - first + 1 }, (_, at) => lineItem(first + at, number)));
}

function lineItem(at, number) {
  const index = make("span", { style: `width:${String(lines.length).length}ch` }, String(at));
  const button = make("button", { tabindex: "-1", "aria-current": at === number ? "true" : null }, index, lines[at - 1]);
  button.addEventListener("click", () => show(at));
  const item = make("li", null, button);
  item.classList.toggle("now", at === number);
  item.classList.toggle("later", at > number);
  item.classList.toggle("chosen", chosen() !== null && names(lines[at - 1], byId("search").value));
  return item;
}

/** Tells whether a line of the journal names a buffer. */
function names(line, name) {
  return line.split(/[ ,:]/).includes(name);
}

/** Goes to the next or the previous entry that names the chosen buffer. */
function seek(step) {
  const name = byId("search").value;
  for (let at = shown + step; at >= 1 && at <= lines.length; at += step) {
    if (!name || names(lines[at - 1], name)) return show(at);
  }
  return say(name ? `no ${step > 0 ? "later" : "earlier"} entry names ${name}` : "");
}

/** Says something beside the controls, until the next entry is shown. */
function say(text) {
  byId("said").textContent = text;
}

function play(isOn) {
  clearInterval(clock);
  clock = isOn ? setInterval(() => (shown < lines.length ? show(shown + 1) : play(false)), Number(byId("speed").value)) : 0;
  byId("run").textContent = isOn ? "Pause" : "Play";
  byId("entry").setAttribute("aria-live", isOn ? "off" : "polite");
}

/** Makes the parts of the page that stay. */
function build() {
  byId("about").textContent = script.about;
  byId("slider").max = byId("number").max = lines.length;
  byId("count").textContent = `of ${lines.length}`;
  for (const buffer of script.buffers) byId("search").append(make("option", { value: buffer.name }, buffer.name));
  for (const area of AREAS) byId("areas").append(buildArea(area));
  const texts = { live: "a buffer's", target: "its target", ghost: "a ghost's", free: "free", changed: "changed by this entry" };
  byId("legend").append(...Object.entries(texts).map(([kind, text]) => make("span", null, make("i", { class: kind }), text)));
}

function buildArea(area) {
  const title = make("h3", { id: `title-${area}` }, AREA_TITLES[area], " ", make("span", { class: "account" }));
  const canvas = make("canvas", { "aria-hidden": "true" });
  const tip = make("p", { class: "tip", hidden: "" });
  canvas.addEventListener("mousemove", (event) => showTip(area, canvas, tip, event));
  canvas.addEventListener("mouseleave", () => { tip.hidden = true; });
  const parts = script.sizes[area] ? [make("div", null, canvas, tip), make("p", { class: "spans" })] : [];
  return make("section", { id: `area-${area}`, class: "area", "aria-labelledby": `title-${area}` }, title, ...parts);
}

/** Says what a page is, beside the mouse. */
function showTip(area, canvas, tip, event) {
  const page = pageAt(canvas, event.offsetX, event.offsetY, owners[area].length);
  tip.hidden = page < 0;
  if (tip.hidden) return;
  tip.textContent = `${page}: ${ownerName(script, owners[area][page])}`;
  tip.style.left = `${event.offsetX + 12}px`;
  tip.style.top = `${event.offsetY + 16}px`;
}

const KEYS = {
  ArrowLeft: () => show(shown - 1),
  ArrowRight: () => show(shown + 1),
  PageUp: () => show(shown - 10),
  PageDown: () => show(shown + 10),
  Home: () => show(0),
  End: () => show(lines.length),
  " ": () => play(!clock),
  n: () => seek(1),
  p: () => seek(-1),
  b: () => byId("search").focus(),
  g: () => { byId("number").focus(); byId("number").select(); },
};

/** Follows a key, but for those that a field or a button needs itself. */
function press(event) {
  if (event.key === "Escape") document.activeElement.blur();
  const isField = ["INPUT", "SELECT"].includes(event.target.tagName) && event.target.type !== "range";
  const isButton = event.target.tagName === "BUTTON" && event.key === " ";
  if (isField || isButton || event.ctrlKey || event.altKey || event.metaKey || !KEYS[event.key]) return;
  event.preventDefault();
  KEYS[event.key]();
}

function listen() {
  const clicks = { first: "Home", back: "ArrowLeft", run: " ", forth: "ArrowRight", last: "End", previous: "p", next: "n" };
  for (const [id, key] of Object.entries(clicks)) byId(id).addEventListener("click", KEYS[key]);
  byId("slider").addEventListener("input", () => show(Number(byId("slider").value)));
  byId("number").addEventListener("change", () => show(Number(byId("number").value)));
  byId("search").addEventListener("change", again);
  byId("speed").addEventListener("change", () => clock && play(true));
  document.addEventListener("keydown", press);
  window.addEventListener("hashchange", () => show(Number(location.hash.slice(1))));
  window.addEventListener("resize", again);
}

/** Shows the entry at work once more, in a window of another size. */
function again() {
  const number = shown;
  shown = -1;
  show(number);
}

/** Follows the journal ahead of the user, while nothing else is to be done. */
function prepare() {
  if (timeline.prepare(PREPARED)) setTimeout(prepare, 0);
}

build();
listen();
show(Number(location.hash.slice(1)) || 0);
prepare();
