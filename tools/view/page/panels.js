"use strict";
// The tables beside the squares: buffers, threads, engines, ghosts and lists. All text goes in as text.

/** Makes an element with children, which are elements or text. */
function make(tag, attributes, ...children) {
  const element = document.createElement(tag);
  for (const [name, value] of Object.entries(attributes || {})) {
    if (value !== null && value !== undefined && value !== false) element.setAttribute(name, value);
  }
  element.append(...children);
  return element;
}

/** Fills a table with a row of headings and rows of cells. The first heading is for screen readers alone. */
function fillTable(table, headings, rows, empty) {
  const [first, ...others] = headings;
  const cells = [make("th", { scope: "col", "aria-label": first }), ...others.map((heading) => make("th", { scope: "col" }, heading))];
  const head = make("thead", null, make("tr", null, ...cells));
  const none = make("tr", null, make("td", { colspan: headings.length, class: "none" }, empty));
  table.replaceChildren(head, make("tbody", null, ...(rows.length ? rows : [none])));
}

/** Makes a row, of which the first cell is its heading. */
function row(attributes, head, ...cells) {
  return make("tr", attributes, make("th", { scope: "row" }, head), ...cells.map((cell) => make("td", null, ...[].concat(cell))));
}

/** Makes the sign of a buffer: its name on its colour. */
function sign(script, index) {
  const buffer = script.buffers[index];
  return make("span", { class: "sign", style: `background:${buffer.colour};color:${buffer.letters}` }, buffer.name);
}

function signs(script, indexes) {
  return indexes.length ? indexes.flatMap((index, at) => (at ? [" ", sign(script, index)] : [sign(script, index)])) : ["-"];
}

const MOST_JOBS = 6; // shown of an engine or a buffer
const BUFFER_HEADINGS = ["buffer", "pages", "stands in", "targets", "page table", "holder", "pins", "unfinished jobs"];

function showBuffers(script, state, marked) {
  const rows = state.buffers.filter((buffer) => buffer.live).map((buffer) => {
    const { index, name, pages } = buffer.declared;
    const cells = [String(pages), standing(buffer), targetsText(buffer), tableText(buffer), holderText(state, buffer), String(buffer.pins || "-")];
    return row({ class: marked.includes(name) ? "marked" : null }, sign(script, index), ...cells, fencesText(state, buffer));
  });
  fillTable(document.getElementById("buffers"), BUFFER_HEADINGS, rows, "no buffer is live");
}

function targetsText(buffer) {
  const targets = MEMORIES.filter((memory) => buffer.targets[memory]);
  return targets.map((memory) => MEMORY_NAMES[memory] + (memory === "sys" ? "" : ` ${spansText(buffer.targets[memory])}`)).join("; ") || "-";
}

/** Says what the pages of a buffer's table are: frames, slots, or nothing. */
function tableText(buffer) {
  const parts = [];
  const frames = framesOf(buffer);
  const slots = Array.from(buffer.slots).filter((slot) => slot >= 0);
  if (frames.length) parts.push(`${frames.length === 1 ? "frame" : "frames"} ${rangesText(frames)}`);
  if (slots.length) parts.push(`${slots.length === 1 ? "slot" : "slots"} ${rangesText(slots)}`);
  const rest = buffer.frames.length - frames.length - slots.length;
  if (rest) parts.push(`${rest} Zero`);
  return parts.join(", ");
}

/** Shortens numbers in their order: 3 4 5 9 is `3-6, 9`, spans without their last page. */
function rangesText(numbers) {
  const spans = [];
  for (const number of numbers) {
    const span = spans[spans.length - 1];
    if (span && span[1] === number) span[1] += 1;
    else spans.push([number, number + 1]);
  }
  const shown = spans.slice(0, 6).map(([first, last]) => (last === first + 1 ? String(first) : `${first}-${last}`));
  return shown.join(", ") + (spans.length > 6 ? ", .." : "");
}

/** Says which thread holds a buffer, with its ticket. */
function holderText(state, buffer) {
  if (!buffer.holder) return "-";
  const course = state.courses.find((one) => one.stamp === buffer.holder);
  return course ? `t${course.thread}, ticket ${buffer.holder}` : `ticket ${buffer.holder}`;
}

function fencesText(state, buffer) {
  const fences = state.unfinished(buffer.fences);
  const shown = fences.slice(0, MOST_JOBS).map((fence) => `${fence.usage} e${fence.engine} ${fence.number}`);
  if (fences.length > MOST_JOBS) shown.push(`and ${fences.length - MOST_JOBS} more`);
  return shown.join(", ") || "-";
}

function showThreads(script, state, actor, waits) {
  const rows = state.courses.map((course) => {
    const command = state.commandOf(course);
    const what = command ? `${course.answered + 1} ${command.text}` : "all answered";
    const name = `t${course.thread}`;
    const wait = waits.get(course.thread);
    return row({ class: actor === name ? "marked" : null }, name, make("span", { class: "command", title: what }, what),
      String(course.stamp || "-"), signs(script, course.held), victimsText(script, state, course), wait ? make("b", null, wait) : "-");
  });
  fillTable(document.getElementById("threads"), ["thread", "command", "ticket", "holds", "victims", "waits for"], rows, "no thread");
}

/** Says which victims a thread has, which it passes over, and how its search has failed. */
function victimsText(script, state, course) {
  const parts = course.caught.flatMap((victim) => [sign(script, victim.index), ` for ${victim.why}${victim.fail ? `, ${victim.fail}` : ""} `]);
  if (course.skips.length) parts.push(`skips ${named(state, course.skips)} `);
  if (course.fail) parts.push(`failed: ${course.fail}`);
  return parts.length ? parts : ["-"];
}

function showEngines(state, actor) {
  const rows = state.jobs.flatMap((jobs, engine) => {
    const mark = { class: actor === `e${engine}` ? "marked" : null };
    if (!jobs.size) return [row(mark, `e${engine}`, "idle", "-", "-")];
    const shown = Array.from(jobs.values()).slice(0, MOST_JOBS).map((job, at) => jobRow(state, job, at ? null : mark, at ? "" : `e${engine}`));
    return jobs.size > MOST_JOBS ? [...shown, row(null, "", `and ${jobs.size - MOST_JOBS} more`, "", "")] : shown;
  });
  fillTable(document.getElementById("engines"), ["engine", "job", "packets run", "waits for"], rows, "");
}

function jobRow(state, job, attributes, head) {
  return row(attributes, head, `job ${job.number}: ${job.label}`, `${job.ran} of ${job.packets}`, shortJobs(state, job.waits));
}

/** Names unfinished jobs in few letters. */
function shortJobs(state, jobs) {
  return state.lastUnfinished(jobs).map((job) => `e${job.engine} ${job.number}`).join(", ") || "-";
}

const MOST_GHOSTS = 8; // shown

function showGhosts(script, state) {
  const rows = state.ghosts.slice(0, MOST_GHOSTS).map((ghost) => {
    const pages = ghost.spans.length ? `${MEMORY_NAMES[ghost.memory]} ${spansText(ghost.spans)}` : "-";
    const frames = ghost.frames.length ? rangesText(ghost.frames) : "-";
    const waits = shortJobs(state, ghost.jobs);
    return row(null, `g${ghost.number}`, sign(script, ghost.of), pages, frames, waits === "-" ? "the reaper" : waits);
  });
  const rest = state.ghosts.length - MOST_GHOSTS;
  if (rest > 0) rows.push(row(null, "", `and ${rest} more`, "", "", ""));
  fillTable(document.getElementById("ghosts"), ["ghost", "left by", "pages", "frames", "waits for"], rows, "none");
}

function showLists(script, state) {
  const rows = Array.from({ length: PRIORITIES }, (_, priority) => {
    const lists = state.lists.map((ofMemory) => make("div", { class: "members" }, ...signs(script, ofMemory[priority])));
    return row(null, `priority ${priority}`, ...lists);
  });
  fillTable(document.getElementById("lists"), ["priority", ...MEMORIES.map((memory) => MEMORY_NAMES[memory])], rows, "");
}
