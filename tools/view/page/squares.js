"use strict";
// Draws pages, frames and slots as squares: a buffer's in its colour, a target hatched, a ghost grey with dots, free ones empty.

const CELLS = [28, 25, 22, 18, 15, 12, 10, 8, 7, 6, 5, 4, 3, 2]; // pixels of a square with its gap
const TALLEST = 132; // pixels of an area
const GUTTER = 44; // pixels for the number of the first page of a row
const EDGE = 1; // pixels above and left of the squares, for frames
const LETTERS = 16; // the least square with letters
const FAINT = 0.25;

const PATTERNS = new Map();

/** Returns how many squares a row has and how large they are, for `count` squares in `width` pixels. */
function gridOf(count, width) {
  for (const cell of CELLS) {
    const columns = columnsOf(Math.floor((width - GUTTER) / cell));
    const rows = Math.ceil(count / columns);
    if (rows * cell <= TALLEST || cell === CELLS[CELLS.length - 1]) return { cell, columns, rows };
  }
  return null;
}

/** Rounds a number of columns down to a number by which pages are easily counted. */
function columnsOf(most) {
  for (const step of [64, 32, 16, 8, 4]) if (most >= step) return most - (most % step);
  return Math.max(1, most);
}

/** Draws one area; `changed` tells which pages the entry gave another owner. Where a buffer is chosen, the pages of others are faint. */
function drawArea(canvas, script, owners, changed, chosen) {
  const grid = gridOf(owners.length, canvas.parentElement.clientWidth);
  const scale = window.devicePixelRatio || 1;
  const width = GUTTER + grid.columns * grid.cell + EDGE;
  const height = Math.max(grid.rows * grid.cell, 10) + EDGE;
  canvas.width = width * scale;
  canvas.height = height * scale;
  canvas.style.width = `${width}px`;
  canvas.style.height = `${height}px`;
  canvas.grid = grid;
  const pen = canvas.getContext("2d");
  pen.scale(scale, scale);
  drawRowNumbers(pen, grid, owners.length);
  const rows = [];
  for (const run of runsOf(owners)) rows.push(...cutRun(run, grid.columns));
  for (const run of rows) {
    pen.globalAlpha = chosen === null || run[2] === 0 || (run[2] > 0 && bufferOf(run[2]) === chosen) ? 1 : FAINT;
    drawRun(pen, script, grid, run);
  }
  pen.globalAlpha = 1;
  for (const run of rows) drawChanges(pen, grid, run, changed);
}

function drawRowNumbers(pen, grid, count) {
  pen.fillStyle = COLOURS.quiet;
  pen.font = `10px ${MONO}`;
  pen.textAlign = "right";
  pen.textBaseline = "middle";
  const every = Math.max(1, Math.ceil(12 / grid.cell));
  for (let row = 0; row * grid.columns < count; row += every) {
    const middle = EDGE + row * grid.cell + Math.max(grid.cell, 10) / 2;
    if (row === 0 || middle + 4 <= grid.rows * grid.cell) pen.fillText(String(row * grid.columns), GUTTER - 8, middle);
  }
}

/** Cuts a run where rows end. */
function cutRun([first, last, owner], columns) {
  const pieces = [];
  while (first < last) {
    const stop = Math.min(last, first - (first % columns) + columns);
    pieces.push([first, stop, owner]);
    first = stop;
  }
  return pieces;
}

function placeOf(grid, page) {
  return [GUTTER + (page % grid.columns) * grid.cell, EDGE + Math.floor(page / grid.columns) * grid.cell];
}

function drawRun(pen, script, grid, [first, last, owner]) {
  const gap = grid.cell >= 10 ? 2 : grid.cell >= 5 ? 1 : 0;
  const size = grid.cell - gap;
  pen.fillStyle = fillOf(pen, script, owner);
  for (let page = first; page < last; page += 1) {
    const [x, y] = placeOf(grid, page);
    pen.fillRect(x, y, size, size);
    if (grid.cell >= 8 && (owner === 0 || isTarget(owner))) {
      pen.strokeStyle = owner === 0 ? COLOURS.line : script.buffers[bufferOf(owner)].colour;
      pen.lineWidth = 1;
      pen.strokeRect(x + 0.5, y + 0.5, size - 1, size - 1);
    }
  }
  if (owner !== 0 && grid.cell >= LETTERS) drawLabel(pen, script, grid, first, last, owner, size);
}

/** Writes an owner's name over its pages in a row, if it fits. */
function drawLabel(pen, script, grid, first, last, owner, size) {
  const text = isGhost(owner) ? `g${-owner}` : script.buffers[bufferOf(owner)].name;
  const [x, y] = placeOf(grid, first);
  const room = (last - first - 1) * grid.cell + size;
  pen.font = `600 ${grid.cell >= 22 ? 12 : 10}px ${MONO}`;
  pen.textAlign = "center";
  pen.textBaseline = "middle";
  const width = pen.measureText(text).width;
  if (width > room - 2) return;
  const isPlain = owner > 0 && !isTarget(owner);
  const [middle, line] = [x + room / 2, y + size / 2 + 0.5];
  if (!isPlain || last - first > 1) {
    pen.fillStyle = isPlain ? script.buffers[bufferOf(owner)].colour : COLOURS.paper;
    pen.fillRect(middle - width / 2 - 2, line - 7, width + 4, 13);
  }
  pen.fillStyle = isPlain ? script.buffers[bufferOf(owner)].letters : COLOURS.ink;
  pen.fillText(text, middle, line);
}

/** Frames the pages of a row that have another owner since the last entry. */
function drawChanges(pen, grid, [first, last], changed) {
  pen.strokeStyle = COLOURS.accent;
  pen.lineWidth = 2;
  for (let page = first; page < last; page += 1) {
    if (!changed[page]) continue;
    let stop = page + 1;
    while (stop < last && changed[stop]) stop += 1;
    const [x, y] = placeOf(grid, page);
    const gap = grid.cell >= 10 ? 2 : grid.cell >= 5 ? 1 : 0;
    pen.strokeRect(x, y, (stop - page) * grid.cell - gap, grid.cell - gap);
    page = stop;
  }
}

/** Returns what the squares of an owner are filled with. */
function fillOf(pen, script, owner) {
  if (owner === 0) return COLOURS.free;
  if (isGhost(owner)) return patternOf(pen, "ghost", drawGhostTile);
  const colour = script.buffers[bufferOf(owner)].colour;
  return isTarget(owner) ? patternOf(pen, colour, (tile) => drawTargetTile(tile, colour)) : colour;
}

function patternOf(pen, key, draw) {
  if (!PATTERNS.has(key)) {
    const tile = document.createElement("canvas");
    tile.width = tile.height = 8;
    draw(tile.getContext("2d"));
    PATTERNS.set(key, pen.createPattern(tile, "repeat"));
  }
  return PATTERNS.get(key);
}

function drawTargetTile(tile, colour) {
  tile.fillStyle = COLOURS.paper;
  tile.fillRect(0, 0, 8, 8);
  tile.strokeStyle = colour;
  tile.lineWidth = 2.4;
  for (const shift of [-8, 0, 8]) {
    tile.beginPath();
    tile.moveTo(shift - 2, 10);
    tile.lineTo(shift + 10, -2);
    tile.stroke();
  }
}

function drawGhostTile(tile) {
  tile.fillStyle = COLOURS.ghostPaper;
  tile.fillRect(0, 0, 8, 8);
  tile.fillStyle = COLOURS.ghost;
  for (const [x, y] of [[2, 2], [6, 6]]) {
    tile.beginPath();
    tile.arc(x, y, 1.4, 0, 2 * Math.PI);
    tile.fill();
  }
}

/** Returns the page at a point of an area's canvas, or -1. */
function pageAt(canvas, x, y, count) {
  const grid = canvas.grid;
  const column = Math.floor((x - GUTTER) / grid.cell);
  if (column < 0 || column >= grid.columns) return -1;
  const page = Math.floor(y / grid.cell) * grid.columns + column;
  return page < count ? page : -1;
}
