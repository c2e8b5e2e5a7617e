// Members against views.

import { CELL, FATE } from "simplex/data";
import { pen } from "simplex/theme";

export const LABEL = 130;
const TOP = 22;
const ROW = 28;
const WIDE = 20;

// How many views fit beside the labels, of a width.
export const shown = (state, width) => Math.max(1, Math.floor((width - LABEL) / state.cell));

// Where a view begins.
export const xOf = (state, view) => LABEL + (view - state.first) * state.cell;

export function heightOf(state) {
  return TOP + ROW * state.visible.length + 26;
}

// The member and the view at a point; null beside them.
export function at(run, state, x, y) {
  const row = Math.floor((y - TOP) / ROW);
  const view = Math.floor((x - LABEL) / state.cell) + state.first;
  if (x < LABEL || view < 1 || view > run.views) return null;
  return { view, member: state.visible[Math.min(Math.max(row, 0), state.visible.length - 1)] ?? 0 };
}

export function draw(canvas, run, state, colour) {
  const { context, width } = pen(canvas, heightOf(state), colour);
  const last = Math.min(run.views, state.first + shown(state, width));
  for (let view = state.first; view <= last; view += 1) drawView(context, run, state, colour, view);
  drawLabels(context, run, state, colour);
  drawSelection(context, state, colour);
}

function drawView(context, run, state, colour, view) {
  const x = xOf(state, view), cell = state.cell;
  const bottom = TOP + ROW * state.visible.length;
  if (run.fate(view) === FATE.LOST) {
    context.fillStyle = colour.lost;
    context.fillRect(x, TOP, cell, bottom - TOP + 26);
  }
  if ((view - 1) % run.header.term_length === 0 && cell >= 4) {
    context.fillStyle = colour.line;
    context.fillRect(x, TOP - 4, 1, bottom - TOP + 4);
  }
  const every = [1, 2, 5, 10, 20, 50, 100, 200, 500].find((it) => it * cell >= 44) ?? 1000;
  if (view % every === 0 || (view === 1 && every < 5)) {
    context.fillStyle = colour.faint;
    context.textAlign = "center";
    context.fillText(String(view), x + cell / 2, 11);
  }
  state.visible.forEach((member, row) => drawCell(context, run, state, colour, view, member, x, TOP + row * ROW));
  drawCertificates(context, run, state, colour, view, x, bottom + 4);
}

// A vote's colour and letter, of a cell's bits.
function votesOf(state, colour, bits) {
  const votes = [];
  if (bits & CELL.NOTARIZE && state.kinds.has("notarize")) votes.push([0, bits & CELL.OTHER ? colour.other : colour.notarize, "n"]);
  if (bits & CELL.NULLIFY && state.kinds.has("nullify")) votes.push([1, colour.nullify, "x"]);
  if (bits & CELL.FINALIZE && state.kinds.has("finalize")) votes.push([2, colour.finalize, "f"]);
  return votes;
}

function drawCell(context, run, state, colour, view, member, x, y) {
  const bits = run.cells[view * run.members + member];
  const inner = Math.max(1, state.cell - (state.cell > 5 ? 2 : 0)), strip = (ROW - 4) / 3;
  for (const [place, fill, letter] of votesOf(state, colour, bits)) {
    context.fillStyle = fill;
    context.fillRect(x + 1, y + 2 + place * strip, inner, strip - 1);
    if (state.cell >= WIDE) {
      context.fillStyle = colour.paper;
      context.font = "600 8px system-ui, sans-serif";
      context.textAlign = "center";
      context.fillText(letter, x + state.cell / 2, y + 2 + place * strip + strip / 2 - 0.5);
      context.font = "12px system-ui, sans-serif";
    }
  }
  if (run.leader(view) === member && state.cell >= 6) {
    context.strokeStyle = bits & CELL.ACCUSED ? colour.dead : colour.leader;
    context.lineWidth = bits & CELL.ACCUSED ? 2 : 1;
    context.strokeRect(x + 1, y + 1.5, inner, ROW - 4);
  }
  if (bits & (CELL.CRASH | CELL.RESUME) && state.kinds.has("process")) drawCrash(context, colour, x, y, state.cell);
}

function drawCrash(context, colour, x, y, cell) {
  const middle = x + cell / 2, half = Math.min(6, cell / 2);
  context.strokeStyle = colour["lost-ink"];
  context.lineWidth = 2;
  context.beginPath();
  context.moveTo(middle - half, y + ROW / 2 - half);
  context.lineTo(middle + half, y + ROW / 2 + half);
  context.moveTo(middle + half, y + ROW / 2 - half);
  context.lineTo(middle - half, y + ROW / 2 + half);
  context.stroke();
  context.lineWidth = 1;
}

function drawCertificates(context, run, state, colour, view, x, y) {
  const bits = run.certificates[view - 1], strip = 6;
  if (!state.kinds.has("certificate")) return;
  [[1, colour.notarize], [2, colour.nullify], [4, colour.finalize]].forEach(([bit, fill], place) => {
    if (!(bits & bit)) return;
    context.fillStyle = fill;
    context.fillRect(x + 1, y + place * strip, Math.max(1, state.cell - 2), strip - 1);
  });
}

function drawLabels(context, run, state, colour) {
  context.fillStyle = colour.paper;
  context.fillRect(0, 0, LABEL, heightOf(state));
  context.textAlign = "left";
  context.fillStyle = colour.faint;
  context.fillText("view", 10, 11);
  state.visible.forEach((member, row) => {
    context.fillStyle = member === state.member ? colour.ink : colour.faint;
    context.fillText(`member ${member}${run.isFaulty(member) ? " (faulty)" : ""}`, 10, TOP + row * ROW + ROW / 2);
  });
  context.fillStyle = colour.faint;
  context.fillText("certificates", 10, TOP + ROW * state.visible.length + 13);
}

function drawSelection(context, state, colour) {
  const row = state.visible.indexOf(state.member), x = xOf(state, state.view);
  if (x < LABEL) return;
  context.strokeStyle = colour.select;
  context.globalAlpha = 0.35;
  context.strokeRect(x + 0.5, TOP - 2, state.cell, ROW * state.visible.length + 26);
  context.globalAlpha = 1;
  context.lineWidth = 2;
  if (row >= 0) context.strokeRect(x, TOP + row * ROW, state.cell + 1, ROW);
  context.lineWidth = 1;
}
