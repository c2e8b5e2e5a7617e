// Blocks and their parents: the finalized chain above, blocks that died below it.

import { LABEL, shown, xOf } from "simplex/grid";
import { pen } from "simplex/theme";

const LANE = 26;
const TOP = 8;
const LANES = 3;
export const HEIGHT = TOP + LANES * LANE + 6;

// Which lane a view's proposal is in: 0 on the finalized chain.
function laneOf(run, view, choice) {
  const chosen = run.fate(view) === 1 ? run.chosen[view - 1] : 0;
  if (choice === chosen) return 0;
  return Math.min(LANES - 1, chosen === 0 || choice < chosen ? choice : choice - 1);
}

const middle = (lane) => TOP + lane * LANE + LANE / 2 - 3;

export function draw(canvas, run, state, colour) {
  const { context, width } = pen(canvas, HEIGHT, colour);
  const last = Math.min(run.views, state.first + shown(state, width));
  for (let view = state.first; view <= last; view += 1) {
    run.proposalsOf(view).forEach(([parent], place) => drawEdge(context, run, state, colour, view, place + 1, parent));
  }
  for (let view = state.first; view <= last; view += 1) {
    run.proposalsOf(view).forEach(([, payload], place) => drawBlock(context, run, state, colour, view, place + 1, payload));
  }
  context.fillStyle = colour.paper;
  context.fillRect(0, 0, LABEL - 1, HEIGHT);
  context.textAlign = "left";
  context.fillStyle = colour.faint;
  context.fillText("finalized", 10, middle(0));
  context.fillText("died", 10, middle(1));
}

function drawEdge(context, run, state, colour, view, choice, parent) {
  const lane = laneOf(run, view, choice);
  const parentLane = parent === 0 ? 0 : laneOf(run, parent, run.chosen[parent - 1] || run.notarized[parent - 1] || 1);
  const from = xOf(state, view) + 2, to = Math.max(xOf(state, parent + 1) - 2, LABEL - 20);
  context.strokeStyle = lane === 0 ? colour.finalize : colour.dead;
  context.setLineDash(lane === 0 ? [] : [3, 3]);
  context.beginPath();
  context.moveTo(from, middle(lane));
  context.bezierCurveTo(from - state.cell / 2, middle(lane), to + state.cell / 2, middle(parentLane), to, middle(parentLane));
  context.stroke();
  context.setLineDash([]);
}

function drawBlock(context, run, state, colour, view, choice, payload) {
  const lane = laneOf(run, view, choice), x = xOf(state, view) + 2, width = Math.max(1, state.cell - 4);
  context.fillStyle = lane === 0 ? colour.finalize : colour.paper;
  context.fillRect(x, middle(lane) - 8, width, 16);
  context.strokeStyle = lane === 0 ? colour.finalize : colour.dead;
  if (state.cell > 5) context.strokeRect(x, middle(lane) - 8, width, 16);
  if (state.cell >= 34) {
    context.fillStyle = lane === 0 ? colour.paper : colour.dead;
    context.textAlign = "center";
    context.fillText(payload.slice(0, 4), x + width / 2, middle(lane) + 0.5);
  }
}
