// Events of each member in time, and messages as arrows between them when few enough are seen.

import { CODE, NOBODY, firstAt } from "simplex/data";
import { LABEL } from "simplex/grid";
import { pen } from "simplex/theme";
import { KINDS, seconds } from "simplex/words";

const ROW = 26;
const BOTTOM = 24;
const MOST_ARROWS = 1500;
const MOST_EVENTS = 60000;

const KIND_OF = new Map(KINDS.flatMap(([name, , codes]) => codes.map((code) => [code, name])));
const SENT_AS = new Map([
  [CODE.ProposalReceived, CODE.ProposalSent], [CODE.NotarizeReceived, CODE.Notarize], [CODE.NullifyReceived, CODE.Nullify],
  [CODE.FinalizeReceived, CODE.Finalize],
]);

export const heightOf = (state) => ROW * state.visible.length + BOTTOM + 6;
const yOf = (state, member) => 6 + state.visible.indexOf(member) * ROW + ROW / 2;

function colourOf(colour, code) {
  const kind = KIND_OF.get(code);
  if (kind === "notarize" || code === CODE.NotarizationMade || code === CODE.NotarizationAccepted) return colour.notarize;
  if (kind === "nullify" || code === CODE.NullificationMade || code === CODE.NullificationAccepted) return colour.nullify;
  if (kind === "finalize" || code === CODE.FinalizationMade || code === CODE.FinalizationAccepted) return colour.finalize;
  return kind === "process" ? colour["lost-ink"] : colour.proposal;
}

// The moments that are shown: around the selected view, or where the reader moved to.
export function windowOf(run, state) {
  if (state.time) return state.time;
  const all = run.eventsOf(state.view);
  if (all.length === 0) return [0, 1e6];
  const from = run.events.at[all[0]];
  const to = Math.max(run.events.at[all[Math.floor((all.length - 1) * 0.6)]], from + 1000);
  const margin = (to - from) * 0.08;
  return [Math.max(0, from - margin), to + margin];
}

// Draws, and returns how many events and messages are shown.
export function draw(canvas, run, state, colour) {
  const { context, width } = pen(canvas, heightOf(state), colour);
  const [from, to] = windowOf(run, state);
  const x = (at) => LABEL + ((at - from) / (to - from)) * (width - LABEL - 12);
  drawRows(context, run, state, colour, width);
  drawAxis(context, state, colour, width, from, to, x);
  const first = firstAt(run, from), last = firstAt(run, to);
  const step = Math.max(1, Math.ceil((last - first) / MOST_EVENTS));
  const seen = [];
  for (let i = first; i < last; i += step) if (isShown(run, state, i)) seen.push(i);
  const received = seen.filter((i) => SENT_AS.has(run.events.code[i]));
  const arrows = received.length <= MOST_ARROWS && step === 1 ? received : [];
  context.save();
  context.beginPath();
  context.rect(LABEL - 5, 0, width - LABEL, heightOf(state));
  context.clip();
  for (const i of arrows) drawArrow(context, run, state, colour, x, i);
  for (const i of seen) if (!SENT_AS.has(run.events.code[i])) drawEvent(context, run, state, colour, x, i);
  context.restore();
  return { events: last - first, arrows: arrows.length, from, to };
}

function isShown(run, state, i) {
  const member = run.events.member[i];
  return (member === NOBODY || state.visible.includes(member)) && state.kinds.has(KIND_OF.get(run.events.code[i]));
}

function drawRows(context, run, state, colour, width) {
  context.textAlign = "left";
  for (const member of state.visible) {
    context.fillStyle = colour.line;
    context.fillRect(LABEL, yOf(state, member), width - LABEL - 12, 1);
    context.fillStyle = colour.faint;
    context.fillText(`member ${member}${run.isFaulty(member) ? " (faulty)" : ""}`, 10, yOf(state, member));
  }
}

function drawAxis(context, state, colour, width, from, to, x) {
  const y = heightOf(state) - BOTTOM / 2 - 2;
  const least = ((to - from) * 90) / Math.max(90, width - LABEL);
  const power = 10 ** Math.floor(Math.log10(least));
  const unit = [1, 2, 5, 10].map((it) => it * power).find((it) => it >= least);
  context.fillStyle = colour.faint;
  context.textAlign = "center";
  for (let at = Math.ceil(from / unit) * unit; at <= to; at += unit) {
    context.fillRect(x(at), y - 12, 1, 5);
    context.fillText(seconds(at), x(at), y + 2);
  }
}

// When the message of an event was sent: the last fitting event of the sender before it.
function sentAt(run, i) {
  const { code, choice, member, other, at, view } = run.events;
  const wanted = SENT_AS.get(code[i]), all = run.eventsOf(view[i]);
  let found = -1;
  for (const j of all) {
    if (j >= i) break;
    const isIt = code[j] === wanted || (wanted === CODE.Notarize && code[j] === CODE.ProposalSent);
    if (isIt && member[j] === other[i] && choice[j] === choice[i]) found = at[j];
  }
  return found;
}

function drawArrow(context, run, state, colour, x, i) {
  const { member, other, code, at } = run.events;
  const sent = sentAt(run, i);
  if (sent < 0 || !state.visible.includes(other[i])) return;
  const [fromX, fromY, toX, toY] = [x(sent), yOf(state, other[i]), x(at[i]), yOf(state, member[i])];
  const angle = Math.atan2(toY - fromY, toX - fromX);
  context.strokeStyle = context.fillStyle = colourOf(colour, code[i]);
  context.globalAlpha = 0.45;
  context.beginPath();
  context.moveTo(fromX, fromY);
  context.lineTo(toX, toY);
  context.stroke();
  context.beginPath();
  context.moveTo(toX, toY);
  context.lineTo(toX - 6 * Math.cos(angle - 0.4), toY - 6 * Math.sin(angle - 0.4));
  context.lineTo(toX - 6 * Math.cos(angle + 0.4), toY - 6 * Math.sin(angle + 0.4));
  context.fill();
  context.globalAlpha = 1;
}

function drawEvent(context, run, state, colour, x, i) {
  const { member, code, at } = run.events;
  context.fillStyle = colourOf(colour, code[i]);
  if (member[i] === NOBODY) {
    context.fillRect(x(at[i]), 4, 2, heightOf(state) - BOTTOM - 4);
    return;
  }
  const y = yOf(state, member[i]);
  const isCertificate = KIND_OF.get(code[i]) === "certificate";
  if (isCertificate) {
    context.fillRect(x(at[i]) - 4, y - 4, 8, 8);
  } else {
    context.beginPath();
    context.arc(x(at[i]), y, KIND_OF.get(code[i]) === "store" ? 1.5 : 3.5, 0, 7);
    context.fill();
  }
}
