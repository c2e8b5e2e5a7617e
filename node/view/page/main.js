// Puts the page together: what is selected, what is shown, and how keys and pointers change it.

import { CODE, load } from "simplex/data";
import * as chain from "simplex/chain";
import * as detail from "simplex/detail";
import * as grid from "simplex/grid";
import { colours, onChange } from "simplex/theme";
import * as timeline from "simplex/timeline";
import { KINDS, seconds } from "simplex/words";

const MOST_LOST = 200;
const begun = performance.now();
const run = load();
const find = (id) => document.getElementById(id);
const canvas = { grid: find("grid"), chain: find("chain"), timeline: find("timeline") };
const state = {
  view: 1, member: 0, first: 1, cell: 22, time: null,
  visible: Array.from({ length: run.members }, (_, member) => member),
  kinds: new Set(KINDS.map(([name]) => name).filter((name) => name !== "store")),
};
const kindOfCode = new Map(KINDS.flatMap(([name, , codes]) => codes.map((code) => [code, name])));
let colour = colours();
let isAsked = false;

function drawAll() {
  isAsked = false;
  grid.draw(canvas.grid, run, state, colour);
  chain.draw(canvas.chain, run, state, colour);
  const seen = timeline.draw(canvas.timeline, run, state, colour);
  find("timeline-status").textContent =
    `${seconds(seen.from)} to ${seconds(seen.to)}: ${seen.events} events, ${seen.arrows} messages drawn` +
    (seen.arrows ? "." : ". Zoom in to see messages.");
}

function redraw() {
  if (!isAsked) requestAnimationFrame(drawAll);
  isAsked = true;
}

const clamp = (number, least, most) => Math.min(Math.max(number, least), most);

function select(view, member = state.member) {
  state.view = clamp(Math.round(view) || 1, 1, Math.max(1, run.views));
  state.member = state.visible.includes(member) ? member : state.visible[0] ?? 0;
  state.time = null;
  const count = grid.shown(state, canvas.grid.clientWidth);
  if (state.view < state.first || state.view >= state.first + count) {
    const isStep = state.view === state.first - 1 || state.view === state.first + count;
    state.first = clamp(state.view - Math.floor(count / (isStep ? 4 : 2)), 1, Math.max(1, run.views - count + 1));
  }
  find("view").value = find("slider").value = state.view;
  find("status").textContent = `View ${state.view}, leader ${run.leader(state.view)}. ${detail.fateOf(run, state.view)}`;
  detail.show(find("detail"), run, state.view, state.member, select, (i) => state.kinds.has(kindOfCode.get(run.events.code[i])));
  history.replaceState(null, "", `#view=${state.view}`);
  redraw();
}

function zoom(factor) {
  const count = grid.shown(state, canvas.grid.clientWidth);
  state.cell = clamp(state.cell * factor, 2, 64);
  const shown = grid.shown(state, canvas.grid.clientWidth);
  state.first = clamp(Math.round(state.first + (count - shown) / 2), 1, Math.max(1, run.views - shown + 1));
  select(state.view);
}

// The next lost view, or the previous one.
function lost(step) {
  const found = step > 0 ? run.lostViews.find((it) => it > state.view) : run.lostViews.findLast((it) => it < state.view);
  if (found) select(found);
}

function stepMember(step) {
  const place = clamp(state.visible.indexOf(state.member) + step, 0, state.visible.length - 1);
  select(state.view, state.visible[place]);
}

const KEYS = {
  ArrowLeft: () => select(state.view - 1), ArrowRight: () => select(state.view + 1),
  ArrowUp: () => stepMember(-1), ArrowDown: () => stepMember(1),
  PageUp: () => select(state.view - 10), PageDown: () => select(state.view + 10),
  Home: () => select(1), End: () => select(run.views),
  n: () => lost(1), p: () => lost(-1), "+": () => zoom(1.4), "=": () => zoom(1.4), "-": () => zoom(1 / 1.4), "−": () => zoom(1 / 1.4),
};

document.addEventListener("keydown", (event) => {
  const isTyped = event.target instanceof HTMLInputElement && event.target.type !== "checkbox";
  if (isTyped || event.ctrlKey || event.metaKey || event.altKey || !KEYS[event.key]) return;
  event.preventDefault();
  if (document.activeElement === canvas.timeline && "+=-−".includes(event.key)) zoomTime("+=".includes(event.key) ? 0.6 : 1 / 0.6, 0.5);
  else KEYS[event.key]();
});

function scroll(views) {
  const count = grid.shown(state, canvas.grid.clientWidth);
  state.first = clamp(Math.round(state.first + views), 1, Math.max(1, run.views - count + 1));
  redraw();
}

function zoomTime(factor, share) {
  const [from, to] = timeline.windowOf(run, state);
  const middle = from + (to - from) * share, length = Math.max(100, (to - from) * factor);
  state.time = [middle - length * share, middle + length * (1 - share)];
  redraw();
}

function moveTime(share) {
  const [from, to] = timeline.windowOf(run, state);
  state.time = [from + (to - from) * share, to + (to - from) * share];
  redraw();
}

// Calls back while a pointer is dragged, with how far it moved.
function onDrag(target, callback) {
  let last = null;
  target.addEventListener("pointerdown", (event) => {
    last = event.clientX;
    target.setPointerCapture(event.pointerId);
  });
  target.addEventListener("pointermove", (event) => {
    if (last !== null && event.buttons && Math.abs(event.clientX - last) >= 3) {
      callback(event.clientX - last);
      last = event.clientX;
    }
  });
  target.addEventListener("pointerup", () => { last = null; });
}

function listenToPointers() {
  canvas.grid.addEventListener("click", (event) => {
    const found = grid.at(run, state, event.offsetX, event.offsetY);
    if (found) select(found.view, found.member);
  });
  for (const it of [canvas.grid, canvas.chain]) {
    it.addEventListener("wheel", (event) => {
      event.preventDefault();
      if (event.ctrlKey) zoom(event.deltaY < 0 ? 1.2 : 1 / 1.2);
      else scroll((event.deltaX + event.deltaY) / state.cell);
    }, { passive: false });
  }
  let carried = 0;
  onDrag(canvas.grid, (pixels) => {
    carried -= pixels / state.cell;
    scroll(Math.trunc(carried));
    carried -= Math.trunc(carried);
  });
  canvas.chain.addEventListener("click", (event) => {
    const found = grid.at(run, state, event.offsetX, 0);
    if (found) select(found.view);
  });
  canvas.timeline.addEventListener("wheel", (event) => {
    event.preventDefault();
    const share = clamp((event.offsetX - grid.LABEL) / Math.max(1, canvas.timeline.clientWidth - grid.LABEL), 0, 1);
    zoomTime(event.deltaY < 0 ? 0.8 : 1.25, share);
  }, { passive: false });
  onDrag(canvas.timeline, (pixels) => moveTime(-pixels / Math.max(1, canvas.timeline.clientWidth - grid.LABEL)));
}

function listenToControls() {
  find("earlier").addEventListener("click", KEYS.ArrowLeft);
  find("later").addEventListener("click", KEYS.ArrowRight);
  find("lost-before").addEventListener("click", KEYS.p);
  find("lost-after").addEventListener("click", KEYS.n);
  find("wider").addEventListener("click", KEYS["+"]);
  find("narrower").addEventListener("click", KEYS["-"]);
  find("slider").addEventListener("input", (event) => select(Number(event.target.value)));
  find("view").addEventListener("change", (event) => select(Number(event.target.value)));
  addEventListener("resize", redraw);
  addEventListener("hashchange", selectByHash);
  const recolour = () => {
    colour = colours();
    drawAll();
  };
  onChange(recolour);
  addEventListener("beforeprint", recolour);
  addEventListener("afterprint", recolour);
}

function box(parent, name, text, isOn, callback) {
  const label = document.createElement("label"), input = document.createElement("input");
  Object.assign(input, { type: "checkbox", checked: isOn, name });
  input.addEventListener("change", () => {
    callback(input.checked);
    select(state.view);
  });
  label.append(input, ` ${text}`);
  parent.append(label);
}

function showFilters() {
  for (let member = 0; member < run.members; member += 1) {
    box(find("members"), `member-${member}`, String(member), true, (isOn) => {
      const others = state.visible.filter((it) => it !== member);
      state.visible = (isOn ? [...others, member] : others).sort((one, other) => one - other);
    });
  }
  for (const [name, text] of KINDS) {
    box(find("kinds"), `kind-${name}`, text, state.kinds.has(name), (isOn) => (isOn ? state.kinds.add(name) : state.kinds.delete(name)));
  }
}

function showCounters() {
  const it = run.summary, number = (value, digits = 0) => value.toLocaleString("en", { maximumFractionDigits: digits });
  const counters = [
    ["views", number(it.views)], ["finalized", number(it.finalized)], ["lost", number(it.lost)], ["events", number(it.events)],
    ["seconds", number(it.seconds, 1)], ["finalized views a second", number(it.views_a_second, 1)],
    ["build to final, 50 %", it.latency ? `${number(it.latency[0], 1)} ms` : "not seen"],
    ["build to final, 99 %", it.latency ? `${number(it.latency[1], 1)} ms` : "not seen"],
    ["stored bytes a view and member", number(it.stored_bytes / Math.max(1, it.views) / run.members)],
    ...(it.dropped ? [["events dropped", number(it.dropped)]] : []),
  ];
  find("counters").replaceChildren(...counters.map(([name, value]) => {
    const group = document.createElement("div"), head = document.createElement("dt"), text = document.createElement("dd");
    head.textContent = name;
    text.textContent = value;
    group.append(head, text);
    return group;
  }));
  const { members, faulty, term_length: term, optimistic_views: optimistic, source } = run.header;
  find("source").textContent = `${source}: ${members} members, ${faulty.length} faulty on purpose; terms of ${term} ` +
    `${term === 1 ? "view" : "views"}, ${optimistic} optimistic; ${run.quorum} votes make a certificate.`;
}

function showLegend() {
  const entries = [
    ["notarize", "n: notarize, notarization"], ["other", "n: notarize another proposal"],
    ["nullify", "x: nullify, nullification"], ["finalize", "f: finalize, finalization"], ["lost", "lost view"],
  ];
  const items = entries.map(([name, text]) => {
    const item = document.createElement("li"), patch = document.createElement("i");
    patch.style.background = `var(--${name})`;
    item.append(patch, text);
    return item;
  });
  const frame = document.createElement("li");
  frame.textContent = "framed: the leader, in red where two votes of it contradict each other; ×: its process ended";
  find("legend").replaceChildren(...items, frame);
}

function showLost() {
  find("lost-count").textContent = run.lostViews.length === 0 ? "None." :
    `${run.lostViews.length} of ${run.views}${run.lostViews.length > MOST_LOST ? `; the first ${MOST_LOST}` : ""}:`;
  find("lost").replaceChildren(...run.lostViews.slice(0, MOST_LOST).map((view) => {
    const item = document.createElement("li"), link = document.createElement("a");
    link.href = `#view=${view}`;
    link.textContent = `View ${view}`;
    item.append(link, `: ${run.lost.get(view)}.`);
    item.dataset.view = view;
    return item;
  }));
}

function showViolations() {
  if (run.summary.violations === 0) return;
  find("violations-section").hidden = false;
  run.events.code.forEach((code, i) => {
    if (code !== CODE.Violation) return;
    const item = document.createElement("li");
    item.textContent = `${seconds(run.events.at[i])}: ${run.texts[run.events.value[i]]}.`;
    find("violations").append(item);
  });
}

function selectByHash() {
  const view = Number(new URLSearchParams(location.hash.slice(1)).get("view"));
  select(view || state.view);
}

for (const id of ["view", "slider"]) find(id).max = Math.max(1, run.views);
showFilters();
showCounters();
showLegend();
showLost();
showViolations();
listenToPointers();
listenToControls();
selectByHash();
drawAll();
document.body.dataset.ready = String(Math.round(performance.now() - begun));
