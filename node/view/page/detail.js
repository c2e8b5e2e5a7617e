// The selected view in words: its fate, proposals, votes with their signers, certificates, the parent chain, and what its member did.

import { CODE, FATE, NOBODY } from "simplex/data";
import { describe, named, proposalName, seconds } from "simplex/words";

const MOST_EVENTS = 400;
const MOST_ANCESTORS = 8;

function element(name, text, attributes = {}) {
  const made = document.createElement(name);
  if (text !== undefined) made.textContent = text;
  for (const [key, value] of Object.entries(attributes)) made.setAttribute(key, value);
  return made;
}

function row(table, head, text, attributes) {
  const line = element("tr", undefined, attributes);
  line.append(element("th", head), element("td", text));
  table.append(line);
}

// What became of a view, in a sentence.
export function fateOf(run, view) {
  if (run.fate(view) === FATE.FINALIZED) return run.certificates[view - 1] & 4 ? "Finalized." : "Final: a later view of its chain is finalized.";
  if (run.fate(view) === FATE.LOST) return `Lost: ${run.lost.get(view)}.`;
  return "Undecided at the end of the trace.";
}

// Who voted what: a list of kind, choice and signers, rising.
export function votesOf(run, view) {
  const votes = new Map();
  const kinds = new Map([
    [CODE.Notarize, 0], [CODE.NotarizeReceived, 0], [CODE.Nullify, 1], [CODE.NullifyReceived, 1], [CODE.Finalize, 2], [CODE.FinalizeReceived, 2],
  ]);
  const { code, choice, member, other } = run.events;
  for (const i of run.eventsOf(view)) {
    const kind = kinds.get(code[i]);
    if (kind === undefined) continue;
    const key = kind * 256 + choice[i];
    if (!votes.has(key)) votes.set(key, new Set());
    votes.get(key).add(code[i] >= CODE.NotarizeReceived ? other[i] : member[i]);
  }
  return [...votes].sort((one, other_) => one[0] - other_[0]).map(([key, signers]) => ({
    kind: ["notarize", "nullify", "finalize"][key >> 8], choice: key & 255, signers: [...signers].sort((one, two) => one - two),
  }));
}

function votesTable(run, view) {
  const table = element("table", undefined, { id: "votes" });
  for (const { kind, choice, signers } of votesOf(run, view)) {
    const proposal = choice ? ` ${proposalName(run, view, choice)}` : "";
    const text = `${signers.length} of ${run.quorum}: ${named(signers)}`;
    row(table, `${kind}${proposal}`, text, { "data-kind": kind, "data-signers": signers.join(",") });
  }
  return table;
}

function certificatesTable(run, view) {
  const table = element("table", undefined, { id: "certificates" });
  const names = ["notarization", "nullification", "finalization"];
  const { code, member, at } = run.events;
  names.forEach((name, kind) => {
    const made = run.eventsOf(view).filter((i) => code[i] === CODE.NotarizationMade + kind);
    const accepted = run.eventsOf(view).filter((i) => code[i] === CODE.NotarizationAccepted + kind);
    const first = [...made, ...accepted].sort((one, other) => one - other)[0];
    if (first === undefined) return;
    row(table, name, `first at member ${member[first]}, ${seconds(at[first])}; ${made.length} made it, ${accepted.length} accepted it`);
  });
  return table;
}

// The proposals that lead from a view's to genesis, the nearest first: as links.
function ancestors(run, view, select) {
  const list = element("p", undefined, { id: "parents" });
  let parent = (run.proposalsOf(view)[(run.chosen[view - 1] || 1) - 1] ?? [0])[0];
  for (let count = 0; parent > 0 && count < MOST_ANCESTORS; count += 1) {
    const link = element("a", `view ${parent}`, { href: `#view=${parent}` });
    const target = parent;
    link.addEventListener("click", (event) => {
      event.preventDefault();
      select(target);
    });
    list.append(link, run.fate(parent) === FATE.LOST ? " (lost) ← " : " ← ");
    parent = (run.proposalsOf(parent)[(run.chosen[parent - 1] || run.notarized[parent - 1] || 1) - 1] ?? [0])[0];
  }
  list.append(parent === 0 ? "genesis" : "…");
  return list;
}

function eventsOf(run, view, member, isShown) {
  const list = element("ol", undefined, { class: "events", id: "view-events" });
  const all = [...run.eventsOf(view)].filter((i) => run.events.member[i] === member || run.events.member[i] === NOBODY).filter(isShown);
  for (const i of all.slice(0, MOST_EVENTS)) list.append(element("li", `${seconds(run.events.at[i])}  ${describe(run, i)}`));
  if (all.length > MOST_EVENTS) list.append(element("li", `… and ${all.length - MOST_EVENTS} more`));
  if (all.length === 0) list.append(element("li", "nothing that is shown"));
  return list;
}

// Fills the panel of a view and a member.
export function show(panel, run, view, member, select, isShown) {
  const leader = run.leader(view);
  const fate = element("p", fateOf(run, view), { id: "fate", class: ["", "finalized", "lost"][run.fate(view)] });
  const parts = [
    element("h2", `View ${view}`), fate,
    element("p", `Leader: member ${leader}${run.isFaulty(leader) ? ", which is faulty" : ""}.`),
    element("h3", "Proposals"),
  ];
  const proposals = element("table", undefined, { id: "proposals" });
  run.proposalsOf(view).forEach(([parent, payload], place) => {
    row(proposals, payload.slice(0, 4), `on ${parent === 0 ? "genesis" : `view ${parent}`}, payload ${payload}…`, { "data-choice": place + 1 });
  });
  parts.push(run.proposalsOf(view).length ? proposals : element("p", "None was seen."));
  parts.push(element("h3", "Votes"), votesTable(run, view), element("h3", "Certificates"), certificatesTable(run, view));
  parts.push(element("h3", "Parent chain"), ancestors(run, view, select));
  parts.push(element("h3", `Member ${member} in this view`), eventsOf(run, view, member, isShown));
  panel.replaceChildren(...parts);
}
