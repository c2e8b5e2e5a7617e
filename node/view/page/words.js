// Events in words.

import { CODE, NOBODY } from "simplex/data";

const FETCHES = ["notarization", "nullification", "decision"];

// A moment since the beginning, in seconds.
export const seconds = (at) => `${(at / 1e6).toFixed(at < 1e7 ? 3 : 2)} s`;

// The name of a view's proposal, from 1: the first four digits of its payload.
export function proposalName(run, view, choice) {
  const proposal = run.proposalsOf(view)[choice - 1];
  return proposal ? proposal[1].slice(0, 4) : "?";
}

export const named = (list) => (list.length === 1 ? `member ${list[0]}` : `members ${list.join(", ")}`);

const signers = (run, i) => (run.sets[run.events.value[i]] ?? []).join(", ");
const proposal = (run, i) => proposalName(run, run.events.view[i], run.events.choice[i]);
const parent = (view) => (view === 0 ? "genesis" : `view ${view}`);

const WORDS = {
  Start: () => "begins",
  Resume: (run, i) => `comes back from a journal of ${run.events.value[i]} entries`,
  Crash: () => "its process ends",
  Partition: (run, i) => {
    const groups = run.texts[run.events.value[i]];
    return groups.includes("|") ? `links are cut: ${groups.replace("|", " and ")}` : "all links are joined";
  },
  ProposalSent: (run, i) => {
    const to = run.sets[run.events.value[i]] ?? [];
    return `proposes ${proposal(run, i)}${to.length ? ` to ${named(to)}` : ""}`;
  },
  ProposalReceived: (run, i) => `receives proposal ${proposal(run, i)} of member ${run.events.other[i]}`,
  Verified: () => "finds the proposal valid",
  Invalid: () => "finds the proposal invalid",
  Certified: () => "certifies the proposal",
  NotCertified: () => "does not certify the proposal",
  Notarize: (run, i) => `votes to notarize ${proposal(run, i)}`,
  Nullify: () => "votes to nullify",
  Finalize: (run, i) => `votes to finalize ${proposal(run, i)}`,
  NotarizeReceived: (run, i) => `receives member ${run.events.other[i]}'s vote to notarize ${proposal(run, i)}`,
  NullifyReceived: (run, i) => `receives member ${run.events.other[i]}'s vote to nullify`,
  FinalizeReceived: (run, i) => `receives member ${run.events.other[i]}'s vote to finalize ${proposal(run, i)}`,
  NotarizationMade: (run, i) => `makes a notarization of ${proposal(run, i)}, of the votes of ${signers(run, i)}`,
  NullificationMade: (run, i) => `makes a nullification, of the votes of ${signers(run, i)}`,
  FinalizationMade: (run, i) => `makes a finalization of ${proposal(run, i)}, of the votes of ${signers(run, i)}`,
  NotarizationAccepted: (run, i) => `accepts a notarization of ${proposal(run, i)}`,
  NullificationAccepted: () => "accepts a nullification",
  FinalizationAccepted: (run, i) => `accepts a finalization of ${proposal(run, i)}`,
  Timeout: (run, i) => `gives the view up: ${run.reasons[run.events.choice[i]]}`,
  NotarizeWithheld: (run, i) => `withholds its vote to notarize: ${run.withheld[run.events.choice[i]]}`,
  FinalizeWithheld: (run, i) => `withholds its vote to finalize: ${run.withheld[run.events.choice[i]]}`,
  Build: (run, i) => `builds on ${parent(run.events.value[i])}`,
  Handoff: (run, i) => `builds on ${parent(run.events.value[i])} before it is certified: a handoff`,
  FetchOpened: (run, i) => `misses a ${FETCHES[run.events.choice[i]]}: a fetch`,
  FetchAsked: (run, i) => {
    const of = run.events.other[i];
    return `asks ${of === NOBODY ? "nobody" : `member ${of}`} for a ${FETCHES[run.events.choice[i]]}`;
  },
  FetchServed: (run, i) => `serves member ${run.events.other[i]}, which asked for a ${FETCHES[run.events.choice[i]]}`,
  FetchSettled: (run, i) => `has the ${FETCHES[run.events.choice[i]]}: the fetch is settled`,
  Equivocation: (run, i) => `has evidence: two votes of member ${run.events.other[i]}`,
  ProposedTwice: (run, i) => `sees by certificates that leader ${run.events.other[i]} proposed twice`,
  Finalized: (run, i) => `finalizes ${proposal(run, i)} and all below it`,
  Stored: (run, i) => `stores ${run.events.value[i]} bytes`,
  Replaced: (run, i) => `stores ${run.events.value[i]} bytes in place of its journal`,
  Dropped: (run, i) => `${run.events.value[i]} events were dropped here`,
  Violation: (run, i) => run.texts[run.events.value[i]],
};

const BY_CODE = Object.entries(CODE).sort((one, other) => one[1] - other[1]).map(([name]) => WORDS[name]);

// What an event says, without its member and moment.
export const describe = (run, i) => BY_CODE[run.events.code[i]](run, i);

// The kinds of events that a reader can show and hide, each with its codes.
export const KINDS = [
  ["notarize", "votes to notarize", [CODE.Notarize, CODE.NotarizeReceived, CODE.NotarizeWithheld]],
  ["nullify", "votes to nullify", [CODE.Nullify, CODE.NullifyReceived, CODE.Timeout]],
  ["finalize", "votes to finalize", [CODE.Finalize, CODE.FinalizeReceived, CODE.FinalizeWithheld, CODE.Finalized]],
  ["proposal", "proposals", [
    CODE.ProposalSent, CODE.ProposalReceived, CODE.Verified, CODE.Invalid, CODE.Certified, CODE.NotCertified, CODE.Build, CODE.Handoff,
  ]],
  ["certificate", "certificates", [
    CODE.NotarizationMade, CODE.NullificationMade, CODE.FinalizationMade,
    CODE.NotarizationAccepted, CODE.NullificationAccepted, CODE.FinalizationAccepted,
  ]],
  ["fetch", "fetches", [CODE.FetchOpened, CODE.FetchAsked, CODE.FetchServed, CODE.FetchSettled]],
  ["process", "processes and evidence", [
    CODE.Start, CODE.Resume, CODE.Crash, CODE.Partition, CODE.Equivocation, CODE.ProposedTwice, CODE.Violation, CODE.Dropped,
  ]],
  ["store", "stores", [CODE.Stored, CODE.Replaced]],
];
