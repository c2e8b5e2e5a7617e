// Reads what the page holds: numbers in columns, an index of events by view, and what each member did in each view.

// The same list, in the same order, as `Code` of events.rs.
export const CODE = Object.fromEntries([
  "Start", "Resume", "Crash", "Partition", "ProposalSent", "ProposalReceived", "Verified", "Invalid", "Certified", "NotCertified",
  "Notarize", "Nullify", "Finalize", "NotarizeReceived", "NullifyReceived", "FinalizeReceived",
  "NotarizationMade", "NullificationMade", "FinalizationMade", "NotarizationAccepted", "NullificationAccepted", "FinalizationAccepted",
  "Timeout", "NotarizeWithheld", "FinalizeWithheld", "Build", "Handoff", "FetchOpened", "FetchAsked", "FetchServed", "FetchSettled", "Equivocation", "ProposedTwice",
  "Finalized", "Stored", "Replaced", "Dropped", "Violation",
].map((name, number) => [name, number]));

export const NOBODY = -1;
export const FATE = { OPEN: 0, FINALIZED: 1, LOST: 2 };

// What a member did in a view, as bits of a cell.
export const CELL = { NOTARIZE: 1, NULLIFY: 2, FINALIZE: 4, OTHER: 8, PROPOSED: 16, CRASH: 32, RESUME: 64, ACCUSED: 128 };

function bytesOf(text) {
  if (Uint8Array.fromBase64) return Uint8Array.fromBase64(text);
  const letters = atob(text);
  const bytes = new Uint8Array(letters.length);
  for (let i = 0; i < letters.length; i += 1) bytes[i] = letters.charCodeAt(i);
  return bytes;
}

// The columns of all events. pack.rs writes them: seven numbers of seven bits a byte for each event.
function columns(bytes) {
  let ends = 0;
  for (let i = 0; i < bytes.length; i += 1) ends += bytes[i] < 128 ? 1 : 0;
  const count = ends / 7;
  const it = {
    count,
    at: new Float64Array(count), member: new Int16Array(count), other: new Int16Array(count), code: new Uint8Array(count),
    view: new Uint32Array(count), choice: new Uint8Array(count), value: new Float64Array(count),
  };
  let place = 0;
  const next = () => {
    let number = 0, unit = 1, byte;
    do {
      byte = bytes[place];
      place += 1;
      number += (byte & 127) * unit;
      unit *= 128;
    } while (byte > 127);
    return number;
  };
  let at = 0, view = 0;
  for (let i = 0; i < count; i += 1) {
    at += next();
    it.at[i] = at;
    it.member[i] = next() - 1;
    it.code[i] = next();
    const doubled = next();
    view += doubled % 2 === 0 ? doubled / 2 : -(doubled + 1) / 2;
    it.view[i] = view;
    it.other[i] = next() - 1;
    it.choice[i] = next();
    it.value[i] = next();
  }
  return it;
}

// For each view the places of its events, in the order of time: those of view v are order[start[v]] to order[start[v + 1] - 1].
function indexOf(events, views) {
  const start = new Uint32Array(views + 2);
  for (let i = 0; i < events.count; i += 1) if (events.view[i] <= views) start[events.view[i] + 1] += 1;
  for (let view = 0; view <= views; view += 1) start[view + 1] += start[view];
  const next = start.slice();
  const order = new Uint32Array(start[views + 1]);
  for (let i = 0; i < events.count; i += 1) {
    if (events.view[i] <= views) {
      order[next[events.view[i]]] = i;
      next[events.view[i]] += 1;
    }
  }
  return { start, order };
}

const OF_MEMBER = new Map([
  [CODE.Notarize, CELL.NOTARIZE], [CODE.Nullify, CELL.NULLIFY], [CODE.Finalize, CELL.FINALIZE], [CODE.ProposalSent, CELL.PROPOSED],
]);
const OF_OTHER = new Map([
  [CODE.NotarizeReceived, CELL.NOTARIZE], [CODE.NullifyReceived, CELL.NULLIFY], [CODE.FinalizeReceived, CELL.FINALIZE],
  [CODE.ProposalReceived, CELL.PROPOSED], [CODE.Equivocation, CELL.ACCUSED], [CODE.ProposedTwice, CELL.ACCUSED],
]);

// The bits of each view and member. A crash has no view: it is put into the last one that the member voted in.
function cellsOf(events, views, members) {
  const cells = new Uint8Array((views + 1) * members);
  const last = new Uint32Array(members).fill(1);
  const add = (view, member, bits) => {
    if (member >= 0 && member < members && view > 0 && view <= views) cells[view * members + member] |= bits;
  };
  for (let i = 0; i < events.count; i += 1) {
    const code = events.code[i], view = events.view[i], member = events.member[i];
    const own = OF_MEMBER.get(code), others = OF_OTHER.get(code);
    if (own) {
      add(view, member, own | (own === CELL.NOTARIZE && events.choice[i] > 1 ? CELL.OTHER : 0));
      if (view <= views) last[member] = Math.max(last[member], view);
    }
    if (others) add(view, events.other[i], others | (others === CELL.NOTARIZE && events.choice[i] > 1 ? CELL.OTHER : 0));
    if (code === CODE.Crash) add(last[member], member, CELL.CRASH);
    if (code === CODE.Resume) add(last[member], member, CELL.RESUME);
  }
  return cells;
}

// All that the page holds.
export function load() {
  const element = document.getElementById("events");
  const data = JSON.parse(document.getElementById("data").textContent);
  const events = columns(bytesOf(element.textContent.trim()));
  element.textContent = "";
  const views = data.fates.length, members = data.header.members;
  const { start, order } = indexOf(events, views);
  const lost = new Map(data.lost);
  return {
    ...data, events, views, members, start, order, lost,
    lostViews: [...lost.keys()],
    cells: cellsOf(events, views, members),
    leader: (view) => Math.floor((view - 1) / data.header.term_length) % members,
    isFaulty: (member) => data.header.faulty.includes(member),
    fate: (view) => data.fates[view - 1],
    proposalsOf: (view) => data.proposals[view - 1] ?? [],
    eventsOf: (view) => order.subarray(start[view], start[view + 1]),
  };
}

// The number of the first event at a moment or after it.
export function firstAt(run, moment) {
  let low = 0, high = run.events.count;
  while (low < high) {
    const middle = (low + high) >>> 1;
    if (run.events.at[middle] < moment) low = middle + 1;
    else high = middle;
  }
  return low;
}
