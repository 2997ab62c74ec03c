// ---- the axis: the events of the calls that are shown, with a cut where others are left out between them ----

const CUT = 1.4, LEAST_CUT = 4;
const axis = { at: [0], to: [0], cuts: [], length: 0 };

/** A part of the axis, from the end of the one before it up to an event. */
function addPart(until, isCut) {
  const last = axis.at.length - 1, from = axis.at[last];
  if (until === from) return;
  axis.at.push(until);
  axis.to.push(axis.to[last] + (isCut ? CUT : until - from));
  axis.cuts.push(isCut);
}

/** An axis of these rising events, or of all: a stretch without any is as wide as its events up to `LEAST_CUT`, and else a cut. */
function makeAxis(kept) {
  Object.assign(axis, { at: [0], to: [0], cuts: [] });
  let after = kept ? 0 : told.events;
  for (const event of [...kept || [], told.events]) {
    if (event - after >= LEAST_CUT) {
      addPart(after, false);
      addPart(event, true);
    }
    after = event + 1;
  }
  addPart(told.events, false);
  axis.length = axis.to[axis.to.length - 1];
}

/** Where on the axis an event is; beyond the ends, and outside of cuts, an event is as wide as 1. */
const fold = event => between(axis.at, axis.to, event);
const unfold = spot => between(axis.to, axis.at, spot);

function between(from, to, value) {
  const after = firstFrom(from, value);
  if (after === from.length) return to[after - 1] + value - from[after - 1];
  if (!after || from[after] === value) return to[after] + value - from[after];
  return to[after - 1] + (value - from[after - 1]) * (to[after] - to[after - 1]) / (from[after] - from[after - 1]);
}

/** How many events are left out of the axis. */
const leftOut = () => axis.cuts.reduce((sum, isCut, part) => sum + (isCut ? axis.at[part + 1] - axis.at[part] : 0), 0);

/** Where a call's box begins and ends on the axis. */
const startOf = call => fold(call) + 0.12;
const stopOf = call => fold(endOf(call)) + 0.88;

// ---- what is shown: lanes, and the log's members ----

/** Shows these calls alone, and the threads that make them; all where there is no set, but of a segment, which may have 65,535 threads, no
 *  thread without a call. */
function showCalls(shown) {
  const lanes = Array.from({ length: Math.max(told.threads, 1) }, (_, thread) => ({ thread, calls: [], from: [], reach: [], points: 0 }));
  for (const call of run.calls) if (!shown || shown.has(call)) {
    lanes[threadOf(call)].calls.push(call);
    if (isApart(call)) lanes[threadOf(call)].points++;
  }
  run.shown = shown;
  run.lanes = shown || told.segment !== null ? lanes.filter(lane => lane.calls.length) : lanes;
  run.row = new Int32Array(lanes.length).fill(-1);
  run.lanes.forEach((lane, row) => { run.row[lane.thread] = row; });
  makeAxis(shown && eventsOf(shown));
  for (const lane of run.lanes) {
    let most = 0;
    lane.from = Float64Array.from(lane.calls, fold);
    lane.reach = Float64Array.from(lane.calls, call => most = Math.max(most, fold(endOf(call))));
  }
  indexLog();
}

/** The events of these calls, and those that are marked, rising. */
function eventsOf(shown) {
  const events = new Set(told.marked.filter(event => event < told.events));
  for (const call of shown) {
    events.add(call);
    if (run.reply[call] >= 0) events.add(run.reply[call]);
  }
  return [...events].sort((one, other) => one - other);
}

const isShown = call => !run.shown || run.shown.has(call);

/** Updates by place (place P as -1 - P), and each answered read after the entries that it saw: the recorded order of what is shown. */
function recordedOrder() {
  const reads = [], order = [], saw = call => atOf(run.reply[call]);
  for (const lane of run.lanes) for (const call of lane.calls) if (!isUpdate(call) && !isApart(call) && run.reply[call] >= 0) reads.push(call);
  reads.sort((one, other) => saw(one) - saw(other) || one - other);
  let next = 0;
  for (const place of run.entries) {
    while (next < reads.length && saw(reads[next]) <= place) order.push(reads[next++]);
    order.push(-1 - place);
  }
  return order.concat(reads.slice(next));
}

/** Gives each member of the recorded order a span of its own on the axis, rising, and within its call unless that comes too early. */
function indexLog() {
  run.entries = [];
  for (let place = 0; place < told.places; place++) {
    if (isShown(logAt(place)) || told.markedPlaces.includes(place)) run.entries.push(place);
  }
  const order = recordedOrder(), latest = new Float64Array(order.length + 1).fill(axis.length);
  const callOf = member => member >= 0 ? member : isCall(logAt(-1 - member)) ? logAt(-1 - member) : -1;
  const calls = order.map(callOf), bound = call => call < 0 || run.early.has(call) ? -1 : fold(call), bounds = calls.map(bound);
  for (let k = order.length - 1; k >= 0; k--) latest[k] = Math.min(latest[k + 1], bounds[k] < 0 ? axis.length : fold(endOf(calls[k])));
  run.from = [];
  run.to = [];
  run.stands = new Float64Array(told.events).fill(-1);
  for (let first = 0, left = 0; first < order.length;) {
    left = Math.max(left, bounds[first]);
    let after = first + 1;
    while (after < order.length && bounds[after] <= left) after++;
    const next = after < order.length ? bounds[after] : axis.length, room = Math.max(0.6, Math.min(next, latest[first]) - left - 0.4);
    const wide = room / (after - first);
    for (let k = first; k < after; k++) putMember(order[k], calls[k], left + 0.2 + wide * (k - first), 0.85 * wide);
    first = after;
  }
}

function putMember(member, call, from, wide) {
  if (member < 0) {
    run.from.push(from);
    run.to.push(from + wide);
  }
  if (call >= 0 && run.stands[call] < 0) run.stands[call] = from + wide / 2;
}
