"use strict";
const $ = id => document.getElementById(id);
const told = JSON.parse($("data").textContent);
const KINDS = ["map", "unmap", "protect", "resolve", "access", "touch", "release"], SIZES = ["4K", "2M", "1G"];
const ANSWERS = ["done", "overlap", "full", "removed", "not mapped", "inside", "changed", "mapped", "allowed", "fault"];
const REFUSED = new Set([1, 2, 4, 5, 9]);

function showError(what) {
  $("errors").hidden = false;
  $("errors").textContent += what + "\n";
}
window.addEventListener("error", event => showError(event.message + " at line " + event.lineno));
window.addEventListener("unhandledrejection", event => showError(String(event.reason)));

// ---- the trace's bytes ----

let bytes;

async function openBytes() {
  const letters = atob($("bytes").textContent), packed = new Uint8Array(letters.length);
  for (let at = 0; at < letters.length; at++) packed[at] = letters.charCodeAt(at);
  const stream = new Blob([packed]).stream().pipeThrough(new DecompressionStream("deflate"));
  bytes = new DataView(await new Response(stream).arrayBuffer());
}

const offset = event => told.eventsAt + 24 * event;
const logAt = place => bytes.getUint32(told.logAt + 4 * place);
const isCall = event => event < told.events && bytes.getUint8(offset(event)) === 0;
const kindOf = call => bytes.getUint8(offset(call) + 4);
const threadOf = call => bytes.getUint16(offset(call) + 2);
const replicaOf = call => bytes.getUint8(offset(call) + 1);
const addressOf = call => bytes.getBigUint64(offset(call) + 8);
const sizeOf = call => bytes.getUint8(offset(call) + 5);
const rightsOf = call => bytes.getUint8(offset(call) + 6);
const physicalOf = map => bytes.getBigUint64(offset(map) + 16);
/** The number of the 4 KiB page that a call's address lies in: below 2^52, so that a number has it exactly. */
const pageOf = call => bytes.getUint32(offset(call) + 8) * 2 ** 20 + (bytes.getUint32(offset(call) + 12) >>> 12);
const isUpdate = call => kindOf(call) < 3, isRelease = call => kindOf(call) === 6;
/** Touches and releases are apart from the order: they are drawn as points. */
const isApart = call => kindOf(call) > 4;
const answerOf = reply => bytes.getUint8(offset(reply) + 1);
const answeredBy = reply => bytes.getUint32(offset(reply) + 4);
const atOf = reply => bytes.getUint32(offset(reply) + 8);
const hex = number => "0x" + number.toString(16);
const rightsText = rights => (rights & 1 ? "w" : "-") + (rights & 2 ? "u" : "-") + (rights & 4 ? "x" : "-");

function requestText(call) {
  const kind = kindOf(call), size = sizeOf(call), rights = rightsOf(call), address = hex(addressOf(call));
  if (kind === 0) return `map ${SIZES[size]} ${address} to ${hex(physicalOf(call))} ${rightsText(rights)}`;
  if (kind === 6) return `release ${SIZES[size]} ${hex(physicalOf(call))}`;
  if (kind > 3) return `${KINDS[kind]} ${"su"[rights]} ${"rwx"[size]} ${address}`;
  return `${KINDS[kind]} ${address}` + (kind === 2 ? " " + rightsText(rights) : "");
}

function answerText(reply) {
  if (reply < 0) return "no answer";
  const at = offset(reply), code = answerOf(reply), value = bytes.getBigUint64(at + 16), rights = rightsText(bytes.getUint8(at + 3));
  if (code === 3 || code === 7) return `${ANSWERS[code]} ${hex(value)} ${SIZES[bytes.getUint8(at + 2)]} ${rights}`;
  if (code === 2 || code === 9) return `${ANSWERS[code]} ${value}`;
  if (code === 6) return `changed ${rights}`;
  return ANSWERS[code] + (code === 0 || code === 4 ? "" : " " + hex(value));
}

// ---- the run, indexed ----

const run = {};

/** Of each call its first reply and its first place, which come too early, and which are marked. */
function indexRun() {
  run.calls = [];
  run.reply = new Int32Array(told.events).fill(-1);
  run.place = new Int32Array(told.events).fill(-1);
  for (let event = 0; event < told.events; event++) {
    const named = isCall(event) ? event : answeredBy(event);
    if (named === event) run.calls.push(event);
    else if (named < event && isCall(named) && run.reply[named] < 0) run.reply[named] = event;
  }
  for (let place = told.places - 1; place >= 0; place--) if (isCall(logAt(place))) run.place[logAt(place)] = place;
  run.early = earlyCalls();
  run.marked = Object.keys(told.calls).map(Number);
}

const endOf = call => run.reply[call] < 0 ? told.events : run.reply[call];

/** The calls that come after fewer entries than a reply before them makes known; what a touch or a release is given at says nothing of that. */
function earlyCalls() {
  const early = new Set();
  let known = 0;
  for (let event = 0; event < told.events; event++) {
    const named = isCall(event) ? event : answeredBy(event), reply = isCall(event) ? run.reply[event] : event;
    const at = !isCall(named) || isApart(named) ? -1 : isUpdate(named) && isCall(event) ? run.place[named] : reply >= 0 ? atOf(reply) : -1;
    if (isCall(event) && at >= 0 && at < known) early.add(event);
    if (!isCall(event) && at >= 0 && at <= told.places) known = Math.max(known, at + (isUpdate(named) ? 1 : 0));
  }
  return early;
}

/** The first of some rising numbers that is at least the least. */
function firstFrom(numbers, least) {
  let low = 0, high = numbers.length;
  while (low < high) {
    const middle = (low + high) >> 1;
    if (numbers[middle] < least) low = middle + 1; else high = middle;
  }
  return low;
}
