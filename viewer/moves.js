// ---- moving, choosing and finding ----

function show(from, to) {
  const span = Math.min(Math.max(to - from, 3), Math.max(axis.length, 3)), least = -0.02 * span;
  const start = Math.max(least, Math.min((from + to - span) / 2, axis.length - span - least));
  picture.from = start;
  picture.to = start + span;
  redraw();
}

const showAll = () => show(0, axis.length);

/** Shows all that is marked, with some room around it; where nothing is, all. */
function showMarked() {
  const replies = run.marked.map(call => run.reply[call]).filter(reply => reply >= 0);
  const placed = told.markedPlaces.map(logAt).filter(isCall), last = told.broken !== null && told.events ? [told.events - 1] : [];
  const stands = run.marked.map(call => run.stands[call]).filter(spot => spot >= 0);
  const spots = [...[...run.marked, ...replies, ...placed, ...told.marked, ...last].map(fold), ...stands];
  if (!spots.length) return showAll();
  const least = Math.min(...spots), most = Math.max(...spots);
  const margin = Math.max(4, Math.floor((most - least) / 6));
  show(Math.max(0, least - margin), Math.min(axis.length, most + 2 + margin));
  reveal(run.marked[run.marked.length - 1]);
}

function zoom(factor, centre = (picture.from + picture.to) / 2) {
  show(centre - (centre - picture.from) * factor, centre + (picture.to - centre) * factor);
}

const move = part => show(picture.from + part * (picture.to - picture.from), picture.to + part * (picture.to - picture.from));

/** Scrolls the lanes to a call's. */
function reveal(call) {
  const place = layOut(), row = call >= 0 && isCall(call) ? run.row[threadOf(call)] : -1;
  if (!place.stuck || row < 0) return;
  const above = place.tops[row] - place.lanes, below = place.tops[row] + place.heights[row] - place.height;
  $("filler").style.height = place.whole - place.height + "px";
  $("run").style.height = place.height + "px";
  if (above < 0 || below > 0) $("scroller").scrollTop += above < 0 ? above - 4 : below + 4;
  redraw();
}

function select(call) {
  if (!isShown(call)) showOnly("");
  Object.assign(picture, { selected: call, place: run.place[call] });
  const spot = fold(call), span = picture.to - picture.from;
  if (spot < picture.from || spot > picture.to - 0.1 * span) show(spot - span / 3, spot + span * 2 / 3);
  reveal(call);
  describe(call);
  showAfter(entriesWith(call));
  redraw();
}

/** Goes to the place before or after the chosen one, and shows the pages after it. */
function stepPlace(by) {
  const place = Math.max(0, Math.min(told.places - 1, picture.place + by));
  if (!told.places) return;
  const call = logAt(place);
  if (isCall(call)) select(call);
  picture.place = place;
  showAfter(place + 1);
  redraw();
}

function describe(call) {
  const reply = run.reply[call], fields = [["Call", call], ["Asks", requestText(call)], ["Answer", answerText(reply)],
    ["Thread", threadOf(call)], ["Replica", replicaOf(call)],
    ["Events", `made at ${call}, ` + (reply < 0 ? "not answered" : `answered at ${reply}`)]];
  if (run.place[call] >= 0) fields.push(["Place in the log", run.place[call]]);
  if (reply >= 0 && !isApart(call)) fields.push([isUpdate(call) ? "Place that its reply says" : "Entries that it saw", atOf(reply)]);
  if (told.window && told.window[0] === call) fields.push(["Entries that it may see", `${told.window[1]} to ${told.window[2]}`]);
  if (call in told.calls) fields.push(["Marked", told.calls[call]]);
  $("details").replaceChildren(...fields.map(([name, value]) => {
    const group = document.createElement("div"), term = document.createElement("dt"), text = document.createElement("dd");
    term.textContent = name;
    text.append(...withAddresses(String(value)));
    group.append(term, text);
    return group;
  }));
}

const plural = (count, noun) => `${count.toLocaleString("en")} ${noun}${count === 1 ? "" : "s"}`;

/** The calls that a text means: a call's number, a thread, or an address. */
function hitsOf(text) {
  const thread = /^t(?:hread)?\s*(\d+)$/i.exec(text), number = /^(?:call\s*)?(\d+)$/i.exec(text), stretch = stretchOf(text);
  if (thread) return run.calls.filter(call => threadOf(call) === Number(thread[1]));
  if (number) {
    const event = Number(number[1]), call = event < told.events && !isCall(event) ? answeredBy(event) : event;
    return isCall(call) ? [call] : [];
  }
  return stretch ? callsOver(stretch) : [];
}

function find() {
  const text = $("find").value.trim();
  if (text !== picture.text) Object.assign(picture, { text, hits: hitsOf(text), hit: -1 });
  if (picture.hits.length) {
    picture.hit = (picture.hit + 1) % picture.hits.length;
    select(picture.hits[picture.hit]);
  }
  const stretch = stretchOf(text), mapped = stretch && !$("dumps").hidden;
  if (mapped) showAddress(stretch.address);
  const calls = picture.hits.length ? `${picture.hit + 1} of ${plural(picture.hits.length, "call")}` : "no such call";
  $("hits").textContent = calls + (mapped ? "; the map below shows the address" : "");
}

function nextMarked() {
  const after = run.marked.find(call => call > picture.selected);
  if (run.marked.length) select(after === undefined ? run.marked[0] : after);
}

function stepCall(by) {
  const call = picture.selected;
  if (call < 0) return selectFirst();
  const { calls } = run.lanes[run.row[threadOf(call)]], index = firstFrom(calls, call) + by;
  if (calls[index] !== undefined) select(calls[index]);
}

/** Chooses the first call that is made in view. */
function selectFirst() {
  const first = Math.max(0, Math.ceil(unfold(picture.from)));
  for (let index = firstFrom(run.calls, first); index < run.calls.length; index++) if (isShown(run.calls[index])) return select(run.calls[index]);
}

function stepThread(by) {
  if (picture.selected < 0) return selectFirst();
  for (let row = run.row[threadOf(picture.selected)] + by; run.lanes[row]; row += by) {
    const { calls } = run.lanes[row];
    if (calls.length) return select(calls[Math.min(firstFrom(calls, picture.selected), calls.length - 1)]);
  }
}

const RUN_KEYS = {
  "+": () => zoom(0.5), "=": () => zoom(0.5), "-": () => zoom(2),
  "0": showAll, "f": showMarked, "m": nextMarked, "[": () => stepPlace(-1), "]": () => stepPlace(1),
  "ArrowLeft": () => stepCall(-1), "ArrowRight": () => stepCall(1), "ArrowUp": () => stepThread(-1), "ArrowDown": () => stepThread(1),
  "PageUp": () => move(-0.5), "PageDown": () => move(0.5), "Home": () => show(0, picture.to - picture.from),
  "End": () => show(axis.length - (picture.to - picture.from), axis.length),
};

function onKeys(element, keys) {
  element.addEventListener("keydown", event => {
    if (event.ctrlKey || event.metaKey || event.altKey || !keys[event.key] || !told.events && element === $("run")) return;
    event.preventDefault();
    keys[event.key]();
  });
}

/** What is under the mouse: a call, a place of the log, or a stretch that is cut; of each -1 where there is none. */
function under(event) {
  const place = layOut(), width = $("run").clientWidth, at = toSpot(event.offsetX, width), y = event.offsetY;
  const found = { call: -1, entry: -1, cut: -1 };
  if (event.offsetX < picture.labels) return found;
  const part = firstFrom(axis.to, at) - 1, inLog = y >= place.log && y < place.log + 20;
  if (inLog) {
    const index = firstFrom(run.to, at);
    if (index < run.entries.length && run.from[index] <= at) found.entry = run.entries[index];
    if (found.entry >= 0 && isCall(logAt(found.entry))) found.call = logAt(found.entry);
  } else found.call = callAt(place, at, y, 3 / scale(width));
  if (found.call < 0 && found.entry < 0 && axis.cuts[part]) found.cut = part;
  return found;
}

/** The call whose box is there, or -1. */
function callAt(place, at, y, slack) {
  const row = place.tops.findIndex((top, each) => y >= Math.max(top, place.lanes) && y < top + place.heights[each]);
  if (row < 0) return -1;
  const { calls, from, reach } = run.lanes[row];
  for (let index = firstFrom(from, at + slack) - 1; index >= 0 && reach[index] + 1 + slack >= at; index--) {
    if (stopOf(calls[index]) + 0.12 + slack >= at) return calls[index];
  }
  return -1;
}

function hover(event) {
  const { call, entry, cut } = told.events || told.places ? under(event) : { call: -1, entry: -1, cut: -1 }, tip = $("tip");
  tip.hidden = call < 0 && entry < 0 && cut < 0;
  if (tip.hidden) return;
  if (cut >= 0) tip.textContent = `events ${counted(axis.at[cut])} to ${counted(axis.at[cut + 1] - 1)} are left out`;
  else if (call < 0) tip.textContent = `place ${entry}: ${logAt(entry)}, which is no call`;
  else tip.textContent = `call ${call}, thread ${threadOf(call)}: ${requestText(call)} \u2192 ${answerText(run.reply[call])}`
    + (run.place[call] >= 0 ? `, place ${run.place[call]}` : "") + (call in told.calls ? `; ${told.calls[call]}` : "");
  tip.style.left = Math.max(0, Math.min(event.clientX + 14, window.innerWidth - tip.offsetWidth - 8)) + "px";
  tip.style.top = event.clientY + 18 + "px";
  if (entry >= 0) pointAtPlace(entry);
  if (call >= 0 && picture.selected < 0) describe(call);
}

/** Shows the pages after a place that the mouse is at. */
function pointAtPlace(place) {
  if (place === picture.place) return;
  picture.place = place;
  showAfter(place + 1);
  redraw();
}

function onMouse(canvas) {
  let grip = null;
  const width = () => canvas.clientWidth;
  canvas.addEventListener("wheel", event => {
    if (event.ctrlKey || event.metaKey) zoom(event.deltaY > 0 ? 1.25 : 0.8, toSpot(event.offsetX, width()));
    else if (event.shiftKey || Math.abs(event.deltaX) > Math.abs(event.deltaY)) move((event.deltaX || event.deltaY) / width());
    else return;
    event.preventDefault();
  }, { passive: false });
  canvas.addEventListener("pointerdown", event => {
    grip = { x: event.offsetX, from: picture.from, to: picture.to, moved: false, overview: event.offsetY < OVERVIEW };
    canvas.setPointerCapture(event.pointerId);
  });
  canvas.addEventListener("pointermove", event => {
    if (!grip) return hover(event);
    grip.moved ||= Math.abs(event.offsetX - grip.x) > 3;
    const by = (grip.x - event.offsetX) / scale(width());
    if (grip.moved && !grip.overview) show(grip.from + by, grip.to + by);
  });
  canvas.addEventListener("pointerup", event => {
    const span = picture.to - picture.from, centre = (event.offsetX - picture.labels) / (width() - picture.labels - 8) * axis.length;
    if (grip && grip.overview) show(centre - span / 2, centre + span / 2);
    else if (grip && !grip.moved) press(under(event));
    grip = null;
  });
  canvas.addEventListener("dblclick", event => zoom(0.4, toSpot(event.offsetX, width())));
  canvas.addEventListener("pointerleave", () => { $("tip").hidden = true; });
}

/** A click on a call chooses it, one on a place of the log shows the pages after it. */
function press({ call, entry }) {
  if (call >= 0) select(call);
  if (entry >= 0) {
    picture.place = entry;
    showAfter(entry + 1);
    redraw();
  }
}
