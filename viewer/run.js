// ---- the picture of the run ----

const OVERVIEW = 14, AXIS = 20, FLAG = 15, LEAST_LANE = 20, POINTS = 11;
const picture = { from: 0, to: 1, selected: -1, place: -1, hits: [], hit: -1, labels: 116 };
const NARROW = 600;                                 // pixels: below, labels are short and tables have more rows
let colours = {}, waiting = false;

function readColours() {
  const style = getComputedStyle(document.documentElement);
  const names = ["paper", "panel", "ink", "soft", "line", "lane", "cut", "fault", "focus", ...KINDS];
  for (const name of names) colours[name] = style.getPropertyValue("--" + name).trim();
}

/** Black or white, whichever differs more on a colour #rrggbb. */
function inkOn(colour) {
  const [red, green, blue] = [1, 3, 5].map(at => (parseInt(colour.slice(at, at + 2), 16) / 255) ** 2.2);
  return 0.2126 * red + 0.7152 * green + 0.0722 * blue > 0.18 ? "#101215" : "#ffffff";
}

function sized(canvas, height) {
  const ratio = window.devicePixelRatio || 1, width = canvas.clientWidth;
  canvas.style.height = height + "px";
  canvas.width = Math.round(width * ratio);
  canvas.height = Math.round(height * ratio);
  const pen = canvas.getContext("2d");
  pen.setTransform(ratio, 0, 0, ratio, 0, 0);
  pen.clearRect(0, 0, width, height);
  pen.textBaseline = "middle";
  return [pen, width];
}

/** The height of lanes: threads with a marked call have room for words, none has less than a line, and those with touches or releases have one of
 *  points below. */
function heightsOf(lanes) {
  const usual = Math.max(LEAST_LANE, Math.min(38, Math.floor((window.innerHeight * 0.62 - 90) / lanes.length)));
  const loud = new Set(run.marked.map(threadOf));
  return lanes.map(lane => (loud.has(lane.thread) ? Math.max(usual, 26) : usual) + pointsOf(lane));
}

const pointsOf = lane => lane.points ? POINTS : 0;

/** The dumps of which it is known how much of the log they have applied: not the start of a segment, and none that isn't there. */
const appliedDumps = () => told.dumps.map((dump, index) => ({ ...dump, index })).filter(dump => dump.applied !== null && dump.frames.length);

/** The lines below the log: of each such dump, of a stale touch or memory that can be reached, and of where a wrong answer would be right. */
const linesOfLog = () => appliedDumps().length + (told.window || told.reach ? 1 : 0) + (told.right ? 1 : 0);

/** Where lanes and log lie: half of the lanes above the log, the others below; or all below it, to be scrolled, where they don't fit. */
function layOut() {
  const heights = heightsOf(run.lanes), logHeight = 22 + 11 * linesOfLog(), top = OVERVIEW + AXIS, tops = [];
  const whole = heights.reduce((sum, tall) => sum + tall, top + logHeight + 24), most = Math.max(320, Math.round(window.innerHeight * 0.8));
  const stuck = whole > most && !isPrinting(), above = stuck ? 0 : Math.ceil(heights.length / 2), from = stuck ? $("scroller").scrollTop : 0;
  let y = top, log = 0;
  for (let row = 0; row <= heights.length; row++) {
    if (row === above) {
      log = y + (row ? 10 : 4);
      y = log + logHeight + (row ? 10 : 6) - from;
    }
    tops.push(y);
    y += heights[row];
  }
  tops.pop();
  return { tops, heights, top, log, logHeight, stuck, whole, height: stuck ? most : whole, lanes: stuck ? log + logHeight + 3 : 0 };
}

const isPrinting = () => document.documentElement.classList.contains("printing");
const inView = (place, row) => row >= 0 && place.tops[row] + place.heights[row] / 2 > place.lanes && place.tops[row] < place.height;

const scale = width => (width - picture.labels - 8) / (picture.to - picture.from);
const toX = (spot, width) => picture.labels + (spot - picture.from) * scale(width);
const toSpot = (x, width) => picture.from + (x - picture.labels) / scale(width);

function redraw() {
  if (waiting) return;
  waiting = true;
  requestAnimationFrame(() => { waiting = false; drawRun(); });
}

function drawRun() {
  const place = layOut();
  $("filler").style.height = place.whole - place.height + "px";
  const [pen, width] = sized($("run"), place.height);
  picture.labels = width < NARROW ? 58 : 116;
  pen.save();
  clip(pen, 0, place.lanes, width, place.height);
  drawLanes(pen, width, place);
  pen.restore();
  drawLogLabels(pen, width, place);
  pen.save();
  clip(pen, picture.labels, 0, width, place.height);
  drawAxis(pen, width, place);
  drawLog(pen, width, place);
  pen.save();
  clip(pen, picture.labels, place.lanes, width, place.height);
  run.lanes.forEach((lane, row) => inView(place, row) && drawCalls(pen, width, place, lane, row));
  pen.restore();
  drawMarks(pen, width, place);
  pen.restore();
  drawOverview(pen, width);
}

function clip(pen, left, top, right, bottom) {
  pen.beginPath();
  pen.rect(left, top, right - left, bottom - top);
  pen.clip();
}

function drawLanes(pen, width, place) {
  place.tops.forEach((y, row) => {
    if (!inView(place, row)) return;
    const tall = place.heights[row], { thread } = run.lanes[row];
    pen.fillStyle = thread % 2 ? colours.paper : colours.lane;
    pen.fillRect(0, y, width, tall);
    pen.fillStyle = colours.soft;
    pen.font = "12px system-ui, sans-serif";
    pen.fillText(width < NARROW ? `thr. ${thread}` : `thread ${thread}`, 8, y + tall / 2 + 1);
  });
}

function drawLogLabels(pen, width, place) {
  pen.fillStyle = colours.ink;
  pen.font = "600 12px system-ui, sans-serif";
  pen.fillText("log", 8, place.log + 9);
  pen.font = "10px system-ui, sans-serif";
  const left = width < NARROW ? 3 : 8;
  appliedDumps().forEach((dump, line) => {
    pen.fillStyle = dump.index === told.replica ? colours.fault : colours.soft;
    const name = width < NARROW ? `r${dump.index}: ` : `replica ${dump.index}: `;
    pen.fillText(name + counted(dump.applied), left, place.log + 28 + 11 * line);
  });
  if (told.right) {
    pen.fillStyle = colours.soft;
    pen.fillText(width < NARROW ? "right" : "right after", left, place.log + 28 + 11 * (linesOfLog() - 1));
  }
  if (!told.window && !told.reach) return;
  const [short, long] = told.window ? [`t. ${told.window[0]}`, `touch ${told.window[0]} may see`] : [`m. ${told.reach[0]}`, `memory of ${told.reach[0]}`];
  pen.fillStyle = colours.fault;
  pen.fillText(width < NARROW ? short : long, left, place.log + 28 + 11 * appliedDumps().length);
}

const counted = number => number.toLocaleString("en");

/** The events' numbers, and in each cut how many it leaves out. */
function drawAxis(pen, width, place) {
  const step = niceStep(90 / scale(width)), top = place.top - 3, tall = place.height - top;
  let free = picture.labels;
  pen.font = "11px system-ui, sans-serif";
  const first = Math.max(0, firstFrom(axis.to, picture.from) - 1), after = Math.min(axis.cuts.length, firstFrom(axis.to, picture.to));
  for (let part = first; part < after; part++) {
    const start = axis.at[part], least = Math.max(start, unfold(picture.from)), stop = Math.min(axis.at[part + 1], unfold(picture.to));
    if (axis.cuts[part]) free = drawCut(pen, width, part, top, tall, free);
    else for (let event = start < least - 1 ? Math.ceil(least / step) * step : start; event < stop; event = (Math.floor(event / step) + 1) * step) {
      const x = toX(fold(event + 0.5), width), label = counted(event);
      if (x < free) continue;
      pen.fillStyle = colours.line;
      pen.fillRect(x, top, 1, tall);
      pen.fillStyle = colours.soft;
      pen.fillText(label, x + 3, OVERVIEW + AXIS / 2);
      free = x + 3 + pen.measureText(label).width + 4;
    }
  }
}

/** A stretch of the axis that is left out: hatched between two wavy lines. Returns where the next number may be. */
function drawCut(pen, width, part, top, tall, free) {
  const left = toX(axis.to[part], width), right = toX(axis.to[part + 1], width), many = axis.at[part + 1] - axis.at[part];
  pen.fillStyle = colours.cut;
  pen.fillRect(left, top, Math.max(right - left, 1), tall);
  pen.strokeStyle = colours.soft;
  pen.lineWidth = 1;
  for (const x of right - left > 12 ? [left, right] : []) {
    pen.beginPath();
    for (let y = top, side = 2; y <= top + tall; y += 6, side = -side) pen.lineTo(x + side, y);
    pen.stroke();
  }
  const label = [`${counted(many)} events cut`, `${counted(many)} cut`, "\u2026"].find(each => pen.measureText(each).width < right - left - 4);
  const wide = label ? pen.measureText(label).width : 0, start = (left + right - wide) / 2;
  if (!label || start < free - 4) return free;
  pen.fillStyle = colours.ink;
  pen.fillText(label, start, OVERVIEW + AXIS / 2);
  return start + wide + 6;
}

function niceStep(least) {
  let step = 1;
  while (step < least) step *= String(step)[0] === "2" ? 2.5 : 2;
  return step;
}

function drawOverview(pen, width) {
  const whole = width - picture.labels - 8, part = spot => picture.labels + Math.min(1, Math.max(0, spot / Math.max(axis.length, 1))) * whole;
  pen.fillStyle = colours.panel;
  pen.fillRect(picture.labels, 2, whole, OVERVIEW - 4);
  pen.fillStyle = colours.soft;
  pen.globalAlpha = 0.45;
  pen.fillRect(part(picture.from), 2, Math.max(3, part(picture.to) - part(picture.from)), OVERVIEW - 4);
  pen.globalAlpha = 1;
  pen.fillStyle = colours.fault;
  for (const event of [...run.marked, ...told.marked]) pen.fillRect(part(fold(event)) - 1, 0, 2.5, OVERVIEW);
  pen.fillStyle = colours.soft;
  pen.font = "10px system-ui, sans-serif";
  pen.fillText(run.shown ? "all shown" : "all events", 4, OVERVIEW / 2 + 1);
}

function drawLog(pen, width, place) {
  const top = place.log, first = firstFrom(run.to, picture.from), cells = { last: -1 };
  pen.fillStyle = colours.panel;
  pen.fillRect(picture.labels, top - 3, width - picture.labels, place.logHeight);
  const after = firstFrom(run.from, picture.to);
  for (let index = first; index < after; index++) drawEntry(pen, width, place, index, cells, hasArrows(place));
  appliedDumps().forEach((dump, line) => drawApplied(pen, width, top + 28 + 11 * line, dump, dump.index));
  if (told.window || told.reach) drawWindow(pen, width, top + 28 + 11 * appliedDumps().length);
  if (told.right) drawRight(pen, width, top + 28 + 11 * (linesOfLog() - 1));
}

function drawEntry(pen, width, place, index, cells, arrows) {
  const left = toX(run.from[index], width), right = toX(run.to[index], width), top = place.log, entry = run.entries[index];
  const call = logAt(entry), red = told.markedPlaces.includes(entry);
  if (right < cells.last + 0.7 && !red && entry !== picture.place) return;
  cells.last = right;
  if (arrows && isCall(call)) arrow(pen, place, width, call, colours.soft, 0.8);
  pen.fillStyle = isCall(call) ? colours[KINDS[kindOf(call)]] : colours.fault;
  pen.fillRect(left, top, Math.max(right - left, 0.8), 18);
  if (red || entry === picture.place) {
    pen.strokeStyle = red ? colours.fault : colours.focus;
    pen.lineWidth = 3;
    pen.strokeRect(left - 1, top - 1, Math.max(right - left, 2) + 2, 20);
  }
  const label = String(entry);
  if (right - left > 7 * label.length + 4) {
    pen.fillStyle = inkOn(isCall(call) ? colours[KINDS[kindOf(call)]] : colours.fault);
    pen.font = "600 11px system-ui, sans-serif";
    pen.fillText(label, left + 4, top + 10);
  }
}

function drawApplied(pen, width, y, dump, replica) {
  const red = replica === told.replica, many = firstFrom(run.entries, dump.applied);
  const end = toX(dump.applied > told.places ? axis.length : many ? run.to[many - 1] : 0, width);
  pen.fillStyle = red ? colours.fault : colours.soft;
  pen.fillRect(picture.labels, y - 2, Math.max(0, end - picture.labels), 3);
  pen.fillRect(end, y - 5, 2, 9);
}

/** Where on the axis so many entries of the log have come, and where the next one comes. */
function afterEntries(count) {
  const many = firstFrom(run.entries, count);
  return [many ? run.to[many - 1] : 0, many < run.from.length ? run.from[many] : axis.length];
}

/** From where to where in the log a stale touch may see: after the fewest entries, up to before the one that it may see no more. Or from when
 *  to when the memory of a release could be reached: from the call that mapped it there to the answer of the one that takes it away. */
function spanBelowLog() {
  if (told.window) return [afterEntries(told.window[1])[0], afterEntries(told.window[2])[1]];
  const place = placeOfPage(told.reach[1], BigInt(told.address));
  return [place < 0 ? 0 : startOf(logAt(place)), fold(told.reach[2]) + (told.reach[2] < told.events ? 0.88 : 0)];
}

function drawWindow(pen, width, y) {
  const span = spanBelowLog(), left = toX(span[0], width), right = Math.max(toX(span[1], width), left + 2);
  pen.fillStyle = colours.fault;
  pen.globalAlpha = 0.3;
  pen.fillRect(left, y - 4, right - left, 7);
  pen.globalAlpha = 1;
  pen.fillRect(left, y - 6, 2, 11);
  pen.fillRect(right - 2, y - 6, 2, 11);
}

/** Where in the log a wrong answer would be right: from after so many entries up to before the one that ends that. */
function drawRight(pen, width, y) {
  pen.fillStyle = colours.soft;
  for (const [first, last] of told.right) {
    const left = toX(afterEntries(first)[0], width), right = Math.max(toX(afterEntries(last)[1], width), left + 2);
    pen.fillRect(left, y - 4, right - left, 7);
  }
}

/** Whether so few events are in view that each call's arrow can be seen apart from the others; marked ones are always drawn. */
const hasArrows = place => picture.to - picture.from < (place.stuck ? 120 : 400);

/** From a call's box to where it is in the log. */
function arrow(pen, place, width, call, colour, thick) {
  const at = run.stands[call], row = run.row[threadOf(call)];
  if (at < 0 || row < 0 || place.stuck && place.tops[row] + place.heights[row] / 2 < place.lanes) return;
  const y = place.tops[row], upper = y < place.log && !place.stuck;
  const fromX = toX(Math.min(Math.max(at, startOf(call) + 0.03), stopOf(call) - 0.03), width), x = toX(at, width);
  const fromY = upper ? y + place.heights[row] - 2 : y + 2, tipY = upper ? place.log - 1 : place.log + 19;
  pen.strokeStyle = pen.fillStyle = colour;
  pen.lineWidth = thick;
  pen.setLineDash(isUpdate(call) ? [] : [3, 3]);
  pen.beginPath();
  pen.moveTo(fromX, fromY);
  pen.lineTo(x, tipY);
  pen.stroke();
  pen.setLineDash([]);
  if (scale(width) < 8 && thick < 2) return;
  pen.beginPath();
  pen.moveTo(x, tipY);
  pen.lineTo(x - 3, tipY + (upper ? -6 : 6));
  pen.lineTo(x + 3, tipY + (upper ? -6 : 6));
  pen.fill();
}

function drawCalls(pen, width, place, lane, row) {
  const { calls, from, reach } = lane, y = place.tops[row], tall = place.heights[row] - pointsOf(lane);
  const few = hasArrows(place);
  let last = -1;
  for (let index = firstFrom(reach, picture.from - 1); index < calls.length && from[index] < picture.to; index++) {
    const call = calls[index], left = toX(from[index] + 0.12, width), right = toX(stopOf(call), width);
    if (right < last + 2 && !(call in told.calls)) continue;
    last = Math.max(last, right);
    if (isApart(call)) {
      drawPoint(pen, call, left, right, y + tall + POINTS / 2 - 1);
      continue;
    }
    if (few && !isUpdate(call)) arrow(pen, place, width, call, colours.soft, 0.8);
    const nested = index > 0 && reach[index - 1] > from[index];
    drawBox(pen, call, left, Math.max(right - left, 1.2), y + (nested ? tall * 0.4 : 0), tall * (nested ? 0.6 : 1));
  }
}

/** A touch: a point at its reply, and a line from when it was made; one that faults is hollow, one without a reply is only the line. A
 *  release: a square where it is made, from when on the memory is somebody else's. */
function drawPoint(pen, call, left, right, y) {
  const reply = run.reply[call], x = Math.max(left, right - 4);
  pen.fillStyle = pen.strokeStyle = call in told.calls ? colours.fault : colours[KINDS[kindOf(call)]];
  if (isRelease(call)) return pen.fillRect(left - 3, y - 3, 6, 6);
  pen.fillRect(left, y - 0.5, Math.max(x - left, 1), 1);
  if (reply < 0) return;
  pen.lineWidth = 1.5;
  pen.beginPath();
  pen.arc(x, y, 3, 0, 7);
  if (REFUSED.has(answerOf(reply))) {
    pen.fillStyle = colours.paper;
    pen.fill();
    pen.stroke();
  } else pen.fill();
}

function drawBox(pen, call, left, width, top, height) {
  const colour = colours[KINDS[kindOf(call)]], reply = run.reply[call], thick = height > 12 ? 2 : 1;
  const room = height > 24 ? 3 : 1, y = top + room, tall = height - 2 * room;
  const hollow = reply < 0 || REFUSED.has(answerOf(reply));
  pen.fillStyle = hollow && width > 4 ? colours.paper : colour;
  pen.fillRect(left, y, width, tall);
  if (hollow && width > 4) {
    pen.strokeStyle = colour;
    pen.lineWidth = thick;
    pen.setLineDash(reply < 0 ? [5, 3] : []);
    pen.strokeRect(left + thick / 2, y + thick / 2, width - thick, tall - thick);
    pen.setLineDash([]);
  }
  if (tall >= 8 && width > 13) drawLabel(pen, call, left, y, width, tall, hollow ? colours.ink : inkOn(colour));
}

function drawLabel(pen, call, left, y, width, tall, colour) {
  const letter = KINDS[kindOf(call)][0].toUpperCase(), answer = "\u2192 " + answerText(run.reply[call]);
  const start = Math.max(left, picture.labels) + 5 + (call in told.calls && width > 40 ? FLAG : 0), room = left + width - start - 4;
  pen.font = `600 ${Math.min(12, tall - 1)}px system-ui, sans-serif`;
  const texts = [`${letter} ${call}  ${requestText(call)} ${answer}`, `${letter} ${call} ${answer}`, `${letter} ${call}`, letter];
  const text = texts.find(each => pen.measureText(each).width <= room);
  pen.fillStyle = colour;
  if (text) pen.fillText(text, start, y + tall / 2 + 1);
}

function drawMarks(pen, width, place) {
  for (const call of run.marked) arrow(pen, place, width, call, colours.fault, 2);
  for (const call of run.marked) frame(pen, width, place, call, colours.fault, true);
  for (const event of told.marked) markEvent(pen, width, place, event);
  if (picture.selected >= 0 && !(picture.selected in told.calls)) arrow(pen, place, width, picture.selected, colours.focus, 2);
  if (picture.selected >= 0) frame(pen, width, place, picture.selected, colours.focus, false);
  if (told.broken !== null) drawBreak(pen, width, place);
}

/** Where bytes that are no trace break, after the last event that could be read. */
function drawBreak(pen, width, place) {
  const x = toX(axis.length, width);
  pen.fillStyle = colours.fault;
  pen.fillRect(x, place.top, 3, place.height);
  pen.font = "700 12px system-ui, sans-serif";
  pen.textAlign = x > width - 200 ? "right" : "left";
  pen.fillText(`breaks at byte ${told.broken}`, x > width - 200 ? x - 6 : x + 8, place.top - 8);
  pen.textAlign = "left";
}

/** A frame around a call; that of a marked one has a flag at its left end. */
function frame(pen, width, place, call, colour, flag) {
  const row = run.row[threadOf(call)], y = place.tops[row], tall = place.heights[row], out = flag ? 0 : 3;
  if (!isShown(call) || !inView(place, row)) return;
  const left = toX(startOf(call), width), right = toX(stopOf(call), width);
  pen.strokeStyle = pen.fillStyle = colour;
  pen.lineWidth = flag ? 3 : 2;
  pen.strokeRect(left - out, y + 1.5 - out / 2, Math.max(right - left, 3) + 2 * out, tall - 3 + out);
  if (!flag) return;
  const start = right - left > 40 ? Math.max(left, picture.labels) : left - FLAG;
  pen.fillRect(start, y + 1.5, FLAG, tall - 3);
  pen.fillStyle = colours.paper;
  pen.font = "800 13px system-ui, sans-serif";
  pen.fillText("!", start + 5, y + tall / 2 + 1);
}

/** A reply that is marked by itself: a diamond at its event. */
function markEvent(pen, width, place, event) {
  const call = isCall(event) ? event : answeredBy(event), row = isCall(call) ? run.row[threadOf(call)] : -1;
  if (row >= 0 && !inView(place, row)) return;
  const x = toX(fold(event) + (run.reply[call] === event ? 0.88 : 0.5), width), size = 6;
  const y = row >= 0 ? place.tops[row] + place.heights[row] / 2 : place.log - 8;
  pen.fillStyle = colours.fault;
  pen.strokeStyle = colours.paper;
  pen.lineWidth = 1;
  pen.beginPath();
  for (const [dx, dy] of [[0, -size], [size, 0], [0, size], [-size, 0], [0, -size]]) pen.lineTo(x + dx, y + dy);
  pen.fill();
  pen.stroke();
}
