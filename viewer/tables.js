// ---- the dumped tables ----

const HEAD = 24, GAP = 10, FOLDED = 14;             // pixels: above and below a table, and of rows without an entry
const tables = { replica: 0, path: [], level: 0, perRow: 64, cell: 20, shown: [], marked: new Set(), frames: [] };

const WORDS = { absent: "absent", reserved: "a reserved bit is set", page: "page", table: "table" };
const entryBits = level => BigInt(3 + 9 * level);

/** What an entry is: its kind, the page's physical address or the table's frame, and its rights. */
function meaning(frame, index, level) {
  const at = tables.frames[tables.replica].get(frame) + 8 * index, high = bytes.getUint32(at), low = bytes.getUint32(at + 4);
  if (!(low & 1)) return { kind: "absent" };
  const large = (level === 2 || level === 3) && low & 0x80, rights = (low >> 1 & 3) | (high >>> 31 ? 0 : 4);
  const reserved = large ? (2 ** (3 + 9 * level) - 8192) : level > 3 ? 0x80 : 0;
  if (low & reserved) return { kind: "reserved", rights };
  const target = (high & 0xfffff) * 2 ** 20 + (low >>> 12), unit = 2 ** (9 * level - 9);
  if (level === 1 || large) return { kind: "page", rights, target: Math.floor(target / unit) * unit * 4096 };
  return { kind: "table", rights, target };
}

const rootOf = replica => Number(told.dumps[replica].root);
const hasFrame = frame => tables.frames[tables.replica].has(frame);

/** The tables on the chosen path, the root first: each with its level, frame, first address and rights so far. */
function tablesOnPath() {
  const chain = [];
  let frame = rootOf(tables.replica), address = 0n, rights = 7;
  for (let level = told.levels; level > 0 && hasFrame(frame); level--) {
    const index = tables.path[told.levels - level] ?? firstPresent(frame, level);
    const entry = meaning(frame, index, level);
    chain.push({ level, frame, index, address, rights, entry });
    if (entry.kind !== "table") break;
    address += BigInt(index) << entryBits(level);
    rights &= entry.rights;
    frame = entry.target;
  }
  return chain;
}

function firstPresent(frame, level) {
  for (let index = 0; index < 512; index++) if (meaning(frame, index, level).kind !== "absent") return index;
  return 0;
}

const high = () => (1n << 64n) - (1n << BigInt(12 + 9 * told.levels));
const canonical = address => address >> BigInt(11 + 9 * told.levels) ? address + high() : address;
const entryAddress = (table, index) => canonical(table.address + (BigInt(index) << entryBits(table.level)));

function describeEntry(table, index) {
  const entry = meaning(table.frame, index, table.level), rights = `rights ${rightsText(entry.rights)}`;
  const where = `level ${table.level}, frame ${hex(table.frame)}, entry ${index}, from ${hex(entryAddress(table, index))}: `;
  const missing = entry.kind === "table" && !hasFrame(entry.target) ? ", which is missing" : "";
  if (entry.kind === "table") return where + `table in frame ${hex(entry.target)}${missing}, ${rights}`;
  if (entry.kind !== "page") return where + WORDS[entry.kind];
  const joined = rightsText(entry.rights & table.rights);
  return where + `page of ${SIZES[table.level - 1]} at ${hex(entry.target)}, ${rights}, with the tables above ${joined}`;
}

const isMarkedEntry = (frame, index) => tables.marked.has(`${tables.replica}:${frame}:${index}`);

/** Whether an entry has to be seen: it is present, marked or chosen. */
const isSeen = (table, index) => index === table.index || isMarkedEntry(table.frame, index)
  || meaning(table.frame, index, table.level).kind !== "absent";

/** The bands of a table from above: rows with an entry, and runs of rows without one, each from its first entry up to another. */
function bandsOf(table, top, cell) {
  const bands = [], wide = tables.perRow;
  for (let first = 0, y = top; first < 512;) {
    const seen = row => Array.from({ length: wide }, (_, column) => row + column).some(index => isSeen(table, index));
    const full = seen(first);
    let after = first + wide;
    while (!full && after < 512 && !seen(after)) after += wide;
    bands.push({ first, after, y, tall: full ? cell : FOLDED, full });
    y += bands[bands.length - 1].tall;
    first = after;
  }
  return bands;
}

/** The tables on the chosen way with their bands, one below the other, and the height of all. */
function layOutTables() {
  const wide = $("map").clientWidth;
  tables.perRow = wide < NARROW ? 32 : 64;
  tables.cell = Math.max(5, Math.min(20, Math.floor((wide - 90) / tables.perRow)));
  let y = 0;
  tables.shown = tablesOnPath().map(table => {
    const top = y + HEAD, bands = bandsOf(table, top, tables.cell), last = bands[bands.length - 1];
    y = last.y + last.tall + GAP;
    return { table, top, bands, end: y - GAP };
  });
  return Math.max(y, HEAD + GAP);
}

function drawMap() {
  const height = layOutTables(), { shown } = tables, canvas = $("map");
  tables.level = Math.min(tables.level, Math.max(shown.length - 1, 0));
  const [pen] = sized(canvas, height);
  shown.forEach((each, depth) => drawTable(pen, each, depth));
  if (shown.length) {
    const { table } = shown[tables.level];
    $("cell").replaceChildren(...withAddresses(describeEntry(table, table.index)));
  }
  pen.fillStyle = colours.fault;
  if (!shown.length) pen.fillText(`the root, frame ${told.dumps[tables.replica].root}, is missing`, 12, 20);
  $("cell").hidden = !shown.length;
}

function drawTable(pen, { table, top, bands }, depth) {
  const last = canonical(table.address + (512n << entryBits(table.level)) - 1n), { cell, perRow } = tables;
  pen.font = "600 12px system-ui, sans-serif";
  pen.fillStyle = colours.ink;
  const size = ["4K", "2M", "1G", "512G", "256T"][table.level - 1], first = hex(entryAddress(table, 0));
  const which = `Level ${table.level}, frame ${hex(table.frame)}`;
  pen.fillText(perRow < 64 ? `${which}: from ${first}` : `${which}: ${first} to ${hex(last)}, ${size} an entry`, 12, top - 12);
  for (const band of bands) {
    if (band.full) for (let index = band.first; index < band.after; index++) drawCell(pen, table, index, 12 + index % perRow * cell, band.y, cell);
    else drawFolded(pen, band, cell);
  }
  if (!depth) drawHalves(pen, bands, cell);
  outlineCell(pen, bands, table.index, cell, depth === tables.level ? colours.focus : colours.ink);
}

/** Rows without an entry: a low band, that says which. */
function drawFolded(pen, { first, after, y, tall }, cell) {
  pen.fillStyle = colours.panel;
  pen.fillRect(13, y + 2, tables.perRow * cell - 2, tall - 4);
  pen.fillStyle = colours.soft;
  pen.font = "9px system-ui, sans-serif";
  pen.fillText(`${first} to ${after - 1}: absent`, 18, y + tall / 2 + 1);
}

/** Which rows of the root are of the low half of the addresses, and which of the high. */
function drawHalves(pen, bands, cell) {
  const left = tables.perRow * cell + 16;
  pen.font = "10px system-ui, sans-serif";
  pen.fillStyle = colours.soft;
  for (const [name, least, stop] of [["low half", 0, 256], ["high half", 256, 512]]) {
    const band = bands.find(each => each.after > least && each.first < stop && each.first >= least);
    if (band) pen.fillText(name, left, band.y + band.tall / 2 + 1);
  }
}

function drawCell(pen, table, index, x, y, cell) {
  const entry = meaning(table.frame, index, table.level), inside = cell - 2;
  pen.fillStyle = { absent: colours.panel, table: colours.line, reserved: colours.fault, page: colours.paper }[entry.kind];
  pen.fillRect(x + 1, y + 1, inside, inside);
  if (entry.kind === "page") drawRights(pen, entry.rights & table.rights, x + 1, y + 1, inside);
  if (entry.kind === "table") {
    pen.fillStyle = hasFrame(entry.target) ? colours.ink : colours.fault;
    pen.beginPath();
    pen.moveTo(x + cell * 0.28, y + cell * 0.36);
    pen.lineTo(x + cell * 0.72, y + cell * 0.36);
    pen.lineTo(x + cell * 0.5, y + cell * 0.72);
    pen.fill();
  }
  if (entry.kind === "reserved") {
    pen.fillStyle = colours.paper;
    pen.font = `800 ${cell - 4}px system-ui, sans-serif`;
    pen.fillText("!", x + cell / 2 - 2, y + cell / 2 + 1);
  }
  if (!isMarkedEntry(table.frame, index)) return;
  pen.strokeStyle = colours.fault;
  pen.lineWidth = 3;
  pen.strokeRect(x + 0.5, y + 0.5, cell - 1, cell - 1);
}

/** A page: three bars, for write, user and execute; a bar that is only a dot is a right that isn't given. */
function drawRights(pen, rights, x, y, size) {
  pen.strokeStyle = colours.map;
  pen.lineWidth = 1;
  pen.strokeRect(x + 0.5, y + 0.5, size - 1, size - 1);
  const bar = (size - 4) / 3, fills = [colours.unmap, colours.map, colours.resolve];
  for (let bit = 0; bit < 3; bit++) {
    const given = rights >> bit & 1;
    pen.fillStyle = given ? fills[bit] : colours.soft;
    pen.fillRect(x + 2 + bit * bar + 0.4, given ? y + 2 : y + size - 3.5, Math.max(bar - 0.8, 1), given ? size - 4 : 1.5);
  }
}

function outlineCell(pen, bands, index, cell, colour) {
  const x = 12 + index % tables.perRow * cell, { y } = bands.find(band => index < band.after);
  pen.strokeStyle = colour;
  pen.lineWidth = 2;
  pen.strokeRect(x - 1.5, y - 1.5, cell + 3, cell + 3);
}

function choose(level, index) {
  const chain = tablesOnPath();
  if (!chain[level] || index < 0 || index > 511) return;
  tables.path = [...chain.slice(0, level).map(table => table.index), index];
  tables.level = level;
  drawMap();
}

/** Leads the map to an address. */
function showAddress(address) {
  tables.path = [];
  for (let level = told.levels; level > 0; level--) tables.path.push(Number(address >> entryBits(level) & 511n));
  tables.level = told.levels;
  drawMap();
}

const chosen = () => (tablesOnPath()[tables.level] || { index: 0 }).index;

function choosePresent() {
  const table = tablesOnPath()[tables.level];
  for (let index = table ? table.index + 1 : 512; index < 512; index++) {
    if (meaning(table.frame, index, table.level).kind !== "absent") return choose(tables.level, index);
  }
}

function changeLevel(by) {
  tables.level = Math.max(0, tables.level + by);
  drawMap();
}

const MAP_KEYS = {
  "ArrowLeft": () => choose(tables.level, chosen() - 1), "ArrowRight": () => choose(tables.level, chosen() + 1),
  "ArrowUp": () => choose(tables.level, chosen() - tables.perRow), "ArrowDown": () => choose(tables.level, chosen() + tables.perRow),
  "Enter": () => changeLevel(1), "Backspace": () => changeLevel(-1), "n": choosePresent,
};

/** A click on an entry chooses it, one on a low band its first. */
function clickMap({ offsetX, offsetY }) {
  const column = Math.floor((offsetX - 12) / tables.cell), depth = tables.shown.findIndex(({ top, end }) => offsetY >= top && offsetY < end);
  if (depth < 0 || column < 0 || column >= tables.perRow) return;
  const band = tables.shown[depth].bands.find(({ y, tall }) => offsetY < y + tall);
  choose(depth, band.first + (band.full ? column : 0));
}

// ---- the tree of tables ----

function element(tag, text, name) {
  const made = document.createElement(tag);
  if (text !== undefined) made.textContent = text;
  if (name) made.className = name;
  return made;
}

/** A table as a part that opens; its entries are made when it opens first. */
function branch(table, text, red) {
  const part = element("details"), list = element("ul");
  part.append(element("summary", text, red ? "here" : ""), list);
  part.addEventListener("toggle", () => {
    if (!list.childElementCount) list.append(...entriesOf(table));
  });
  return part;
}

function entriesOf(table) {
  const items = [];
  for (let index = 0; index < 512;) {
    const entry = meaning(table.frame, index, table.level), red = isMarkedEntry(table.frame, index);
    let after = index + 1;
    while (!red && after < 512 && follows(table, entry, index, after)) after++;
    items.push(itemOf(table, entry, index, after, red));
    index = after;
  }
  return items;
}

/** The entry is absent as those from the first one on, or maps the page that comes after theirs, with the same rights. */
function follows(table, first, index, after) {
  const next = meaning(table.frame, after, table.level), target = first.target + (after - index) * 2 ** (3 + 9 * table.level);
  if (isMarkedEntry(table.frame, after) || next.kind !== first.kind) return false;
  return next.kind === "absent" || next.kind === "page" && next.rights === first.rights && next.target === target;
}

function itemOf(table, entry, index, after, red) {
  const item = element("li"), from = hex(entryAddress(table, index)), mark = red ? " \u25c0 marked" : "";
  const rights = entry.kind === "page" || entry.kind === "table" ? " " + rightsText(entry.rights) : "";
  if (entry.kind === "table" && hasFrame(entry.target)) {
    const address = table.address + (BigInt(index) << entryBits(table.level));
    const below = { level: table.level - 1, frame: entry.target, address, rights: table.rights & entry.rights };
    item.append(branch(below, `${index}: ${from} table in frame ${hex(entry.target)}${rights}${mark}`, red));
    return item;
  }
  const nouns = entry.kind === "page" ? ", " + plural(after - index, "page") : " absent";
  const which = after - index > 1 ? `${index} to ${after - 1}: ${from}${nouns}` : `${index}: ${from} ${WORDS[entry.kind]}`;
  const more = entry.kind === "page" ? ` of ${SIZES[table.level - 1]} at ${hex(entry.target)}`
    : entry.kind === "table" ? ` in frame ${hex(entry.target)}, which is missing` : "";
  const how = red || entry.kind === "reserved" ? "here leaf" : entry.kind === "absent" ? "none leaf" : "leaf";
  item.append(element("div", which + more + rights + mark, how));
  return item;
}

function makeTree() {
  const root = rootOf(tables.replica), parts = [], text = `Level ${told.levels}: the root, frame ${told.dumps[tables.replica].root}`;
  if (hasFrame(root)) parts.push(branch({ level: told.levels, frame: root, address: 0n, rights: 7 }, text, false));
  else parts.push(element("p", text + ", is missing", "here"));
  if (/StrayFrame|StartStray/.test(told.verdict) && told.replica === tables.replica) {
    const stray = `Frame ${hex(told.frame)}, to which no table leads; as a table of level 1`;
    parts.push(branch({ level: 1, frame: told.frame, address: 0n, rights: 7 }, stray, true));
  }
  $("tree").replaceChildren(...parts);
  openMarked($("tree"), 0);
}

/** Opens the tables on the marked ways, and of a tree without marks the root. */
function openMarked(part, depth) {
  for (const details of part.querySelectorAll(":scope > details, :scope > li > details")) {
    const list = details.querySelector("ul"), table = details.firstChild;
    if (depth && !table.classList.contains("here") || depth >= told.levels) continue;
    details.open = true;
    if (!list.childElementCount) details.dispatchEvent(new Event("toggle"));
    openMarked(list, depth + 1);
  }
}

function showReplica(replica) {
  tables.replica = replica;
  tables.path = replica === told.replica && told.paths.length ? told.paths[told.paths.length - 1].map(([, index]) => index) : [];
  tables.level = Math.max(0, tables.path.length - 1);
  const dump = told.dumps[replica], has = `${plural(dump.frames.length, "frame")}, the root is frame ${dump.root}.`;
  $("dump-says").textContent = dump.applied === null ? `The start, with which the segment begins, has ${has}`
    : `${dump.name} had applied ${counted(dump.applied)} of ${plural(told.places, "place")} of the log; its dump has ${has}`;
  for (const button of $("replicas").children) button.setAttribute("aria-pressed", Number(button.dataset.index) === replica);
  drawMap();
  makeTree();
}
