// ---- the address space after some places of the log, by the rules of docs/FORMATS.md ----

const SPAN = [1, 512, 512 ** 2];                    // how many pages of 4 KiB are in one, by the code of its size
const ROWS = 12;
const space = { base: [], size: [], after: 0, rows: ROWS, address: null };

/** Of each place the page that its update maps, unmaps or protects, by the number of its first 4 KiB: -1 where it changes nothing. */
function indexSpace() {
  const pages = new Map(), tables = new Map();
  for (const [base, size] of told.begins) {
    pages.set(base, size);
    for (const table of tablesOf(base, size)) addUser(tables, table, 1);
  }
  space.base = new Float64Array(told.places).fill(-1);
  space.size = new Uint8Array(told.places);
  for (let place = 0; place < told.places; place++) {
    const call = logAt(place);
    if (!isCall(call) || !isUpdate(call)) continue;
    const base = pageOf(call), size = kindOf(call) === 0 ? sizeOf(call) : pages.get(base);
    const needed = size === undefined ? [] : tablesOf(base, size);
    if (kindOf(call) === 0 ? !mayMap(pages, tables, base, size, needed) : size === undefined) continue;
    space.base[place] = base;
    space.size[place] = size;
    if (kindOf(call) === 0) pages.set(base, size);
    if (kindOf(call) === 1) pages.delete(base);
    if (kindOf(call) < 2) for (const table of needed) addUser(tables, table, kindOf(call) ? -1 : 1);
  }
}

/** A new page may be mapped where none is in the way, above, at or below it, and there is room for the tables that it needs. */
function mayMap(pages, tables, base, size, needed) {
  if (covering(pages, base) >= 0 || size && tables.has(tableOf(size, base))) return false;
  return 1 + tables.size + needed.filter(table => !tables.has(table)).length <= told.tables;
}

const tableOf = (level, page) => Math.floor(page / 512 ** level) * 8 + level;

/** The tables below the root that a page needs. */
function tablesOf(base, size) {
  const needed = [];
  for (let level = size + 1; level < told.levels; level++) needed.push(tableOf(level, base));
  return needed;
}

function addUser(tables, table, by) {
  const users = (tables.get(table) || 0) + by;
  if (users) tables.set(table, users); else tables.delete(table);
}

/** Where the page that covers this one of 4 KiB begins, or -1; `sizes` has the pages' sizes by their first. */
function covering(sizes, page) {
  for (let size = 0; size < 3; size++) if (sizes.get(page - page % SPAN[size]) === size) return page - page % SPAN[size];
  return -1;
}

/** The pages after so many places, by rising address: each with its size, physical address, rights and the last place that changed it. */
function pagesAfter(count) {
  const pages = new Map(told.begins.map(([base, size, physical, rights]) => [base, { base, size, physical: BigInt(physical), rights, place: -1 }]));
  for (let place = 0; place < Math.min(count, told.places); place++) {
    const base = space.base[place], call = logAt(place);
    if (base < 0) continue;
    if (kindOf(call) === 0) pages.set(base, { base, size: space.size[place], physical: physicalOf(call), rights: rightsOf(call), place });
    else if (kindOf(call) === 1) pages.delete(base);
    else Object.assign(pages.get(base), { rights: rightsOf(call), place });
  }
  return [...pages.values()].sort((one, other) => one.base - other.base);
}

/** The last place up to so many entries that changed the page which covers an address then; -1 where it began so, or none covers it. */
function placeOfPage(count, address) {
  const pages = pagesAfter(count), number = Number(address >> 12n), page = pages[lastUpTo(pages, number)];
  return page && number < page.base + SPAN[page.size] ? page.place : -1;
}

/** How many entries of the log a call comes after, with itself; -1 where it isn't known. */
function entriesWith(call) {
  if (run.place[call] >= 0) return run.place[call] + 1;
  if (told.reach && told.reach[0] === call) return told.reach[1];
  if (isApart(call)) return told.window && told.window[0] === call ? told.window[1] : -1;
  return isUpdate(call) || run.reply[call] < 0 ? -1 : Math.min(atOf(run.reply[call]), told.places);
}

// ---- the panel of its pages ----

const pageHex = page => hex(BigInt(page) << 12n);

/** Shows the pages after so many places; nothing is changed by -1. */
function showAfter(count) {
  if (count < 0 || count === space.after && space.drawn) return;
  Object.assign(space, { after: Math.min(count, told.places), rows: ROWS });
  if (space.waiting) return;
  space.waiting = true;
  requestAnimationFrame(drawPages);
}

function drawPages() {
  const pages = pagesAfter(space.after), place = space.after - 1, call = place < 0 ? -1 : logAt(place);
  Object.assign(space, { waiting: false, drawn: true });
  $("after").value = space.after;
  $("after-says").textContent = `after ${counted(space.after)} of ${plural(told.places, "place")}: ${plural(pages.length, "page")}`;
  $("after-update").replaceChildren(...withAddresses(place < 0 ? beginText() : updateText(place, call)));
  const first = firstRows(pages), rest = joined(pages.filter(page => !first.some(each => each.page === page)));
  const rows = [...first.map(({ page, text }) => pageRow(page, text)), ...rest.slice(0, space.rows).map(run => pageRow(run, ""))];
  $("pages").tBodies[0].replaceChildren(...rows);
  $("pages").hidden = !rows.length;
  $("more-pages").hidden = rest.length <= space.rows;
  $("more-pages").textContent = `Show more: ${plural(rest.length - space.rows, "row")} left`;
}

/** What there is before the first update. */
function beginText() {
  if (told.segment === null) return "Before the first update nothing is mapped.";
  return told.begins.length ? "These are the pages with which the segment begins." : "The segment begins with no page.";
}

function updateText(place, call) {
  if (!isCall(call)) return `Place ${place} has ${call}, which is no call.`;
  const nothing = space.base[place] < 0 ? " By the rules this changes nothing." : "";
  return `Place ${place}: call ${call}, thread ${threadOf(call)}: ${requestText(call)} \u2192 ${answerText(run.reply[call])}.${nothing}`;
}

/** What comes first: the page that covers the fault's address, that of the address which is shown alone, and that of the last update. */
function firstRows(pages) {
  const place = space.after - 1, last = place >= 0 && isCall(logAt(place)) ? addressOf(logAt(place)) : null, rows = [];
  const wanted = [[told.address && BigInt(told.address), "the fault's address"], [space.address, "the address that is shown alone"],
    [last, `the address of place ${place}`]];
  for (const [address, why] of wanted) {
    if (address === null) continue;
    const number = Number(address >> 12n), page = pages[lastUpTo(pages, number)], covers = page && number < page.base + SPAN[page.size];
    const same = rows.find(row => covers ? row.page === page : row.address === address);
    if (!same) rows.push({ page: covers ? page : { address }, address, text: `${hex(address)}, ${why}` });
  }
  return rows;
}

/** The index of the last page that begins at this one of 4 KiB or before it. */
function lastUpTo(pages, number) {
  let low = 0, high = pages.length;
  while (low < high) {
    const middle = (low + high) >> 1;
    if (pages[middle].base <= number) low = middle + 1; else high = middle;
  }
  return low - 1;
}

/** Pages that follow each other, virtually and physically, with one size and the same rights, as one. */
function joined(pages) {
  const rows = [];
  let last = null, physical = -1n;
  for (const page of pages) {
    const here = page.physical, span = SPAN[page.size];
    const follows = last && last.size === page.size && last.rights === page.rights && last.base + last.many * span === page.base && here === physical;
    physical = here + (BigInt(span) << 12n);
    if (!follows) rows.push(last = { ...page, many: 1, least: page.place });
    else Object.assign(last, { many: last.many + 1, least: Math.min(last.least, page.place), place: Math.max(last.place, page.place) });
  }
  return rows;
}

/** A row of the panel: a page, or some that were joined, or an address where none is; what comes first says why. */
function pageRow(page, why) {
  const row = element("tr", undefined, why ? "first" : ""), many = page.many || 1;
  const only = page.physical === undefined ? hex(page.address) : pageHex(page.base) + (page.size ? ` ${SIZES[page.size]}` : "");
  const head = element("td");
  head.append(addressButton(only.split(" ")[0], only));
  const cells = page.physical === undefined ? ["not mapped", "", "", ""]
    : [many > 1 ? `${counted(many)} of ${SIZES[page.size]}` : SIZES[page.size], hex(page.physical), rightsText(page.rights), placesText(page, many)];
  row.append(head, ...[...cells, why].map(text => element("td", text)));
  return row;
}

/** Where a page, or some that were joined, was changed last. */
function placesText(page, many) {
  if (page.place < 0) return "the beginning";
  return many > 1 && page.least !== page.place ? `${page.least < 0 ? "the beginning" : `places ${page.least}`} to ${page.place}` : `place ${page.place}`;
}

function startSpace() {
  $("space").hidden = !told.places && !told.begins.length;
  $("after").max = told.places;
  $("after").addEventListener("input", () => {
    picture.place = Number($("after").value) - 1;
    showAfter(Number($("after").value));
    redraw();
  });
  $("more-pages").addEventListener("click", () => { space.rows += 40 * ROWS; drawPages(); });
  showAfter(told.after === null ? told.places : Math.min(told.after, told.places));
}
