// ---- only the calls of one address ----

/** The stretch that a text names: an address, for its page of 4 KiB, or an address and a size; or null. */
function stretchOf(text) {
  const words = /^(0x[0-9a-f]{1,16})(?:\s+(4K|2M|1G))?$/i.exec(text.trim());
  if (!words) return null;
  const address = BigInt(words[1]), page = Number(address >> 12n), span = SPAN[words[2] ? SIZES.indexOf(words[2].toUpperCase()) : 0];
  return { address, first: page - page % span, after: page - page % span + span };
}

/** The calls that name a page of the stretch, the updates that changed one, and the releases of memory that such a page ever had. */
function callsOver({ first, after }) {
  const over = callsAt(first, after), pages = told.begins.filter(([base, size]) => base < after && first < base + SPAN[size]);
  const memory = pages.map(([, size, physical]) => [BigInt(physical), size]);
  memory.push(...over.filter(call => kindOf(call) === 0).map(map => [physicalOf(map), sizeOf(map)]));
  const isMet = call => memory.some(([physical, size]) => meet(physical, size, physicalOf(call), sizeOf(call)));
  return [...over, ...run.calls.filter(call => isRelease(call) && isMet(call))].sort((one, other) => one - other);
}

/** Whether two stretches of memory have an address in common. */
const meet = (one, size, other, otherSize) => one < other + bytesOf(otherSize) && other < one + bytesOf(size);
const bytesOf = size => BigInt(SPAN[size]) << 12n;

function callsAt(first, after) {
  return run.calls.filter(call => {
    if (isRelease(call)) return false;
    const page = pageOf(call), place = run.place[call], changed = place < 0 ? -1 : space.base[place];
    const asked = page < after && first < page + (kindOf(call) === 0 ? SPAN[sizeOf(call)] : 1);
    return asked || changed >= 0 && changed < after && first < changed + SPAN[space.size[place]];
  });
}

/** Shows the calls of the named stretch alone, with those that are marked; all where the text names none, or there are no such calls. */
function showOnly(text) {
  const stretch = stretchOf(text), over = stretch ? callsOver(stretch) : [];
  const named = told.marked.map(event => isCall(event) ? event : answeredBy(event));
  showCalls(over.length ? new Set([...over, ...run.marked, ...named.filter(isCall)]) : null);
  $("only").value = stretch ? text : told.address || "";
  $("every").hidden = !run.shown;
  $("show-only").setAttribute("aria-pressed", Boolean(run.shown));
  $("only-says").textContent = text.trim() ? onlyText(text, stretch, over.length) : "";
  space.address = run.shown ? stretch.address : null;
  space.drawn = false;
  showAfter(space.after);
  if (picture.selected >= 0 && !isShown(picture.selected)) picture.selected = -1;
  if (run.shown && axis.length * LEAST_EVENT < $("run").clientWidth - picture.labels) return showAll();
  if (run.shown || picture.selected < 0) return showMarked();
  show(fold(picture.selected) - 20, fold(picture.selected) + 40);
  reveal(picture.selected);
}

function onlyText(text, stretch, over) {
  if (!stretch) return "Not an address: 0x400000, or 0x400000 2M for a large page.";
  if (!over) return `No call is at ${text}: all are shown.`;
  const beside = run.shown.size - over, lanes = told.threads - run.lanes.length, cut = leftOut();
  return `Shown: ${plural(over, "call")} at ${text}` + (beside ? `, ${counted(beside)} marked beside` : "") + "; cut out: "
    + (cut ? `${plural(cut, "event")} of others` : "no event") + (lanes ? ` and ${plural(lanes, "thread")} without such a call.` : ".");
}

/** Whether the marked calls aren't side by side as long as all are shown. */
function isFarApart() {
  const spots = run.marked.map(fold);
  return spots.length > 0 && (Math.max(...spots) - Math.min(...spots) > FAR || layOut().stuck);
}

const FAR = 100, LEAST_EVENT = 24;                  // events; pixels of one, for all that is left to be shown at once

/** An address that shows its calls alone by a click, and in a dump where it leads. */
function addressButton(text, only) {
  const button = element("button", text, "address");
  button.title = told.isDump ? `Show ${text} in the tables` : `Show only the calls at ${only}`;
  button.addEventListener("click", () => {
    if (told.isDump) return showAddress(BigInt(text));
    showOnly(only);
    $("run").scrollIntoView({ block: "nearest" });
  });
  return button;
}

/** A text with its addresses of the space, not of memory, as buttons that show their calls alone. */
function withAddresses(text) {
  const named = /\b((?:map (4K|2M|1G)|unmap|protect|resolve|(?:access|touch) [su] [rwx]|overlap|inside|from|At|How) )(0x[0-9a-f]+)/g, parts = [];
  let after = 0;
  for (const found of text.matchAll(named)) {
    const size = found[2] && found[2] !== "4K" ? " " + found[2] : "";
    parts.push(text.slice(after, found.index) + found[1], addressButton(found[3], found[3] + size));
    after = found.index + found[0].length;
  }
  return [...parts, text.slice(after)];
}

function startOnly() {
  $("filter").addEventListener("submit", event => { event.preventDefault(); showOnly($("only").value); });
  $("every").addEventListener("click", () => showOnly(""));
  for (const part of document.querySelectorAll("h1, .facts li, #marked tbody td")) part.replaceChildren(...withAddresses(part.textContent));
  $("filter").hidden = !run.calls.length;
  showOnly("");
  if (told.address && isFarApart()) showOnly(told.address);
}
