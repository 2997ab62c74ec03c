// ---- start ----

function startDumps() {
  const readable = told.dumps.map((_, index) => index).filter(index => told.dumps[index].frames.length);
  $("dumps").hidden = !readable.length;
  if (!readable.length) return;
  tables.frames = told.dumps.map(dump => new Map(dump.frames));
  for (const [frame, index] of told.paths.flat()) tables.marked.add(`${told.replica}:${frame}:${index}`);
  $("replicas").replaceChildren(...readable.map(index => {
    const button = element("button", told.dumps[index].name);
    button.dataset.index = index;
    button.addEventListener("click", () => showReplica(index));
    return button;
  }));
  onKeys($("map"), MAP_KEYS);
  $("map").addEventListener("click", clickMap);
  $("seek").addEventListener("submit", event => {
    event.preventDefault();
    const stretch = stretchOf($("where").value);
    if (stretch) showAddress(stretch.address);
    else $("cell").textContent = "Not an address, as 0x400000 is.";
  });
  showReplica(readable.includes(told.replica) ? told.replica : readable[0]);
}

function startRun() {
  onKeys($("run"), RUN_KEYS);
  onMouse($("run"));
  $("scroller").addEventListener("scroll", redraw);
  $("nearer").addEventListener("click", () => zoom(0.5));
  $("farther").addEventListener("click", () => zoom(2));
  $("all").addEventListener("click", showAll);
  $("fault").addEventListener("click", showMarked);
  $("search").addEventListener("submit", event => { event.preventDefault(); find(); });
  $("the-run").hidden = told.isDump || told.segment !== null && !told.events && !told.places;
  $("marked").hidden = !run.marked.length;
  $("fault").hidden = !run.marked.length && !told.marked.length;
  if (run.marked.length) describe(run.marked[run.marked.length - 1]);
  else $("details").replaceChildren(element("div", "Point at a call, or choose one with the arrow keys.", "hint"));
  $("details").hidden = !told.events;
}

/** What the page's address asks for after its `#`: `only=ADDRESS` shows the calls there alone, `zoom=N` presses the button N times,
 *  `after=N` shows the pages after N places, `find=TEXT` searches. */
function pressHash() {
  const asked = new URLSearchParams(location.hash.slice(1));
  if (asked.has("only")) showOnly(asked.get("only"));
  if (asked.has("after")) showAfter(Math.min(Number(asked.get("after")) || 0, told.places));
  for (let times = Number(asked.get("zoom") || 0); times > 0; times--) $("nearer").click();
  if (asked.has("find")) {
    $("find").value = asked.get("find");
    $("search").requestSubmit();
  }
  document.body.dataset.from = picture.from.toFixed(2);
  document.body.dataset.to = picture.to.toFixed(2);
  document.body.dataset.selected = picture.selected;
}

function repaint() {
  readColours();
  drawRun();
  if (!$("dumps").hidden) drawMap();
}

async function start() {
  await openBytes();
  readColours();
  indexRun();
  indexSpace();
  startRun();
  startSpace();
  startOnly();
  startDumps();
  pressHash();
  repaint();
  window.addEventListener("resize", repaint);
  window.addEventListener("hashchange", pressHash);
  matchMedia("(prefers-color-scheme: dark)").addEventListener("change", repaint);
  window.addEventListener("beforeprint", () => { document.documentElement.classList.add("printing"); repaint(); });
  window.addEventListener("afterprint", () => { document.documentElement.classList.remove("printing"); repaint(); });
  document.body.dataset.ready = "yes";
}
start();
