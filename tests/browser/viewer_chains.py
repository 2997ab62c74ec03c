"""The pages that viewer/draw makes of chains, for tests/viewer: of the worked ones, and of drawn ones with a fault planted in each of three
segments. What they are to say comes from the second implementation (model_chain_evidence.py)."""
import base64
import html
import json
import os
import random
import re
import zlib

import drawn_chains
import model_chain_evidence as evidence
import model_chains as model
import planted_faults
import viewer_browser
from counting import check

TESTS = os.path.dirname(os.path.dirname(os.path.abspath(__file__)))
SEGMENTS = 3
BROWSED = ("stale_touch.chain", "begins_with_a_page_and_denies_it", "start_with_a_shared_table", "start_with_a_stray_frame", "two_segments",
           "second_begins_elsewhere", "touch_of_a_page", "no_bytes", "release_while_the_unmap_is_open", "release_of_a_part_of_a_large_page")


def read(path):
    with open(path, "rb") as file:
        return file.read()


def chains():
    """Each chain with its name: the worked ones, and one for each fault in each segment that may have it."""
    for row in open(f"{TESTS}/chains/EXPECTED"):
        if not row.startswith("#"):
            name = row.split("\t")[0]
            yield name, read(f"{TESTS}/chains/{name}.chain")
    yield "stale_touch.chain", read(f"{TESTS}/../examples/stale_touch.chain")
    for k in range(SEGMENTS):
        yield f"right {k}", drawn_chains.spelled(drawn_chains.chain(random.Random(k), k + 1))
        for name in (*planted_faults.FORMATS, *planted_faults.PLANTS):
            if k or not name.startswith(("BadChain", "StartDiffers")):
                yield f"{name} in {k}", planted(random.Random(f"{name} {k}"), name, k)


def planted(draw, name, k):
    """A chain with that fault in its segment k."""
    while True:
        starts, dumps = ([k], []) if "Start" in name else ([], [k])
        drawn = drawn_chains.chain(draw, k + 1, starts, dumps)
        try:
            if name in planted_faults.FORMATS:
                return planted_faults.plant_in_bytes(name, draw, drawn, k)[0]
            planted_faults.plant(name, draw, drawn[k])
            return drawn_chains.spelled(drawn)
        except planted_faults.NotHere:
            continue


def segments_of(data):
    """Of each right segment, and of the one with a fault where it can be read: where it begins and ends, what it says, and the pages with
    which it begins, where nothing is wrong with its start."""
    chain = evidence.Chain(data)
    while chain.position < len(data):
        at, pages = chain.position, None
        try:
            segment = model.read_segment(data, at, chain.before)
        except model.Fault:
            return
        try:
            pages = [[base // 4096, size, hex(phys), rights] for base, size, phys, rights in chain.begin(segment).listed()]
            chain.pass_over(segment)
        except model.Fault:
            yield at, segment, pages
            return
        yield at, segment, pages


def embedded(page, name):
    start = page.index(">", page.index(f'<script id="{name}" ')) + 1
    return page[start:page.index("</script>", start)]


def check_page(name, page, number, at, segment, pages, data):
    """It has the bytes of the segment, its calls with the touches, and the pages with which it begins."""
    told, inside = json.loads(embedded(page, "data")), zlib.decompress(base64.b64decode(embedded(page, "bytes")))
    check(f"{name}: the segment's number", told["segment"] == number, told["segment"])
    check(f"{name}: its bytes are the segment's", inside == data[at:segment.ends], len(inside))
    events = [inside[told["eventsAt"] + 24 * i:][:24] for i in range(told["events"])]
    for kind, calls in ((model.TOUCH, segment.touches), (model.RELEASE, segment.releases)):
        check(f"{name}: its calls of kind {kind}", calls == {i for i, each in enumerate(events) if each[0] == 0 and each[4] == kind})
    check(f"{name}: its places", segment.trace.log == [int.from_bytes(inside[told["logAt"] + 4 * i:][:4], "big") for i in range(told["places"])])
    wanted = [dump.applied if dump else 0 for dump in segment.trace.dumps] + [None] * (segment.start is not None)
    check(f"{name}: its dumps and its start", wanted == [dump["applied"] for dump in told["dumps"]], told["dumps"] and wanted)
    check(f"{name}: the pages with which it begins", pages is None or pages == told["begins"], told["begins"])


def check_fault(name, page, whole):
    """It says the verdict and the sentence, and of a stale touch what it may see."""
    told, shown = json.loads(embedded(page, "data")), whole["evidence"]
    check(f"{name}: the verdict", f">segment {whole['segment']}: {html.escape(whole['verdict'])}</div>" in page)
    check(f"{name}: the sentence", re.sub("`([^`]*)`", r"<code>\1</code>", html.escape(whole["sentence"])) in page)
    check(f"{name}: what it most often is", f"<li>Most often this is {html.escape(whole['usually'])}.</li>" in page)
    is_stale, is_reached = shown["fault"] == "Stale", shown["fault"] == "Reachable" and "address" in shown
    window = [shown["call"]["event"], min(shown["first"], shown.get("known", shown["first"])), shown["last"]] if is_stale else None
    check(f"{name}: what a stale touch may see", told["window"] == window, told["window"])
    check(f"{name}: how far a table lags", (is_stale and "known" in shown) == (f"had applied {shown.get('known')} entr" in page))
    taken = shown.get("taken")
    still = shown["open"] if is_stale else None
    check(f"{name}: which update was open", bool(still) == ("was still open then, " in page)
          and (not still or f"The entry at place {still['place']} was still open then, " in page))
    end = taken["reply"]["event"] if isinstance(taken, dict) and taken["reply"] else told["events"]
    reach = [shown["call"]["event"], shown["entries"] or 0, end] if is_reached else None
    check(f"{name}: when the memory could be reached", told["reach"] == reach, told["reach"])
    check(f"{name}: what leads to the memory", not is_reached or f"{shown['address']} leads there: <code>{html.escape(shown['look'])}" in page)
    for look in shown.get("looks", []):
        check(f"{name}: how its address looked", f"After {look['entries']} of them" in page and html.escape(look["look"]) in page)
    if isinstance(shown.get("changed"), str):
        check(f"{name}: where an address comes from", f"that is of {shown['changed']}." in page)


def check_all(viewer, work):
    """Draws the segment with the fault, and each before it; where there is a folder, a browser opens some."""
    faults, browsed = set(), {}
    for name, data in chains():
        whole, _ = evidence.explained(data)
        said, segments = json.dumps(whole), list(segments_of(data))
        last = whole["segment"] if "segment" in whole else len(segments) - 1
        try:
            pages = [viewer.draw_chain(data, said, number) for number in range(last + 1)]
        except Exception as error:                  # each way to fail is reported with its chain
            check(f"{name} is drawn", False, f"{whole['verdict']}: {error!r}")
            continue
        check(f"{name}: without a number the last is drawn", viewer.draw_chain(data, said) == pages[-1])
        for number, (at, segment, begins) in enumerate(segments):
            check_page(f"{name}, segment {number}", pages[number], number, at, segment, begins, data)
        for number in range(last if "segment" in whole else 0):
            check(f"{name}, segment {number}: it is right", f">segment {number}: yes</div>" in pages[number])
        if "segment" in whole:
            check_fault(name, pages[last], whole)
            faults.add(whole["evidence"]["fault"])
        check(f"{name}: no other is drawn", is_refused(viewer, data, said, last + 1))
        browsed |= {name: pages[-1]} if name in BROWSED else {}
    check("each fault of chains comes up", faults >= {*model.traces.FAULTS, *model.traces.OF_CHAINS}, faults)
    if work:
        check_in_browser(work, browsed)


def is_refused(viewer, data, said, number):
    try:
        viewer.draw_chain(data, said, number)
    except LookupError:
        return True
    return False


def check_in_browser(work, browsed):
    """Each opens without an error."""
    check("pages of chains for the browser", len(browsed) == len(BROWSED), sorted(browsed))
    for index, page in enumerate(browsed.values()):
        with open(os.path.join(work, f"chain{index}.html"), "w", encoding="utf-8") as file:
            file.write(page)
    bodies = viewer_browser.outputs(work, [("--dump-dom", f"file://{work}/chain{index}.html") for index in range(len(browsed))])
    for name, body in zip(browsed, bodies):
        errors = re.search('<pre id="errors"[^>]*>', body)
        check(f"{name}: opens", 'data-ready="yes"' in body and errors and "hidden" in errors[0], body[:200])
