"""The wrong bodies (crates/*/must-fail), for tests/trust_base.py: each can be applied, and each that has to be refused is refused somewhere."""
import re
from pathlib import Path

ROOT = Path(__file__).resolve().parent.parent.parent


def unusable_edits():
    """The wrong bodies that say nothing, since what they replace isn't in the file that they name, or is there more than once."""
    for edit in sorted(ROOT.glob("crates/*/must-fail/*")):
        texts, file, old = {}, None, None
        for line in edit.read_text().splitlines():
            if line.startswith("file: "):
                file = edit.parent.parent / line.removeprefix("file: ").strip()
            elif line.startswith("old: "):
                old = line.removeprefix("old: ")
            elif line.startswith("new:") and file and old:
                text = texts.get(file) or (file.read_text() if file.is_file() else "")
                if text.count(old) != 1:
                    yield f"{edit.relative_to(ROOT)}: what it replaces is {text.count(old)} times in {file.name}: {old}"
                texts[file] = text.replace(old, line.removeprefix("new:").removeprefix(" "))
        if edit.suffix != ".edit" or not texts:
            yield f"{edit.relative_to(ROOT)} is no wrong body"


# The wrong bodies that have to be refused.
WRONG_BODIES = """
floor_of_answered_updates_only read_position_taken_as_place one_call_at_two_places rights_of_leaf_alone unused_field_accepted
check_only_pages_of_space empty_table_kept append_over_unfetched_entry repeated_entry_dropped stamps_in_blocks completed_raised_later
workers_on_one_thread always_out_of_memory always_no yes_with_empty_order replica_at_zero_passed always_moved read_from_lagging_replica
read_of_empty_space done_to_every_map look_without_load meet_without_effect update_always_stopped freed_words_given_back step_always_false
stamp_under_mutex run_always_refused reserved_log_bits_accepted one_node_for_all_replicas invented_answer run_without_calls
settle_with_nothing run_steps_takes_no_step table_beside_the_replicas
""".split()
CANT_BE_WRITTEN = {"stamp_under_mutex": ("crates/nr_record/src/pen.rt", r"\bWait\b|\bMutex\b")}


def test_names():
    """The tests of the test crates, and the cases."""
    code = [path.read_text() for path in ROOT.glob("crates/*_tests/src/**/*.rt")]
    return {name for text in code for name in re.findall(r"#\[test\]\s+fn (\w+)", text)} | {path.name for path in ROOT.glob("tests/cases/*")}


def unrefused_bodies():
    """The wrong bodies that no edit makes, and for which PROMISES.md names no test that there is."""
    edits = {edit.stem for edit in ROOT.glob("crates/*/must-fail/*.edit")}
    section = (ROOT / "docs/PROMISES.md").read_text().partition("## Wrong bodies that tests refuse")[2].partition("\n## ")[0]
    known, refused = test_names(), set()
    for item in section.split("\n- ")[1:]:
        named = re.findall(r"`(\w+)`", item)
        bodies = [name for name in named if name in WRONG_BODIES]
        tests = [name for name in named if name not in WRONG_BODIES]
        yield from (f"PROMISES.md: {name} is a wrong body's test, and there is no such test" for name in tests if name not in known)
        if tests or set(bodies) <= set(CANT_BE_WRITTEN):
            refused.update(bodies)
    yield from (f"no edit and no test refuses the wrong body {name}" for name in WRONG_BODIES if name not in edits | refused)
    for name, (file, could) in CANT_BE_WRITTEN.items():
        if re.search(could, (ROOT / file).read_text()):
            yield f"the wrong body {name} could be written now: {file}"
