"""What a run or many said, for machines: lines of the Test Anything Protocol, and an XML file as JUnit's."""
from dataclasses import dataclass, field
from xml.sax.saxutils import quoteattr


@dataclass(frozen=True)
class Result:
    name: str
    said: str
    is_as_expected: bool
    seconds: float
    shown: list[str] = field(default_factory=list)      # lines for a person


def tap(results: list[Result]) -> list[str]:
    lines = ["TAP version 13", f"1..{len(results)}"]
    for number, each in enumerate(results, 1):
        lines.append(f"{'' if each.is_as_expected else 'not '}ok {number} - {each.name}: {each.said}")
        lines += [f"# {line}" for line in each.shown]
    return lines


def junit(suite: str, results: list[Result]) -> str:
    failed = [each for each in results if not each.is_as_expected]
    parts = ['<?xml version="1.0" encoding="UTF-8"?>\n',
             f'<testsuite name={quoteattr(suite)} tests="{len(results)}" failures="{len(failed)}">\n']
    for each in results:
        parts.append(f'  <testcase name={quoteattr(each.name)} time="{each.seconds:.1f}">')
        if each in failed:
            parts.append(f"<failure message={quoteattr(each.said)}/>")
        parts.append("</testcase>\n")
    return "".join([*parts, "</testsuite>\n"])


def write_junit(path: str, suite: str, results: list[Result]) -> None:
    with open(path, "w") as file:
        file.write(junit(suite, results))
