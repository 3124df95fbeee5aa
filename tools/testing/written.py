"""Tests as files and lines: JUnit's XML, the Test Anything Protocol, and plain text."""

from html import escape
from itertools import groupby


def printable(text):
    """Returns a text in which each character can be written: others become `?`."""
    return "".join(it if it == "\n" or it.isprintable() else "?" for it in text)


def attribute(text):
    """Returns a text as an attribute of XML, in quotes."""
    return '"' + escape(printable(text).replace("\n", " ")) + '"'


def junit_text(tests):
    """Returns tests as JUnit's XML, with a suite for each document."""
    failed = sum(it.told is not None for it in tests)
    lines = ['<?xml version="1.0" encoding="UTF-8"?>', f'<testsuites tests="{len(tests)}" failures="{failed}">']
    for file, group in groupby(tests, key=lambda it: it.file):
        lines += suite_lines(file, [*group])
    return "\n".join([*lines, "</testsuites>", ""])


def suite_lines(file, tests):
    """Returns the lines of a document's suite."""
    failed, seconds = sum(it.told is not None for it in tests), sum(it.seconds for it in tests)
    numbers = f'tests="{len(tests)}" failures="{failed}" errors="0" skipped="0" time="{seconds:.3f}"'
    lines = [f"  <testsuite name={attribute(file)} {numbers}>"]
    for it in tests:
        head = f'    <testcase classname={attribute(file)} name={attribute(it.title)} time="{it.seconds:.3f}"'
        if it.told is None:
            lines.append(f"{head}/>")
        else:
            said = f"      <failure message={attribute(it.told.said)}>{escape(printable(it.told.text))}</failure>"
            lines += [f"{head}>", said, "    </testcase>"]
    return [*lines, "  </testsuite>"]


def tap_lines(tests):
    """Returns tests as lines of the Test Anything Protocol, version 13."""
    lines = ["TAP version 13", f"1..{len(tests)}" if tests else "1..0 # SKIP no test is here"]
    for number, it in enumerate(tests, 1):
        name = printable(f"{it.file}: {it.title}").replace("\n", " ").replace("#", "\\#")
        lines.append(f"{'ok' if it.told is None else 'not ok'} {number} - {name}")
        if it.told is not None:
            lines += [f"# {line}" for line in printable(it.told.text).splitlines()]
    return lines


def summary(tests):
    """Returns how many tests passed and failed."""
    failed = sum(it.told is not None for it in tests)
    return f"{len(tests) - failed} passed, {failed} failed"
