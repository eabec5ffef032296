#!/usr/bin/env python3
"""Looks whether each link of the pages leads to a file, and to a heading of it where it names one.

    bench/links.py

The pages are those at the top, of docs/, bench/ and tools/. Prints each link that leads nowhere; the status is 1 where one does.
"""
import pathlib
import re
import sys

TOP = pathlib.Path(__file__).resolve().parent.parent
sys.path.insert(0, str(TOP / "tools"))
from script import Parser, carry_out

PAGES = ("*.md", "docs/*.md", "bench/*.md", "tools/*.md")


def anchors(page):
    """The names under which the headings of a page can be found, outside of its blocks."""
    text = re.sub(r"^```.*?^```", "", page.read_text(), flags=re.MULTILINE | re.DOTALL)
    headings = re.findall(r"^#+ (.*)$", text, re.MULTILINE)
    return {re.sub(r"[^\w\- ]", "", heading.lower()).replace(" ", "-") for heading in headings}


def leads_nowhere(page, link):
    """Whether a link of a page has no file, or no such heading in it."""
    name, _, anchor = link.partition("#")
    file = (page.parent / name).resolve() if name else page
    return not file.exists() or bool(anchor) and anchor not in anchors(file)


def main():
    Parser(__doc__).parse_args()
    pages = [page for pattern in PAGES for page in sorted(TOP.glob(pattern))]
    links = [(page, link) for page in pages for link in re.findall(r"\]\(([^)\s]+)\)", page.read_text()) if "://" not in link]
    wrong = [(page, link) for page, link in links if leads_nowhere(page, link)]
    for page, link in wrong:
        print(f"{page.relative_to(TOP)}: {link}")
    print(f"{len(links)} links, {len(wrong)} lead nowhere")
    return 1 if wrong else 0


if __name__ == "__main__":
    carry_out("links", main)
