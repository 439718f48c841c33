#!/usr/bin/env python3
"""The pages are true of the files beside them: a program that a page shows is the one that the gate builds and runs, and every
link leads to a file and a heading that are there. A line for each that is not, and exit 1.
"""
import glob
import os
import re
import sys

PAGES = ["README.md", *sorted(glob.glob("docs/**/*.md", recursive=True))]


def read(path):
    return open(path).read()


def without_code(text):
    return re.sub(r"^```.*?^```$", "", text, flags=re.M | re.S)


def anchors(text):
    """The names of a page's headings, as a page's reader makes them."""
    headings = re.findall(r"^#+ (.*)$", without_code(text), re.M)
    return {re.sub(r"[^\w\- ]", "", heading.lower()).replace(" ", "-") for heading in headings}


def programs(page):
    """A block of code below a comment that names a file is that file."""
    for path, block in re.findall(r"^<!-- (\S+) -->\n```\w*\n(.*?)^```$", read(page), re.M | re.S):
        if not os.path.isfile(path) or read(path) != block:
            yield f"{page}: the program is not {path}"


def links(page):
    for link in re.findall(r"\]\(([^)\s]+)\)", without_code(read(page))):
        path, _, anchor = link.partition("#")
        path = os.path.normpath(os.path.join(os.path.dirname(page), path)) if path else page
        if not os.path.exists(path):
            yield f"{page}: there is no {path}"
        elif anchor and anchor not in anchors(read(path)):
            yield f"{page}: {path} has no heading {anchor}"


def main():
    shown = sum(read(page).count("<!-- examples/") + read(page).count("<!-- rust/") for page in PAGES)
    wrong = [line for page in PAGES for check in (programs, links) for line in check(page)]
    if shown != 2:
        wrong.append(f"{shown} programs are shown, not one in C and one in Rust")
    print("\n".join(wrong), end="\n" if wrong else "")
    sys.exit(bool(wrong))


main()
