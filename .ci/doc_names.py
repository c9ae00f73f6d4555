#!/usr/bin/env python3
"""Each name in back-quotes in a page is somewhere in the code: as a name in a source, a definition, a
proof or a test, as a clause label, or as a file. It also looks at links between pages, at the list by
topic in docs/DECISIONS.md, and at the length of README.md. Prints what is wrong, with its place;
exit status 1 where something is.

    .ci/doc_names.py [--later FILE]

FILE has names that are taken as known, one a line."""
import glob
import os
import re
import sys

ROOT = os.path.dirname(os.path.dirname(os.path.abspath(__file__)))
MOST_WORDS = 1500

# Names that pages speak of and that the code doesn't have: of the system, of tools, of examples.
NOT_OURS = {
    "PATH", "QF_PARSE", "READER", "FILE", "FOLDER", "CRATE", "PROGRAM", "MODULE", "TYPE", "nice", "flock", "fdatasync",
    "LABEL", "of_", "_seen", "the_type", "the_row", "out", "antt",
    "month-year",
}
KINDS = {".rt", ".antt", ".sh", ".py", ".md", ".txt", ".json", ".edit"}
WORD = re.compile(r"[A-Za-z_][A-Za-z_0-9]*(?:-[A-Za-z_0-9]+)*")
QUOTED = re.compile(r"`([A-Za-z_.][A-Za-z_0-9:./-]*)`")
LINK = re.compile(r"\]\(([^)#]+)\)")


def pages():
    found = glob.glob("*.md") + glob.glob("docs/*.md") + glob.glob("crates/*/README.md") + glob.glob("*/README.md")
    return sorted(set(found))


def known_names():
    """All names of the code, and the names of all files, with and without their kind."""
    known = set(NOT_OURS)
    for folder, inside, files in os.walk("."):
        inside[:] = [it for it in inside if it not in ("out", ".git", "__pycache__")]
        known.update(inside)
        for name in files:
            stem, kind = os.path.splitext(name)
            known.update((name, stem))
            path = os.path.join(folder, name)
            if kind in (".rt", ".antt") or folder.endswith("bench"):
                with open(path, errors="replace") as text:
                    for line in text:
                        if line.lstrip().startswith(("//", "-- ")) and kind in (".rt", ".antt"):
                            continue  # a comment is no code
                        for word in WORD.findall(line):
                            known.add(word)
                            known.update(word.split("-"))
    with open("crates.txt") as text:
        known.update(WORD.findall(text.read()))
    return known


def is_file(page, name):
    """Whether a file with this path is there, from the root, the page, a crate or a part of one."""
    places = [".", os.path.dirname(page), "crates"] + glob.glob("crates/*") + glob.glob("crates/*/*")
    return any(os.path.exists(os.path.join(place, name)) for place in places)


def wrong_names(page, number, line, known):
    for name in QUOTED.findall(line):
        name = name.rstrip(":")
        kind = os.path.splitext(name)[1]
        if "/" in name and is_file(page, name):
            continue
        if kind in KINDS:
            if not is_file(page, name) and name not in known and os.path.basename(name) not in known:
                yield f"{page}:{number}: no file {name}"
            continue
        parts = [it for it in re.split(r"::|\.|/", name) if it]
        missing = [it for it in parts if it not in known]
        if missing:
            yield f"{page}:{number}: {name}: nothing has the name {missing[-1]}"


def wrong_links(page, number, line):
    for link in LINK.findall(line):
        if "://" not in link and not os.path.exists(os.path.join(os.path.dirname(page), link)):
            yield f"{page}:{number}: no page {link}"


def wrong_topics():
    """Each decision is in the list by topic, and no other number is."""
    with open("docs/DECISIONS.md") as text:
        head, _, rest = text.read().partition("\n## 1. ")
    made = {1} | {int(it) for it in re.findall(r"^## (\d+)\.", rest, re.M)}
    rows = re.findall(r"^\|[^|]*\|([^|]*)\|$", head, re.M)
    listed = {int(it) for row in rows for it in re.findall(r"(?:^ |; |and )(\d+) ", row)}
    for number in sorted(made ^ listed):
        yield f"docs/DECISIONS.md: entry {number} isn't both in the list by topic and on the page"


def main():
    os.chdir(ROOT)
    known = known_names()
    if len(sys.argv) == 3 and sys.argv[1] == "--later":
        with open(sys.argv[2]) as text:
            known.update(text.read().split())
    wrong = list(wrong_topics())
    for page in pages():
        fenced = False
        with open(page) as text:
            for number, line in enumerate(text, 1):
                fenced ^= line.startswith("```")
                if not fenced:
                    wrong.extend(wrong_names(page, number, line, known))
                    wrong.extend(wrong_links(page, number, line))
    with open("README.md") as text:
        words = len(text.read().split())
    if words > MOST_WORDS:
        wrong.append(f"README.md has {words} words, more than {MOST_WORDS}")
    print("\n".join(wrong) or "Each name in the pages is in the code.")
    return 1 if wrong else 0


if __name__ == "__main__":
    sys.exit(main())
