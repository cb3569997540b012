#!/usr/bin/env python3
"""Says which links of the documents lead nowhere.

    tests/links.py FOLDER..

Looks at every *.md file of the folders, but for those under a folder `target`: a link [words](place) must lead to a file that is there,
and, where it names a heading behind #, to a heading of that file. Links to the network are not followed. The exit status is 0 only where
all lead somewhere.
"""

import re
import sys
from pathlib import Path


def prose(path):
    """The document without its blocks and words of code."""
    lines, block = [], False
    for line in path.read_text(encoding="utf-8").splitlines():
        if line.startswith("```"):
            block = not block
        elif not block and not line.startswith("    "):
            lines.append(line)
    return "\n".join(lines)


def headings(path):
    """The names by which a link finds the document's headings: lower case, hyphens for spaces, no other signs."""
    names = set()
    for line in prose(path).splitlines():
        if line.startswith("#"):
            title = line.lstrip("#").strip().lower()
            names.add(re.sub(r"[^\w\- ]", "", title).replace(" ", "-"))
    return names


def astray(path):
    """The places named by links of a document that are not there."""
    for place in re.findall(r"\[[^]]*\]\(([^)]*)\)", re.sub(r"`[^`]*`", "", prose(path))):
        if place.startswith(("http://", "https://")):
            continue
        name, _, heading = place.partition("#")
        target = path.parent / name if name else path
        if not target.exists() or (heading and heading not in headings(target)):
            yield place


def main():
    documents = [p for folder in sys.argv[1:] for p in sorted(Path(folder).rglob("*.md")) if "target" not in p.relative_to(folder).parts]
    lost = [(path, place) for path in documents for place in astray(path)]
    for path, place in lost:
        print(f"{path}: {place} leads nowhere")
    sys.exit(1 if lost or not documents else 0)


main()
