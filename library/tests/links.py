#!/usr/bin/env python3
"""Prints the links of the documents below a folder that lead to no file. Usage: links.py FOLDER"""
import pathlib
import re
import sys


def main():
    pages = sorted(pathlib.Path(sys.argv[1]).rglob("*.md"))
    found = [] if len(pages) > 5 else [f"there are {len(pages)} documents"]
    for page in pages:
        for target in re.findall(r"\]\(([^)#\s]+)", page.read_text()):
            if "://" not in target and not (page.parent / target).exists():
                found.append(f"{page}: no file {target}")
    for line in found:
        print(line)
    return 1 if found else 0


sys.exit(main())
