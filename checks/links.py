#!/usr/bin/env python3
"""checks/links.py  tests that each link of each page of the repository leads somewhere: a relative link to a file or a
folder that is there, and an #anchor to a heading of the page that it names. Links to other sites are not followed. What
stands between backquotes and begins as a path from the top of the repository, as `docs/COST.md`, has to be there too; `*`
stands for any name in it, and a path with a name in capital letters, as `crates/NAME`, is a form of paths and not looked
at. It prints each link and path that leads nowhere, and ends with status 1 where there is one."""
import glob
import os
import re
import subprocess
import sys
import urllib.parse

LINK = re.compile(r"!?\[(?:[^\[\]]|\[[^\[\]]*\])*\]\(\s*<?([^()<>\s]+)>?(?:\s+\"[^\"]*\")?\s*\)")
NAMED = re.compile(r"^\s{0,3}\[[^\]]+\]:\s*<?(\S+?)>?(?:\s|$)")
CODE = re.compile(r"(`+)(?!`)(.*?)(?<!`)\1(?!`)")
PATH = re.compile(r"(?:crates|docs|bench|checks|sample)/[\w./*-]+")
FORM = re.compile(r"(?:^|/)[A-Z]+(?:$|/|\.)")
HEADING = re.compile(r"^\s{0,3}#{1,6}\s+(.*?)\s*#*\s*$")


def pages(top):
    """Gives the pages that are kept, or are new and not ignored."""
    listed = subprocess.run(
        ["git", "ls-files", "-co", "--exclude-standard", "-z", "--", "*.md"],
        cwd=top, check=True, capture_output=True, text=True).stdout
    return sorted({name for name in listed.split("\0") if name and os.path.isfile(f"{top}/{name}")})


def prose(path):
    """Gives the lines of a page that stand outside blocks of code, with their numbers."""
    fence = None
    with open(path, encoding="utf-8") as page:
        for number, line in enumerate(page, 1):
            mark = re.match(r"\s{0,3}(`{3,}|~{3,})", line)
            if fence:
                if mark and mark[1].startswith(fence) and not line.strip().strip(fence[0]):
                    fence = None
            elif mark:
                fence = mark[1]
            else:
                yield number, line.rstrip("\n")


def anchors(path):
    """Gives the anchors of a page's headings: small letters, blanks as hyphens, other signs left out, repeats numbered."""
    found, seen = set(), {}
    for _, line in prose(path):
        heading = HEADING.match(line)
        if not heading:
            continue
        text = re.sub(r"\[([^\]]*)\]\([^)]*\)", r"\1", heading[1])
        anchor = re.sub(r"[^\w\- ]", "", text.lower()).replace(" ", "-")
        count = seen.get(anchor, 0)
        seen[anchor] = count + 1
        found.add(f"{anchor}-{count}" if count else anchor)
    return found


def links(path):
    """Gives the links of a page, with their lines. What stands between backquotes is no link."""
    for number, line in prose(path):
        bare = CODE.sub(lambda code: "x" * len(code[0]), line)
        for link in LINK.finditer(bare):
            yield number, link[1]
        named = NAMED.match(bare)
        if named:
            yield number, named[1]


def paths(path):
    """Gives the paths that a page names between backquotes, with their lines."""
    for number, line in prose(path):
        for code in CODE.finditer(line):
            named = PATH.fullmatch(code[2].strip())
            if named and not (FORM.search(named[0]) and not named[0].endswith(".md")):
                yield number, named[0]


def fault(top, page, link):
    """Says why a link leads nowhere, or gives None."""
    if re.match(r"[A-Za-z][A-Za-z0-9+.-]*:", link):
        return None
    name, _, anchor = link.partition("#")
    target = f"{top}/{page}"
    if name:
        name = urllib.parse.unquote(name)
        target = f"{top}{name}" if name.startswith("/") else os.path.join(os.path.dirname(target), name)
        target = os.path.normpath(target)
        if target != top and not target.startswith(top + os.sep):
            return "it leads out of the repository"
        if not os.path.exists(target):
            return "there is no such file"
        kept = ["git", "ls-files", "-co", "--exclude-standard", "--", target]
        if not subprocess.run(kept, cwd=top, check=True, capture_output=True).stdout:
            return "the file is not kept"
    if anchor and (os.path.isdir(target) or urllib.parse.unquote(anchor).lower() not in anchors(target)):
        return "there is no such heading"
    return None


def main():
    top = os.path.dirname(os.path.dirname(os.path.abspath(__file__)))
    bad = count = 0
    for page in pages(top):
        for number, link in links(f"{top}/{page}"):
            count += 1
            why = fault(top, page, link)
            if why:
                bad += 1
                print(f"{page}:{number}: {link}: {why}")
        for number, path in paths(f"{top}/{page}"):
            count += 1
            if not glob.glob(f"{top}/{path}"):
                bad += 1
                print(f"{page}:{number}: {path}: there is no such file")
    print(f"{count} links and paths, {bad} lead nowhere")
    return 1 if bad else 0


if __name__ == "__main__":
    sys.exit(main())
