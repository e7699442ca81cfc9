#!/usr/bin/env python3
# Gives this repository's own definitions and lemmas today's spelling: words in snake case, primes as an apostrophe. Run once, at the top
# of a checkout, right after the kit's port.py; it says which names it turned. Names of functions, types, modules and of the library stay.
import collections
import glob
import os
import re
import sys

NAME = r"[^\s(){}\[\];,.:`\"]+"
# What a token is bounded by in antt, in a clause and in a page's backticks.
EDGE = r"[\s(){}\[\];,.:`\"]"

# Lemmas, facts and locals whose new spelling a definition has: they say that it holds, or how.
APART = {
    "all-of", "and-then", "answer-bytes", "begin-in", "bring-in", "context-bits", "context-sound", "counts-then", "data-length",
    "domain-here", "domain-in", "event-at", "example-listing", "field-then", "frame-in", "frame-sound", "frames-of", "fresh-tables",
    "is-public", "kernel-read", "kernel-write", "kind-bits", "map-from", "mapping-sound", "names-sound", "own-frame", "page-in",
    "page-sound", "place-sound", "products-fit", "rules-take", "same-context", "same-page", "saved-of", "saved-sound", "seal-all",
    "seal-at", "seal-named", "uncloaked-at", "used-at",
}
# The same, where port.py had turned the lemma's name already, and not the definition's.
TURNED = {"is_free", "place_after", "span_fits", "no_span", "same_bytes", "too_many"}


def snake(name):
    name = name.replace("′", "'")
    name = re.sub(r"([a-z0-9])([A-Z])", lambda m: m[1] + "_" + m[2].lower(), name)
    return name.replace("-", "_")


def antt_files():
    return sorted(f for d in ("specs", "proofs") for f in glob.glob(f"crates/*/{d}/**/*.antt", recursive=True))


def own_names():
    """What the files of specs/ and proofs/ declare, but for what answers a function's goals."""
    names = set()
    for file in antt_files():
        if os.path.basename(file) == "Proof.antt":
            continue
        for line in open(file):
            if line.lstrip().startswith("--"):
                continue
            found = re.match(r"^\s*(?:unfoldable |abbrev )?(?:pub )?(?:record |data )?(" + NAME + r")(?: .*)? :(?= |$)", line)
            if found:
                names.add(found[1])
    return names


def library_names():
    """What files import from anything but this repository's crates."""
    own = {os.path.basename(d) for d in glob.glob("crates/*")}
    names = set()
    for file in antt_files():
        for found in re.finditer(r"^use ([\w.]+)\.\{([^}]*)\}", open(file).read(), re.M):
            path = found[1].split(".")
            if not (path[0] == "Rattle" and len(path) > 1 and path[1] in own):
                names.update(n.strip().split(" as ")[0] for n in found[2].split(","))
    return names


def replace(text, table, before=EDGE):
    keys = "|".join(re.escape(k) for k in sorted(table, key=len, reverse=True))
    return re.sub(r"(?:(?<=" + before + r")|^)(" + keys + r")(?=" + EDGE + r"|$)", lambda m: table[m[1]], text, flags=re.M) if table else text


def code_and_comment(line, mark):
    at = line.find(mark)
    return (line, "") if at < 0 else (line[:at], line[at:])


def in_prose(text, table):
    """Names in backticks, and those that no English word can be taken for."""
    text = re.sub(r"`[^`\n]*`", lambda m: replace(m[0], table), text)
    return replace(text, {k: v for k, v in table.items() if re.search(r"[a-z][A-Z]", k)})


def main():
    own, library = own_names(), library_names()
    table = {}
    for name in own:
        new = snake(name) + ("_holds" if name in APART else "")
        if not name[0].isupper() and new != name and name not in library:
            table[name] = new
    for name in sorted(n for n in own & library if snake(n) != n):
        print("left, since the library has it:", name)
    turned = {n: n + "_holds" for n in TURNED}
    groups = collections.defaultdict(set)
    for name in own:
        groups[table.get(name, turned.get(name, name))].add(name)
    for new, old in sorted(groups.items()):
        if len(old) > 1:
            print("fall together:", new, sorted(old))
    for file in antt_files():
        lines = []
        for line in open(file):
            code, comment = code_and_comment(line, "--")
            code = replace(code, turned, EDGE.replace(".", ""))
            code, comment = replace(code, table), in_prose(comment, table)
            lines.append(code + comment)
        with open(file, "w") as out:
            out.write("".join(lines))
    for file in sorted(glob.glob("crates/*/src/**/*.rt", recursive=True)):
        text, lines, depth = open(file).read(), [], 0
        for line in text.splitlines(True):
            code, comment = code_and_comment(line, "//")
            ghost = depth > 0 or re.match(r"\s*(ghost|requires|ensures|by)\b", code)
            if ghost:
                depth += code.count("{") - code.count("}")
                code = replace(code, table)
            lines.append(code + in_prose(comment, table))
        with open(file, "w") as out:
            out.write("".join(lines))
    for page in ["README.md", *glob.glob("docs/**/*.md", recursive=True), *glob.glob("examples/*.md")]:
        if os.path.basename(page) == "PORT.md":
            continue
        text = open(page).read()
        with open(page, "w") as out:
            out.write(in_prose(text, table))
    print(len(table), "names respelled")
    if "--names" in sys.argv:
        for name in sorted(table):
            print(name, table[name])


main()
