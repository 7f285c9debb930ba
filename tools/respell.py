#!/usr/bin/env python3
"""Brings the repository's own names in specs/ and proofs/ to the spelling of today's library: words in snake case.

usage: python3 tools/respell.py          at the top, once, right after port.py

A name of the repository is one that a signature, a record, a field or a constructor of its .antt files gives. `wordsFor` becomes
`words_for`, and `check-refused` becomes `check_refused`. A dash stays where both sides are functions (`length-append`), and where the
name without it stands in a file that has this one too. Functions of src/, strings, and names that Rattle makes keep their spelling.
Where a lemma would fall together with its function, the lemma gets `_lem`.
"""
import collections
import os
import re

TOKEN = re.compile(r"[^\s(){}\[\],.;:\"`λ∷|«»]+")
SIGNATURE = re.compile(r"^(\s*)(?:(?:abbrev|unfoldable|pub|private)\s+)*([^\s:(){}=]+)\s*(?:[({][^)}]*[)}]\s*)*:\s(.*)", re.M)
RECORD = re.compile(r"^\s*(?:pub\s+)?(?:record|data)\s+([^\s:({]+)", re.M)
FOLDERS = ("crates",)

# lemmas that an earlier step gave the name that their function gets here
LEMMAS = ["end_before", "found_back", "in_bytes", "listed_back", "moved_back", "number_read", "set_back", "store_byte", "stored_back",
          "written_back"]

# names that a `use` line or a local definition gives
ALIASES = ["describeOf", "restoreOf", "originFor", "spliceOf", "repackOf", "setPayloadOf", "readerOf", "tooLong", "replacementAt", "collectOf",
           "wordsOf'", "editOf'", "numberOf", "shareOf", "runFrom"]

# names of the repository's own that are the library's too
LIBRARY = ["and-false", "and-true"]


def files(root):
    """Each .antt, .rt and .edit file."""
    for folder, folders, names in os.walk(os.path.join(root, "crates")):
        folders[:] = sorted(f for f in folders if f != "out")
        for name in sorted(names):
            if name.endswith((".antt", ".rt", ".edit")):
                yield os.path.join(folder, name)


def snake(name):
    return re.sub(r"(?<=[a-z0-9])([A-Z])", lambda m: "_" + m.group(1).lower(), name)


def is_camel(name):
    return re.match(r"^[a-z][\w'-]*[a-z0-9][A-Z]", name) is not None


def made(path, name, rest):
    """Whether Rattle makes the name, or reads it: a goal of a proof by hand."""
    return path.endswith("/Proof.antt") and ("tie." in rest or "statement" in rest or name.startswith(("invariant", "decreases")))


def defined(texts):
    """The repository's own names, each with the files that give it."""
    own = collections.defaultdict(set)
    for path, text in texts.items():
        if not path.endswith(".antt"):
            continue
        for match in SIGNATURE.finditer(text):
            if not made(path, match.group(2), match.group(3)):
                own[match.group(2)].add(path)
        for match in RECORD.finditer(text):
            own[match.group(1)].add(path)
    return own


def undashed(name, words):
    """The name with `_` for each dash but one that joins two functions."""
    parts = name.split("-")
    out = parts[0]
    for i, part in enumerate(parts[1:], 1):
        joins = "-".join(parts[:i]) in words and ("-".join(parts[i:]) in words or snake("-".join(parts[i:])) in words)
        out += ("-" if joins else "_") + part
    return out


def words_of(texts):
    """The functions: what specs/ defines, and some of the library's."""
    words = {"length", "take", "drop", "set", "get_or", "map", "append", "slice", "sum", "replicate", "min", "max", "eqb", "ltb", "leb"}
    for path, text in texts.items():
        if "/specs/" in path and path.endswith(".antt"):
            for match in SIGNATURE.finditer(text):
                if not match.group(1) and "Type 0" not in match.group(3):
                    words |= {match.group(2), snake(match.group(2))}
    return words


def renames(texts, code):
    """The new spelling of each name, and what stays for a name that stands there already."""
    own, words = defined(texts), words_of(texts)
    tokens = {path: set(TOKEN.findall(text)) for path, text in texts.items()}
    to, stays = {}, []
    for path, text in texts.items():
        for name in tokens[path]:
            if is_camel(name) and name in own:
                to[name] = snake(name).replace("-", "_") if not name.startswith(("length-", "head-")) else snake(name)
    for name in sorted(own):
        if "-" in name and name not in to and re.match(r"^[a-z]", name) and not name.endswith("-spec") and name not in LIBRARY:
            to[name] = undashed(name, words)
    taken = set(to.values())
    counts = collections.Counter(to.values())
    for name in sorted(to):
        new = to[name]
        if new == name:
            del to[name]
            continue
        clash = counts[new] > 1 or any(name in t and new in t and p.endswith(".antt") for p, t in tokens.items())
        if clash and "-" in name and not is_camel(name):
            stays.append(name)
            del to[name]
        elif clash:
            print("look:", name, new, [p for p, t in tokens.items() if name in t and new in t and p.endswith(".antt")][:3])
    return to, stays


def respell(text, to, path):
    """The text with each name respelled, strings aside."""
    def one(match):
        return to.get(match.group(0), match.group(0))
    if path.endswith(".rt"):
        pieces = re.split(r'("(?:[^"\\\n]|\\.)*")', text)
        return "".join(piece if i % 2 else TOKEN.sub(one, piece) for i, piece in enumerate(pieces))
    return TOKEN.sub(one, text)


def main():
    root = os.path.dirname(os.path.dirname(os.path.realpath(__file__)))
    texts = {path: open(path, encoding="utf-8").read() for path in files(root)}
    first = {name: name + "_lem" for name in LEMMAS}
    for path in texts:
        if path.endswith(".antt"):
            texts[path] = respell(texts[path], first, path)
    to, stays = renames(texts, None)
    for path, text in texts.items():
        mine = {a: b for a, b in to.items() if path.endswith(".antt") or is_camel(a)}
        now = respell(text, mine | {name: snake(name) for name in ALIASES}, path)
        now = re.sub(r"(?m)^(?:pub )?use [^\s{]+", lambda m: re.sub(r"\.(%s)_lem(?=\.|$)" % "|".join(LEMMAS), r".\1", m.group(0)), now)
        if path.endswith(".edit"):
            now = now.replace("′", "'")
        with open(path, "w", encoding="utf-8") as f:
            f.write(now)
    print(f"respell: {len(to)} names; {len(stays)} keep a dash: {', '.join(stays)}")


main()
