#!/usr/bin/env python3
"""Gives the definitions and lemmas of this repository the spelling of today's Rattle: words in snake case, types and modules as they are.

usage: tools/snake_names.py [--show]      at the top of the repository, right after port.py and once

It turns specs/, proofs/ and the clauses of src/. A function, a field or a type of src/, a name of a library and a name that Rattle makes keep their spelling.
With --show it writes nothing and prints what would change.
"""

import glob
import os
import re
import sys

NAME = r"[^\s(){}.;,@\"«»:|]+"
TURNS = re.compile(r"-|[a-z0-9][A-Z]")
MODIFIERS = r"(?:(?:abbrev|unfoldable|pub|private|instance|ruleset) )*"
DECLARED = re.compile(rf"(?m)^(?:module .*|.*\bwhere$)|^ *{MODIFIERS}({NAME}) :(?= |$)")
BOUND = re.compile(rf"\b(?:let|λ|unfoldable|abbrev|ruleset|pub) \(?({NAME})")
PARAMETERS = re.compile(rf"[({{]({NAME}(?: {NAME})*) :(?= |$)")
CLAUSE = re.compile(r"\b(?:requires|ensures)\*?(?: \w+)? \{|\bghost (?:use )?[\w:]+.*?;")
USE = re.compile(r"\b(?:pub )?use ([^\s;{]+)\.\{([^}]*)\}", re.S)
# Where two names would fall together, one has another name: mostly the lemma, and the definition where pages name the lemma.
SPECIAL = {
    "188-bits": "bits_188",
    "after-sync": "after_a_sync",
    "byte-at": "byte_is_bits",
    "cutOff": "frame_cut_off",
    "cutShort": "stream_cut_short",
    "data-bit": "data_bit_is",
    "frame-state": "frame_state_headed",
    "goesOn": "going_on",
    "granule-of": "granule_always",
    "inEachMode": "barred_in_each_mode",
    "in-range": "ranged_in_range",
    "is-header": "header_fields",
    "joint-stereo": "in_joint_stereo",
    "junk-more": "junk_one_more",
    "lines-text": "texts_of_lines",
    "memory-length": "memory_after_length",
    "no-bitrate": "not_a_bitrate",
    "no-sync": "zeros_no_sync",
    "on-time": "start_on_time",
    "output-length": "output_after_length",
    "place-before": "placed_before",
    "ring-after": "rings_after",
    "sameBits": "are_same_bits",
    "single-channel": "for_single_channel",
    "threeLines": "the_three_lines",
}


def spelled(name):
    if name in SPECIAL:
        return SPECIAL[name]
    words = re.sub(r"(?<=[a-z0-9])([A-Z])", lambda m: "_" + m[1].lower(), name)
    return words.replace("-", "_")


def read(path):
    with open(path, encoding="utf-8") as f:
        return f.read()


def is_own(path, crates):
    steps = path.split(".")
    return steps[0] == "Rattle" and len(steps) > 1 and steps[1] in crates


def is_generated(path):
    return os.path.basename(path) in ("Proof.antt", "Answers.antt", "Invariants.antt")


def blank_comments(text):
    return re.sub(r"(?m)--.*$", "", text)


def in_comment(text, at):
    """Whether the place is in a comment, and there in no backticks."""
    head = text[text.rfind("\n", 0, at) + 1 : at]
    return "--" in head and head.count("`") % 2 == 0


def tokens(text):
    return [(m.group(), m.start()) for m in re.finditer(NAME, text)]


def main():
    show = "--show" in sys.argv
    crates = {os.path.basename(c) for c in glob.glob("crates/*")}
    files = sorted(glob.glob("crates/*/specs/**/*.antt", recursive=True) + glob.glob("crates/*/proofs/**/*.antt", recursive=True))
    plain = [f for f in files if not is_generated(f)]
    texts = {f: read(f) for f in files}
    lent = set()
    for f in files:
        for path, names in USE.findall(texts[f]):
            if not is_own(path, crates):
                for it in names.split(","):
                    lent.update(it.split(" as ")[:1] if " as " in it else [it])
    lent = {it.strip() for it in lent}
    declared = set()
    for f in plain:
        code = blank_comments(texts[f])
        for m in DECLARED.finditer(code):
            if m.group(1):
                declared.add(m.group(1))
        declared.update(BOUND.findall(code))
        for names in PARAMETERS.findall(code):
            declared.update(names.split())
        for _, names in USE.findall(code):
            declared.update(it.split(" as ")[1].strip() for it in names.split(",") if " as " in it)
    own = {n for n in declared if TURNS.search(n) and not n[0].isupper() and n not in lent}
    fits = {n: spelled(n) for n in own}
    taken = {}
    for n, new in sorted(fits.items()):
        taken.setdefault(new, []).append(n)
    every = {t for f in plain for t, _ in tokens(blank_comments(texts[f]))}
    for new, olds in sorted(taken.items()):
        if len(olds) > 1 or new in every:
            print(f"look: {', '.join(olds)} and {new} fall together" if new in every else f"look: {', '.join(olds)} fall together as {new}")
    sources = set(re.findall(r"\bfn (\w+)", "".join(read(f) for f in glob.glob("crates/*/src/**/*.rt", recursive=True))))
    for new in sorted(set(fits.values()) & sources):
        print(f"look: {', '.join(taken[new])} is called as a function of src/ then: {new}")
    rest = sorted({t for t in every if TURNS.search(t) and not t[0].isupper() and t not in own and t not in lent})
    print("left as they are:", " ".join(rest))

    def turn(text, generated):
        def one(m):
            name, at = m.group(), m.start()
            if name not in fits or "-" in name and in_comment(text, at):
                return name
            behind_dot = at > 0 and text[at - 1] == "."
            if generated and behind_dot and re.search(r"\b(?:c|tie|Tie|Lts)$|\.(?:before)$|\bat[-_]\w+$", text[: at - 1][-40:]):
                return name
            return fits[name]
        return re.sub(NAME, one, text)

    def turn_source(text):
        out, at = [], 0
        for m in re.finditer(r"\b(?:requires|ensures)\*?(?: \w+)? \{|\bghost use [^;]*;", text):
            if m.start() < at:
                continue
            out.append(text[at : m.start()])
            end = m.end()
            if m.group().endswith("{"):
                depth = 1
                while depth:
                    depth += {"{": 1, "}": -1}.get(text[end], 0)
                    end += 1
            out.append(turn(text[m.start() : end], False))
            at = end
        text = "".join(out) + text[at:]
        return re.sub(r"(?m)//.*$", lambda m: re.sub(r"\b[a-z]\w*[A-Z]\w*\b", lambda w: fits.get(w[0], w[0]), m[0]), text)

    def turn_page(text):
        new = lambda w: fits.get(w, spelled(w) if TURNS.search(w) and spelled(w) in now else w)
        return re.sub(r"`[^`\n]+`", lambda m: re.sub(NAME, lambda w: new(w[0]), m[0][1:-1]).join("``"), text)

    now = declared | set(fits.values())
    changed = 0
    for f in files:
        new = turn(texts[f], is_generated(f))
        if new != texts[f]:
            changed += 1
            if not show:
                open(f, "w", encoding="utf-8").write(new)
    for f in sorted(glob.glob("crates/*/src/**/*.rt", recursive=True)):
        text = read(f)
        new = turn_source(text)
        if new != text:
            changed += 1
            if not show:
                open(f, "w", encoding="utf-8").write(new)
    for f in ["README.md", "firmware/README.md", "compare/README.md", *sorted(glob.glob("docs/*.md"))]:
        text = read(f)
        new = turn_page(text)
        if new != text:
            changed += 1
            if not show:
                open(f, "w", encoding="utf-8").write(new)
    print(f"turned: {len(fits)} names in {changed} files")
    if "--table" in sys.argv:
        for n in sorted(fits):
            print(f"{n}\t{fits[n]}")


main()
