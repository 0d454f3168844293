#!/usr/bin/env python3
"""Brings this repository's definitions and lemmas to today's spelling: words in snake case, types in camel case.

usage: python3 tools/respell.py [TOP]      once, right after /opt/rattle/port/port.py

A word is changed where it stands whole, or as a part of a lemma's name that is joined by dashes. Strings of .rt files
and all other files stay as they are. It refuses to run where an old name and its new one both stand in one file.
"""

import os
import re
import sys

# Types.
TYPES = """
Answers-one Call-reads-back Choice-or-tight Choices-exact Crowd-least Crowded-out Empty-exact First-head First-unique
Head-first Head-reads-back Least-exists Least-one Lines-grow Lines-noted Lines-one Losses-bounded Narrow-ends Narrow-keeps
No-tight No-tight-where-choice One-call One-code One-site Opened-says Parity-full Plan-named Plan-survives Planned-full
Some-choice Told-one Unbegun-told Unopened-told Whole-told Yes-enough
""".split()

# Fields, constructors and values whose names were joined by dashes.
FIELDS = """
after-it code-words site-words count-is out-is now-it set-up four-by-two three-in four-racks five-in-four two-targets
two-targets-short moved-aside outside-the-targets three-for-two-nodes three-for-two-racks one-in-each-rack
lost-beside-the-plan lost-twice-over
""".split()

# Functions of specs/ and proofs/. A name that would fall together with a function of src/, or with another
# definition, gets a name of its own.
WORDS = {
    "rackOf": "node_rack",
    "nodesOf": "node_numbers",
    "nodeList": "node_list_in",
    "actOf": "call_act",
    "readBack": "call_read_back",
    "setUp": "set_up_call",
    "parityOf": "parity_nodes",
    "getD": "get_or",
    "stepBy": "step_result",
}
for word in """
allTo answerText answerWith anyTo asKind blocksOf byteAct callForm callLines callNames callText callsIn cellsFrom cellsLeft
codeNames codeNoted codeText copiesOf countBy crowdOf crowdText dataRows faultLine faultText fieldText firstFrom
furtherText goneAt goneOf goneRows goneTo heldsOf inRack indexFrom isOffer isSealed isTight isWord keepOf kindMeaning
lastOut ledgerOf lenAfter letterOf letterText lineAfter lineText listAt listOr listsIn mapMeaning markText nodeAt nodeNames
nodeText noteLine noteWith numberOr numbersIn onMap outAfter parityRows partAfter partText pastNumber pastPart piecesLeft planRow
planRows rackAt rackIn reachOf refusalOf refusedBy refusedLong refusedWith regularNames regularText replyText restField
restText rowText rowsAfter rowsLeft rowsText rowsWith runFaultText sayOf seatAt seatsOf setAfter siteLines siteOf spacedOne
stepWith stripeOf testLeast tooLong unlessFits wantOf
""".split():
    WORDS[word] = re.sub(r"(?<=[a-z0-9])([A-Z])", lambda m: "_" + m.group(1).lower(), word)

WHOLE = {t: "".join(w[0].upper() + w[1:] for w in t.split("-")) for t in TYPES}
WHOLE |= {f: f.replace("-", "_") for f in FIELDS}
WHOLE |= WORDS
WHOLE |= {"set-up-" + end: "set_up-" + end for end in ("outside", "short", "none", "told")}

NAME = re.compile(r"[A-Za-z_][A-Za-z0-9_'₀-₉]*(?:-[A-Za-z0-9_'₀-₉]+)*")
STRING = re.compile(r'"(?:[^"\\]|\\.)*"')
COMMENT = re.compile(r"(?<!\S)(?://|-- ).*")

# A method of src/ and a constructor of specs/ that stand in one file, as the method's clause names the call that it is.
APART = {("set-up", "set_up")}


def respelled(name):
    if name in WHOLE:
        return WHOLE[name]
    return "-".join(WORDS.get(part, part) for part in name.split("-"))


def commented(text):
    return NAME.sub(lambda m: WORDS.get(m.group(), m.group()), text)


def turned_line(line, is_source):
    comment = COMMENT.search(line)
    line, rest = (line[: comment.start()], comment.group()) if comment else (line, "")
    out, at = [], 0
    for s in STRING.finditer(line) if is_source else ():
        out += [NAME.sub(lambda m: respelled(m.group()), line[at : s.start()]), s.group()]
        at = s.end()
    return "".join(out) + NAME.sub(lambda m: respelled(m.group()), line[at:]) + commented(rest)


# The library keeps its plain words for itself: what was brought in under one goes by its own name.
ALIASED = {"AllByRecursion as All": ("All", "AllByRecursion")}


def unaliased(text):
    for alias, (short, name) in ALIASED.items():
        if alias in text:
            text = text.replace(alias, name)
            word = re.compile(rf"(?<![\w'\-.]){short}(?![\w'\-])")
            text = "\n".join(l if l.strip().startswith(("--", "//")) else word.sub(name, l) for l in text.split("\n"))
    return text


def turned(text, is_source):
    text = unaliased(text)
    return "\n".join(turned_line(line, is_source) for line in text.split("\n"))


def names(text):
    return {m.group() for m in NAME.finditer(text)}


def main(top):
    files = []
    for folder, dirs, found in os.walk(os.path.join(top, "crates")):
        dirs[:] = [d for d in dirs if d != "out"]
        files += [os.path.join(folder, f) for f in found if f.endswith((".rt", ".antt"))]
    changed, clashes = 0, []
    for path in sorted(files):
        with open(path, encoding="utf-8") as f:
            text = f.read()
        here = names(text)
        clashes += [(path, n, respelled(n)) for n in sorted(here) if respelled(n) != n and respelled(n) in here and (n, respelled(n)) not in APART]
    for path, old, new in clashes:
        print(f"{path}: both {old} and {new}")
    if clashes:
        return 1
    for path in sorted(files):
        with open(path, encoding="utf-8") as f:
            text = f.read()
        new = turned(text, path.endswith(".rt"))
        if new != text:
            changed += 1
            with open(path, "w", encoding="utf-8") as f:
                f.write(new)
    print(f"{changed} files respelled")
    return 0


if __name__ == "__main__":
    sys.exit(main(sys.argv[1] if len(sys.argv) > 1 else "."))
