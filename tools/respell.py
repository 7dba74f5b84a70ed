#!/usr/bin/env python3
"""Brings the names of this repository's own definitions and lemmas to one spelling: words in snake case.

usage: python3 tools/respell.py [--dry]     at the top of the repository

It was run once, when the repository was brought to a newer Rattle. A name that a file of specs/ or proofs/ declares (a
definition, a lemma, a constructor, a field of a record) in camel case, or with hyphens, gets underscores. What answers a
goal keeps its name, since Rattle makes it; so do the names of src/, strings, and hyphens in prose.
"""

import collections
import os
import re
import sys

# What answers goals of a function.
ANSWERS = ("Answers.antt", "Invariants.antt", "Choices.antt", "Proof.antt")
# A name is made of these; what joins names in a term is none of them.
WORD = re.compile(r"[^\W\d][\w'′-]*(?<!-)|[^\W\d]")
DECLARED = re.compile(r"^\s*(?:abbrev |unfoldable )?(?:pub )?(?:data |record )?([^\W\d][\w'′-]*)(?: [^=]*?)? : (.*)$")
# Names that fall together with another, most with the function of src/ that the definition speaks of; and a fact, which is
# spelled as a type.
CHOSEN = {
    "stampFit": "StampFits",
    "addOf": "add_matching",
    "after-all": "after_step_all",
    "answerTo": "answer_for",
    "answersTo": "answers_for",
    "certifiedLine": "line_of_certified",
    "certifyWords": "words_of_certify",
    "firstAlike": "first_alike_in",
    "headerBytes": "bytes_of_header",
    "holderWords": "words_of_holder",
    "itemWords": "words_of_item",
    "lateLine": "line_of_late",
    "lateLines": "lines_of_lates",
    "layerNumber": "number_of_layer",
    "methodOf": "method_answer",
    "numberWords": "words_of_number",
    "rank-errors": "errors_by_step",
    "refusalOf": "refusal_in",
    "runWords": "words_of_run",
    "stepLine": "line_of_step",
    "stepLines": "lines_of_steps",
    "tooShort": "is_too_short",
    "verdictOn": "verdict_of_order",
}
# Names that the kit's own script has respelled in the crates, and not in the pages.
BEFORE = ("callOf", "codeOf", "entryOf", "frameOf", "laneOf", "leftAt", "opsOf", "orderOf", "pairOf", "runOf", "stepsOf", "typeOf", "upTo", "waitsFor", "wordOf")
# Facts and types keep their capital, also where a lemma begins with one.
KEPT = {"All-from_get_or"}


def files(top, ending):
    for folder, dirs, names in os.walk(top):
        dirs[:] = sorted(d for d in dirs if d not in ("out", ".git", "target"))
        for name in sorted(names):
            if name.endswith(ending):
                yield os.path.join(folder, name)


def snake(name):
    if name in CHOSEN:
        return CHOSEN[name]
    name = re.sub(r"(?<=[a-z0-9])([A-Z])", lambda m: "_" + m.group(1), name.replace("-", "_"))
    return name.lower() if not name[0].isupper() or name[1:2] == "_" else name


def declared():
    """The names that the repository declares, and that have another spelling than ours."""
    own = collections.defaultdict(set)
    for path in files("crates", ".antt"):
        for line in open(path, encoding="utf-8"):
            if line.lstrip().startswith("--"):
                continue
            m = DECLARED.match(line)
            if m and not m.group(2).startswith("goal."):
                own[m.group(1)].add(path)
    for path in files("crates", ".rt"):
        for line in open(path, encoding="utf-8"):
            m = re.match(r"^\s*ghost (\w+)\s*[:=]", line)
            if m:
                own[m.group(1)].add(path)
    return {n: snake(n) for n in own if n not in KEPT and (n[0].islower() or n[1:2] == "-") and snake(n) != n}


def parts(text, kind):
    """The text in pieces, each with whether it is code (2), a comment or prose (1), or a string (0)."""
    if kind == ".md":
        pattern = r"`[^`\n]*`"
        at = 0
        for m in re.finditer(pattern, text):
            yield text[at:m.start()], 0
            yield m.group(0), 2
            at = m.end()
        yield text[at:], 0
        return
    comment = r"--(?= |$).*" if kind == ".antt" else r"//.*"
    string = r'"(?:[^"\\\n]|\\.)*"'
    at = 0
    for m in re.finditer(f"{string}|{comment}", text, re.M):
        yield text[at:m.start()], 2
        yield m.group(0), 0 if m.group(0)[0] == '"' else 1
        at = m.end()
    yield text[at:], 2


def respelled(text, kind, names, answers):
    """The text with our spelling. In answers to goals a field with hyphens is Rattle's, but for those of our one law there."""

    def other(m, prose):
        word = m.group(0)
        before = m.string[: m.start()]
        if "-" in word and (prose or answers and before.endswith(".") and not before.endswith("law.")):
            return word
        return names.get(word, word)

    out = []
    for piece, what in parts(text, kind):
        out.append(piece if what == 0 else WORD.sub(lambda m: other(m, what == 1), piece))
    return "".join(out)


def main(argv):
    names = declared()
    paged = names | {n: snake(n) for n in BEFORE}
    texts = {}
    for ending in (".antt", ".rt", ".edit"):
        for path in files("crates", ending):
            texts[path] = open(path, encoding="utf-8").read()
    for path in list(files("docs", ".md")) + ["README.md"]:
        texts[path] = open(path, encoding="utf-8").read()
    # look for names that fall together
    by_new = collections.defaultdict(set)
    for old, new in names.items():
        by_new[new].add(old)
    for new, olds in sorted(by_new.items()):
        if len(olds) > 1:
            print(f"fall together: {sorted(olds)} -> {new}")
    for path, text in sorted(texts.items()):
        if path.endswith(".md") or path.endswith(".edit"):
            continue
        words = set()
        for piece, what in parts(text, os.path.splitext(path)[1]):
            if what == 2:
                words |= set(WORD.findall(piece))
        for word in sorted(words & names.keys()):
            if names[word] in words:
                print(f"stands there already: {path}: {word} -> {names[word]}")
    if "--dry" in argv:
        return 0
    changed = 0
    for path, text in texts.items():
        page = path.endswith((".md", ".edit"))
        new = respelled(text, os.path.splitext(path)[1].replace(".edit", ".rt"), paged if page else names, os.path.basename(path) in ANSWERS)
        if new != text:
            with open(path, "w", encoding="utf-8") as f:
                f.write(new)
            changed += 1
    print(f"{len(names)} names, {changed} files")
    return 0


if __name__ == "__main__":
    raise SystemExit(main(sys.argv[1:]))
