#!/usr/bin/env python3
"""Respells the repository's own definitions and lemmas as today's Rattle does.

usage: python3 tools/port_names.py [--check]     at the top, right after port.py

A fact or a type (what ends in `Type 0`, a record, a data) is in upper camel case, everything else in snake case.
A dash stays where the words before it are themselves the name of a definition, as in leg_of-more; elsewhere it becomes `_`.
A lemma that would meet another name gets `_lem`. Goals' names, labels that Rattle makes, Rust's names, strings and
comments' plain words stay. --check writes nothing and prints the table.
"""
import collections
import glob
import re
import sys

NAME = r'[^\s(){}.;,@"«»:=]+'
WORD = re.compile(r'[^\s(){}.;,@"«»]+')
HEAD = re.compile(rf"^( *)((?:(?:unfoldable|abbrev|pub|record|data) +)*)({NAME})((?: *(?:\{{[^{{}}]*\}}|\((?:[^()]|\([^()]*\))*\)))*) :(?= |$)")
COMMENT = re.compile(r"(?<![^\s(){}.;,])--.*")
MADE = re.compile(r"(?<![^\s(){};,.])(?:goal|[clwg])[0-9']*\.[^\s(){};,]+")
# Names that these rules do not turn.
LIKE = {"every-getD": "every-get_or", "keepsMargins": "KeepsMargins", "keepsRest": "KeepsRest"}
# Variables.
LIKE.update({n: re.sub("[A-Z]", lambda m: "_" + m[0].lower(), n) for n in ("isReady", "atEnd", "atSource", "valuesOnly", "formOnly")})
QUOTED = re.compile(r'"(?:[^"\\\n]|\\.)*"')


def texts():
    found = []
    for kind in ("specs", "proofs"):
        found += glob.glob(f"crates/*/{kind}/**/*.antt", recursive=True)
    return sorted(found)


def signatures(path):
    """Each declared name with its words before it and its whole type."""
    lines = open(path, encoding="utf-8").read().split("\n")
    for at, line in enumerate(lines):
        m = HEAD.match(line)
        if not m or re.match(r" *(?:let|use|mod|--|ruleset|λ)\b", line):
            continue
        indent = len(m[1])
        whole = line[m.end():]
        for more in lines[at + 1:]:
            if not more.strip() or len(more) - len(more.lstrip()) <= indent:
                break
            whole += " " + more.strip()
        yield m[2].split(), m[3], COMMENT.sub("", whole).strip()


def camel(name):
    return "".join(w[:1].upper() + w[1:] for w in name.split("-"))


def snake(name):
    return re.sub(r"(?<=[a-z0-9])[A-Z]", lambda m: "_" + m[0].lower(), name)


def rust_words():
    """The names of fields, constants, types and ghost members of src/."""
    words = set()
    for p in glob.glob("crates/*/src/**/*.rt", recursive=True):
        code = re.sub(r"//[^\n]*", "", open(p, encoding="utf-8").read())
        words.update(re.findall(r"\b(?:const|static|struct|enum|trait|ghost)\s+(\w+)", code))
        words.update(re.findall(r"^\s*(?:pub(?:\(\w+\))? +)?(\w+):(?!:)", code, re.M))
    return words


def table():
    facts, functions, lemmas, goals = set(), set(), set(), set()
    for p in texts():
        for words, name, kind in signatures(p):
            if kind.startswith("goal."):
                goals.add(name)
            elif "record" in words or "data" in words or re.search(r"Type 0( by .*)?$", kind) and not kind.startswith("{"):
                facts.add(name)
            elif "abbrev" in words or "unfoldable" in words or "-" not in name and re.search("[a-z0-9][A-Z]", name):
                functions.add(name)
            else:
                lemmas.add(name)
    lemmas -= goals | facts | functions
    functions -= goals | facts
    new = {n: camel(n) for n in facts if n[:1].isupper()}
    new.update({n: snake(n).replace("-", "_") for n in functions})
    known = set(new.values()) | {snake(n) for n in new} | {re.sub(r"(?<=[a-z0-9])[A-Z]", lambda m: "_" + m[0], v).lower() for v in new.values()}
    for n in sorted(lemmas):
        # a lemma that is the proof of a stated fact, or whose first words name a definition
        words = snake(n).split("-")
        cut = max((k for k in range(1, len(words)) if "_".join(words[:k]) in known), default=0)
        first = [words[0][:1] + words[0][1:]] if words else []
        parts = ["_".join(words[:cut])] if cut else []
        new[n] = "-".join(parts + ["_".join(words[cut:])])
        if n[:1].isupper():
            new[n] = new[n][:1].lower() + new[n][1:]
    taken = {n for n in facts | functions | lemmas | goals if new.get(n, n) == n} | rust_words()
    for n in sorted(functions) + sorted(facts):
        if new.get(n, n) != n and new[n] in taken:
            if new[n] not in lemmas:
                print(f"meets: {n} -> {new[n]}")
            # the lemma gives way
            new[new[n]] = new[n] + "_lem"
    taken |= {new[n] for n in facts | functions if n in new}
    by = collections.defaultdict(list)
    for n in sorted(lemmas):
        by[new[n]].append(n)
    for it, olds in sorted(by.items()):
        for k, n in enumerate(olds):
            if n not in taken | set(LIKE) and (len(olds) > 1 or it in taken and it != n):
                new[n] = it + "_lem" + (str(k + 1) if k else "")
    new.update(LIKE)
    return {a: b for a, b in new.items() if a != b}


def turn(text, names, antt):
    def words(part):
        return WORD.sub(lambda m: names.get(m[0], m[0]), part)

    def code(part):
        out, at = [], 0
        for m in re.compile(QUOTED.pattern + "|" + (MADE.pattern if antt else r"(?!)")).finditer(part):
            out += [words(part[at:m.start()]), m[0]]
            at = m.end()
        return "".join(out + [words(part[at:])])

    lines = []
    for line in text.split("\n"):
        mark = "--" if antt else "//"
        m = COMMENT.search(line) if antt else re.search(r"//.*", line)
        at = m.start() if m else len(line)
        tail = WORD.sub(lambda m: names.get(m[0], m[0]) if re.search("[a-z0-9][A-Z]", m[0]) else m[0], line[at:])
        lines.append(code(line[:at]) + tail)
    return "\n".join(lines)


def main():
    names = table()
    if "--check" in sys.argv:
        for a, b in sorted(names.items()):
            print(a, b)
        return
    count = 0
    for p in texts() + sorted(glob.glob("crates/*/src/**/*.rt", recursive=True)) + sorted(glob.glob("crates/*/must-fail/*.edit")):
        old = open(p, encoding="utf-8").read()
        new = turn(old, names, p.endswith(".antt") or "file: specs" in old.split("\n")[0])
        if new != old:
            open(p, "w", encoding="utf-8").write(new)
            count += 1
    print(f"{len(names)} names, {count} files")


if __name__ == "__main__":
    main()
