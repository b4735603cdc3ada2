#!/usr/bin/env python3
"""Counts the places of docs/DESIGN-PASS.md in crates/*/src and crates/*/proofs.

    tools/design_places.py [--list] [FOLDER]

FOLDER is a checkout (its top), else this one. Each line is a point, what is counted, and how many; with --list the
places follow, as crate/file:line or crate/file function. It reads text, not the language: what it finds is looked at.
"""
import re
import sys
from collections import defaultdict
from pathlib import Path

ANSWERS = set("Miss Hard Refused Refusal Fault Bad Stopped Large Unknown End Done Deep Nothing".split())
FAMILIES = {
    "amount/kind.rt": "kinds of rows", "text/refusal.rt": "refusals of a reading", "text/stop.rt": "refusals of a call",
    "ledger/strict.rt": "LOST_LINE, FLAG",
    "walk/step.rt": "STATED, UNSTATED", "rewrite/write.rt": "TOO_SHORT", "bus/packet.rt": "refusals of a packet's reader",
    "bus/writer.rt": "refusals of a packet's writer", "bus/field.rt": "tags of fields", "lumbrisse/reply.rt": "tags handed out",
    "replay/call.rt": "calls of a case file", "entry/entry.rt": "NO_ENTRY", "totals/totals.rt": "refusals of totals",
}


def sources(top):
    for path in sorted((top / "crates").glob("*/src/**/*.rt")):
        crate = path.relative_to(top / "crates").parts[0]
        yield f"{crate}/{path.name}", path.read_text()


def functions(text):
    """(line, name, head, body) of each function with a body."""
    for m in re.finditer(r"^( *)(?:pub )?(?:extern \"C\" )?fn (\w+)", text, flags=re.M):
        start = re.search(r"^" + m.group(1) + r"\{\n|\{$", text[m.start():], flags=re.M)
        if not start:
            continue
        begin = m.start() + start.end()
        end = re.search(r"^" + m.group(1) + r"\}", text[begin:], flags=re.M)
        if end:
            yield text.count("\n", 0, m.start()) + 1, m.group(2), text[m.start():begin], text[begin:begin + end.start()]


def shape(body):
    """The body with each name, number and text as one sign; what is called keeps its place."""
    body = re.sub(r"//.*", "", body)
    body = re.sub(r"b?\"[^\"]*\"|b'[^']*'|\b\d[\d_]*\b", "N", body)
    return re.sub(r"\s+", "", re.sub(r"\b(?!let|mut|if|else|match|while|for|in|return|Ok|Err|Some|None)[A-Za-z_]\w*", "x", body))


def found(top):
    places = defaultdict(list)
    shapes, clauses = defaultdict(list), defaultdict(list)
    for name, text in sources(top):
        for m in re.finditer(r"enum (\w+)[^{]*\{\n(.*?)\n\}", text, flags=re.S):
            variants = re.findall(r"^    (\w+)( ?[({])?", m.group(2), flags=re.M)
            if len(variants) <= 4 and any(v in ANSWERS for v, _ in variants) and any(p for _, p in variants):
                places["1 enums of the shape of Option or Result"].append(f"{name} {m.group(1)}")
        for i, line in enumerate(text.split("\n"), 1):
            if line.strip().startswith("//") and re.search(r"\b0 (for none|is none|is no |where)|\bor 0\b|\bor, as \w+ \w+ has it, 0|number 0 is none|kind 0 is|; or 0", line):
                places["1 a number or flag that also says that there is none"].append(f"{name}:{i}")
            if re.search(r"\b(Refused|Refusal|Stopped|refusal|refused_at|Fault)\(\s*\d+", line) or re.search(r"\bnumber: \d+", line):
                places["1 a refusal's number as a literal"].append(f"{name}:{i}")
        consts = re.findall(r"const ((?!DATE)[A-Z_]+): (?:usize|u8) = ", text)
        if name in FAMILIES and consts:
            places["1 families of numbers for kinds or refusals"].append(f"{name} {FAMILIES[name]}")
        for line, fn, head, body in functions(text):
            where = f"{name}:{line} {fn}"
            if body.count("\n") >= 2:
                shapes[shape(body)].append(where)
            for m in re.finditer(r"\bwhile ([^{]*)\{", body):
                counted = re.search(r"\b(\w+) [+-]= 1;", body[m.end():])
                if counted and re.search(r"\b" + counted.group(1) + r"\b", m.group(1)):
                    places["3 loops that count by one by hand"].append(where)
                else:
                    places["3 other loops with while"].append(where)
            if re.search(r"\bloop \{", body):
                places["3 other loops with while"].append(where)
            if re.fullmatch(r"\s*\w+ as \w+\s*", body):
                places["4 a conversion as a function of its own"].append(where)
            if re.search(r"is_same|eight_same|same_front|lesser|text_order|record_order|^copy|copy_part|copied|^clear$", fn):
                places["4 equality, order, copying by hand"].append(where)
            if re.search(r"\bbase: usize", head) and re.search(r"\bout: Out", head):
                places["5 base, table and out travel together"].append(where)
            for clause in re.findall(r"^\s*requires \{ (.*) \}", head, flags=re.M):
                clauses[clause].append(where)
            if re.search(r"\b(n|k|left|count): usize", head) and re.search(r": &(mut )?\[u8\]", head) and re.search(r"width", head):
                places["6 a table with its number of rows beside it"].append(where)
    for group in shapes.values():
        if len(group) > 1:
            places["2 functions whose bodies have one shape"].append(" = ".join(group))
    for clause, group in clauses.items():
        if len(group) >= 3:
            places["5 a requirement in three contracts or more"].append(f"{len(group)} x {clause}")
    for path in sorted((top / "crates").glob("*/proofs/**/Answers.antt")):
        text = path.read_text()
        where = "/".join(path.relative_to(top / "crates").parts[:-1])
        for _ in re.finditer(r"^pub [\w-]+ : goal\.", text, flags=re.M):
            places["8 answers to goals"].append(where)
    return places


def main():
    arguments = [a for a in sys.argv[1:] if a != "--list"]
    top = Path(arguments[0]) if arguments else Path(__file__).resolve().parent.parent
    for what, where in sorted(found(top).items()):
        print(f"{what}: {len(where)}")
        if "--list" in sys.argv and not what.startswith("8"):
            for place in where:
                print(f"    {place}")


if __name__ == "__main__":
    main()
