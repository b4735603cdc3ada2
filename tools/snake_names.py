#!/usr/bin/env python3
"""snake_names.py [--list]: spells the definitions and lemmas of this repository in snake case.

A definition, lemma, ruleset, field or constructor that specs/ or proofs/ declares and that begins with a small letter is
written in snake case: camelCase and dashed-names become camel_case and dashed_names. It follows every use, in clauses,
specs, proofs, edits and pages. Names of Rust (src/), of Rattle's libraries and of what Rattle generates stay. A dashed
name that would fall together with another gets `_lem` behind it; what falls together even so is told, and stays. --list
prints the table and writes nothing. Run it once, after port.py.
"""
import pathlib
import re
import sys

ROOT = pathlib.Path(__file__).resolve().parent.parent
# a word of antt: whatever stands between spaces, brackets, dots and the like
WORD = re.compile(r"[^\s(){}.;,@\"«»\[\]\\`:|]+")
SIGNATURE = re.compile(r"^\s*(?:(?:pub|unfoldable|abbrev|mutual)\s+)*((?:[^\s(){}.;,@\"«»\[\]\\:]+\s+)+?):(?=\s)")
RULESET = re.compile(r"^\s*(?:pub\s+)?ruleset\s+(\S+)\s*=")
USE = re.compile(r"^\s*(?:pub\s+)?(?:ghost\s+)?use\s+([^\s{;]+?)\.\{([^}]*)\}", re.M)
KEYWORDS = {"let", "in", "data", "record", "module", "use", "pub", "where", "abbrev", "unfoldable", "unfolding", "ruleset"}


def snake(name):
    """The name in snake case."""
    name = re.sub(r"(?<=[a-z0-9])([A-Z]+)(?=[a-z0-9]|$|[-_'])", lambda m: "_" + m.group(1).lower(), name)
    return name.replace("-", "_")


def of_kind(name):
    """Whether it is a word that the rule is for: it begins small, and has letters, digits, dashes and primes alone."""
    return re.fullmatch(r"[a-z][A-Za-z0-9_'-]*", name) and not re.search(r"[+*<>≤]", name)


def declared(text):
    """The names that a file declares."""
    for line in text.split("\n"):
        line = re.sub(r"(^|\s)--(\s.*)?$", "", line)
        found = SIGNATURE.match(line)
        if found and not re.match(r"\s*(let|in|elim|\||λ)(?![\w-])", line):
            yield from (n for n in found.group(1).split() if n not in KEYWORDS)
        found = RULESET.match(line)
        if found:
            yield found.group(1)


def bare(text):
    """The text without its comments and the paths of its imports."""
    return re.sub(r"(?m)(^|\s)--(\s.*)?$|^\s*(?:pub )?use [^\s{]+", " ", text)


def parameters(text):
    """The names that functions of Rust bind in their heads, or constants: in a clause they hide a definition."""
    for found in re.finditer(r"\bfn \w+(?:<[^>]*>)?\(([^)]*)\)", text):
        yield from re.findall(r"(\w+)\s*:", found.group(1))


def main(words):
    antt = sorted(ROOT.glob("crates/*/specs/**/*.antt")) + sorted(ROOT.glob("crates/*/proofs/**/*.antt"))
    texts = {p: p.read_text(encoding="utf-8") for p in antt}
    own, foreign, seen = set(), set(), set()
    for path, text in texts.items():
        # behind a dot stands a field, or what Rattle makes of a function's name
        seen |= set(re.findall(r"(?<![^\s(){};,@\"«»\[\]\\`:|])[^\s(){}.;,@\"«»\[\]\\`:|]+", bare(text)))
        # what a function's proof file declares are its goals
        if "specs" in path.parts or path.name not in ("Proof.antt", "Answers.antt", "Invariants.antt"):
            own |= {n for n in declared(text) if of_kind(n)}
        for module, names in USE.findall(text):
            if not re.match(r"Rattle\.(?!std\b)", module):
                foreign |= {n.split(" as ")[0].strip() for n in names.replace("\n", " ").split(",")}
    rust = {n for p in ROOT.glob("crates/*/src/**/*.rt") for n in parameters(p.read_text(encoding="utf-8"))}
    table, together, lemmas = {}, [], {}
    # definitions first: camelCase has a capital
    for name in sorted(own, key=lambda n: (n == n.lower(), n)):
        new = snake(name)
        if new == name:
            continue
        if new in seen or new in foreign or new in table.values() or new in rust:
            if name == name.lower():
                together.append(f"{name}: {new} is there")
                new += "_lem"
        if name in foreign:
            together.append(f"{name}: a name of the library too")
        elif new in own and new not in table.values() and new not in foreign and name != name.lower():
            # the definition gets the name, and the lemma that has it makes way
            table[name], lemmas[new] = new, new + "_lem"
        elif new in seen or new in foreign or new in table.values() or new in rust:
            together.append(f"{name}: {new} is there")
        else:
            table[name] = new
    for line in together:
        print("together:", line)
    if "--list" in words:
        for old, new in table.items():
            print(old, new)
        return 0
    pages = [p for p in [*ROOT.glob("*.md"), *ROOT.glob("docs/**/*.md")]]
    others = sorted(ROOT.glob("crates/*/src/**/*.rt")) + sorted(ROOT.glob("crates/*/m*-*/*.edit"))
    for path in [*antt, *others, *pages]:
        text = path.read_text(encoding="utf-8")
        if path.suffix in (".rt", ".md", ".edit"):
            # prose and Rust have plain dashed words: there a dashed name is one only where it is quoted or in a clause
            turned = prose(text, table, path.suffix)
        else:
            turned = re.sub(
                r"(?m)^(.*?)((?:(?:^|(?<=\s))--(?=\s|$).*)?)$",
                lambda m: WORD.sub(lambda w: turn(w, table, lemmas), m.group(1)) + prose(m.group(2), table, ".md"),
                text,
            )
        if turned != text:
            path.write_text(turned, encoding="utf-8")
    print(f"{len(table)} names, {len(together)} fell together")
    return 0


def turn(found, table, lemmas):
    """The word's new spelling; a lemma that makes way is none behind a dot."""
    word, at = found.group(0), found.start()
    if word in lemmas and found.string[at - 1 : at] != ".":
        return lemmas[word]
    return table.get(word, word)


def prose(text, table, kind):
    """The text with the names turned: camelCase wherever it stands, dashed names in clauses, ghost items and quotes."""
    camel = {k: v for k, v in table.items() if "-" not in k}
    text = WORD.sub(lambda m: camel.get(m.group(0), m.group(0)), text)
    whole = lambda m: WORD.sub(lambda w: table.get(w.group(0), w.group(0)), m.group(0))
    if kind in (".md",):
        return re.sub(r"`[^`\n]+`", whole, text)
    if kind == ".rt":
        text = re.sub(r"(?m)^\s*ghost use [^;]*;", whole, text)
        return re.sub(r"\b(?:requires|ensures)\b[^{]*\{(?:[^{}]|\{[^{}]*\})*\}", whole, text)
    file = ""
    lines = []
    for line in text.split("\n"):
        if line.startswith("file:"):
            file = line
        if re.match(r"(old|new):", line) and (file.endswith(".antt") or re.search(r"requires|ensures|ghost use", line)):
            line = WORD.sub(lambda w: table.get(w.group(0), w.group(0)), line)
        lines.append(line)
    return "\n".join(lines)


if __name__ == "__main__":
    sys.exit(main(sys.argv[1:]))
