#!/usr/bin/env python3
"""Spells the repository's own definitions and lemmas as today's Rattle does, after the kit's port.py has run over it: words in snake
case, a dash only where every part is a name of its own, a final -spec as _spec. Run once, at the top.

It reads which names crates/*/specs and crates/*/proofs declare, and rewrites them in .antt and .rt files, in must-fail edits and in
the pages (there in backticks alone). Names of Rust items, of libraries and those that Rattle makes keep their spelling.
"""
import os
import re

WORD = r"[^\s(){}\[\].,;:@«»\"λ|]+"
LIBRARY = "length take drop set get_or replicate map append reverse list suc zero true false some none sum".split()
# Definitions whose plain respelling is another name already, or a word of clauses.
CHOSEN = {
    "noneLeft": "none_left_over",
    "headOk": "is_head_ok",
    "isState": "is_held_state",
    "withPart": "unit_with_part",
    "withCell": "best_with_cell",
    "walkFrom": "walked_from",
    "afterWrite": "keeper_after_write",
    "result": "handed_over",
}
# Steps of the machine, where a file has calls of the same names.
ALIASES = {
    "beginE": "begin_step",
    "abortE": "abort_step",
    "writeE": "write_step",
    "commitE": "commit_step",
    "forceE": "step_of_force",
    "writeBackE": "write_back_step",
    "cutE": "cut_step",
}
CHOSEN_IN = {"result": ("crates/boundary/", "crates/counter_boundary/")}


def files(*ends):
    for root, dirs, names in os.walk("crates"):
        dirs[:] = sorted(d for d in dirs if d != "out")
        for name in sorted(names):
            if (root + "/" + name).endswith(ends):
                yield os.path.join(root, name)


def read(path):
    with open(path, encoding="utf-8") as f:
        return f.read()


def declared(text):
    """The names that a text declares, with the indentation of each."""
    for line in text.split("\n"):
        if line.lstrip().startswith("--"):
            continue
        m = re.match(r"^(\s*)(?:(?:pub|abbrev|unfoldable)\s+)*(?:data|record)\s+(\S+)", line)
        if m:
            yield m.group(2), m.group(1)
            continue
        m = re.match(r"^(\s*)(?:(?:pub|abbrev|unfoldable)\s+)*((?:[^\s(){}:,;.\"]+\s+)*[^\s(){}:,;.\"]+)(?:\s*\{[^}]*\})?\s+:\s", line)
        if m and not m.group(2).startswith("let "):
            for name in m.group(2).split():
                yield name, m.group(1)
    for m in re.finditer(r"\blet ([^\s(){}:,;.\"]+) [:=]", text):
        yield m.group(1), " "


def snake(name):
    parts = re.split(r"([^A-Za-z0-9_]+)", name)
    lower = [re.sub(r"(?<=[a-z0-9])([A-Z])", lambda m: "_" + m.group(1).lower(), p) if re.match(r"[a-z]", p) else p for p in parts]
    return "".join(lower)


def plain_clauses(path, text):
    """A clause that names the answer by a binder is a plain fact about `result`."""
    if not path.startswith(CHOSEN_IN["result"]):
        return text

    def one(m):
        name, binder, lets, fact = m.groups()
        told = re.sub(r"\bresult\b", CHOSEN["result"], lets + " " + fact.strip() + " ")
        told = re.sub(r"(?<![.\w])" + binder + r"(?!\w)", "result", told)
        return "ensures" + name + " {" + told + "}"

    text = re.sub(r"(?m)^(ghost use .*Boundary\.\{.*)\bresult\b", r"\1" + CHOSEN["result"], text)
    return re.sub(r"ensures\*((?: \w+)?) \{ λ (\w)\.((?:\s+let [^⌜]*?)?)\s*⌜([^⌝]*)⌝ \}", one, text)


def ask_for_tactics():
    """#![tactic(auto)] below the opening comment of each root file."""
    for path in files("/src/lib.rt", "/src/main.rt"):
        lines = read(path).split("\n")
        if any(line.startswith("#![tactic") for line in lines):
            continue
        at = next(i for i, line in enumerate(lines) if not line.startswith("//"))
        lines[at:at] = ["#![tactic(auto)]"] if not lines[at] else ["#![tactic(auto)]", ""]
        with open(path, "w", encoding="utf-8") as f:
            f.write("\n".join(lines))


def main():
    own, stated = {}, set(LIBRARY)
    for path in files(".antt"):
        generated = re.search(r"/proofs/.*/Proof\.antt$", path) and not re.search(r"/proofs/[A-Z]\w*\.antt$", path)
        for name, indent in declared(read(path)):
            if generated:
                continue
            own.setdefault(name, set()).add(path)
            if "/specs/" in path:
                stated.add(name)
    camel, dashed = dict(ALIASES), {}
    for name in own:
        new = CHOSEN.get(name, snake(name))
        if new != name and not re.match(r"[A-Z]", name) and name not in CHOSEN_IN:
            camel[name] = new
    for name in own:
        parts = name.split("-")
        if len(parts) > 1 and all(parts) and not all(p in stated for p in parts):
            new = "_".join(snake(p) for p in parts)
            dashed[name] = new
            camel.pop(name, None)
    taken, lent = set(camel.values()), set()
    for path in files(".antt"):
        text = re.sub(r"--.*", "", read(path))
        taken |= set(re.findall(WORD, text))
        for m in re.finditer(r"^use (\S+)\.\{([^}]*)\}", text, re.M):
            if not m.group(1).startswith("Rattle.") or m.group(1).startswith("Rattle.std"):
                lent |= {n.strip().split(" as ")[0] for n in m.group(2).split(",")}
    for name in sorted(dashed):
        if name in lent or dashed[name] in taken or list(dashed.values()).count(dashed[name]) > 1:
            del dashed[name]
            if snake(name) != name:
                camel[name] = snake(name)
    def turned(path, text, dots):
        def one(m):
            word, before = m.group(0), text[m.start() - 1 : m.start()]
            behind_dot = before == "." and text[m.start() - 2 : m.start() - 1] not in (" ", "\n", "", "λ")
            if word in CHOSEN_IN and path.startswith(CHOSEN_IN[word]) and not behind_dot and dots:
                return CHOSEN[word]
            if word in camel:
                return camel[word]
            if word in dashed and not (behind_dot and "/proofs/" in path and path.endswith("Proof.antt")):
                return dashed[word]
            return word

        return re.sub(WORD, one, text)

    def in_pages(text):
        return re.sub(r"[a-z]\w*", lambda m: snake(m.group(0)) if snake(m.group(0)) in own else m.group(0), text)

    for path in files(".antt", ".rt", ".edit"):
        text = read(path)
        new = turned(path, text, path.endswith(".antt"))
        if path.endswith(".rt"):
            new = plain_clauses(path, new)
        if new != text:
            with open(path, "w", encoding="utf-8") as f:
                f.write(new)
    pages = ["README.md", *(os.path.join(r, n) for r, _, ns in os.walk("docs") for n in ns if n.endswith(".md"))]
    for path in pages:
        text = read(path)
        new = re.sub(r"(?<=`)[^`\n]+(?=`)", lambda m: turned("", in_pages(m.group(0)), False), text)
        if new != text:
            with open(path, "w", encoding="utf-8") as f:
                f.write(new)
    ask_for_tactics()
    print(len(camel), "words,", len(dashed), "lemmas respelled")


main()
