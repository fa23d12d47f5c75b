#!/usr/bin/env python3
"""Brings the definitions and lemmas of this repository to the spelling of today's Rattle: words in snake case, types and facts in upper camel case.

usage: tools/port_names.py [--list]     once, after port.py and before any edit by hand; --list prints OLD NEW KIND and the names that fall together

Renamed are the names that specs/ and proofs/*.antt declare (definitions, lemmas, fields of records of antt, constructors of data), everywhere in .antt
and .rt files and in the pages of docs/ and README.md. Names of src/, goals and steps (proofs/F/) and texts between quotes stay.
A lemma that would get the name of a definition has _lem after it.
"""
import collections, glob, os, re, sys

ROOT = os.path.dirname(os.path.dirname(os.path.abspath(__file__)))
WORD = r"[^\s(){}\[\].,;:@\"`|λ⌜⌝]+"
DECL = re.compile(r"^(\s*)(?:abbrev |unfoldable )?(?:pub )?(?:abbrev |unfoldable )?(?:record |data )?(?:pub )?(%s)((?: [({][^\n]*)?) :(?: |$)(.*)" % WORD)


def files(suffix, where="crates"):
    return sorted(p for p in glob.glob(f"{ROOT}/{where}/**/*{suffix}", recursive=True) if "/out/" not in p)


def inside(path):
    """specs or proofs for a module's own file, None for a folder of a function's proof"""
    parts = os.path.relpath(path, ROOT).split(os.sep)
    if parts[2] == "specs":
        return "specs"
    return "proofs" if len(parts) == 4 else None


def snake(name):
    name = name.replace("-", "_")
    name = re.sub(r"([a-z0-9])([A-Z]+)(?=[A-Z][a-z]|_|$|\d)", lambda m: m.group(1) + "_" + m.group(2).lower(), name)
    name = re.sub(r"([A-Z])(?=[A-Z][a-z])", lambda m: m.group(1).lower(), name) if not name[0].isupper() else name
    return re.sub(r"([a-z0-9_])([A-Z])", lambda m: (m.group(1) if m.group(1).endswith("_") else m.group(1) + "_") + m.group(2).lower(), name).lower()


def declared():
    """name -> set of (kind, whether its type is a Type)"""
    out = collections.defaultdict(set)
    for p in files(".antt"):
        kind = inside(p)
        if not kind:
            continue
        lines = open(p).read().split("\n")
        for i, line in enumerate(lines):
            if line.lstrip().startswith("--"):
                continue
            m = DECL.match(line)
            if not m:
                continue
            indent, name, _, rest = m.groups()
            if name in ("let", "in", "|") or line.lstrip().startswith(("let ", "| ", "in ", "use ", "→ ", "(")):
                continue
            text, j = rest, i + 1
            while j < len(lines) and lines[j].startswith(indent + "    ") and j < i + 6:
                text += " " + lines[j].strip()
                j += 1
            out[name].add((kind, bool(re.search(r"(?:^|→ )Type 0$", text.strip()))))
    return out


def is_camel(n):
    return bool(re.search(r"[a-z0-9][A-Z]", n)) and n[0].islower()


# facts that a file, or a crate, names with a small letter
FACTS = {
    "crates/definition_instructions/specs/Worked.antt": {"does": "Does", "autoloads": "Autoloads"},
    "crates/definition_runs/specs/Peripherals.antt": {"does": "Does", "inTaskMode": "InTaskMode", "numbers": "Numbers", "handsBack": "HandsBack"},
    "crates/definition_runs/specs/Table.antt": {"leaves": "Leaves", "loads": "Loads"},
    "crates/capi_records/specs/Worked.antt": {"refusedBy3": "RefusedBy3", "autoloadBy3": "AutoloadBy3", "keyGives": "KeyGives"},
    "crates/tape_promises/": {"passed": "Passed"},
}
LIBRARY = {"bit_or"}


def table():
    """the old name -> the new one, and what falls together: a definition of specs/ has the name, each other one has _lem after it"""
    names = declared()
    facts = {n for f in FACTS.values() for n in f}
    new = {n: snake(n) for n in names if n not in facts and not n[0].isupper() and (is_camel(n) or "-" in n)}
    by = collections.defaultdict(list)
    for n in names:
        by[new.get(n, n)].append(n)
    notes = []
    for got, olds in sorted(by.items()):
        if len(olds) > 1 or got in LIBRARY:
            olds = sorted(olds, key=lambda n: (not is_camel(n), "specs" not in {k for k, _ in names[n]}, n))
            for i, n in enumerate(olds[(got not in LIBRARY):]):
                new[n] = got + "_lem" + ("" if i == 0 else str(i + 1))
                assert new[n] not in names and new[n] not in by
                notes.append(f"together: {got}: {' '.join(olds)}")
    return names, new, notes


IDENT = re.compile(r"(?<![^\s(){}\[\].,;:@\"`|λ⌜⌝←])(%s)" % WORD)


def turned(line, new, dashed, facts):
    """a line of code or of antt with the new names: after a dot only fields and paths of ours"""
    def one(m):
        w, i = m.group(1), m.start()
        before = line[i - 1:i]
        if w in facts and before != ".":
            return facts[w]
        if w not in new:
            return w
        if is_camel(w):
            return new[w]
        if not dashed:
            return w
        if before == ".":
            path = re.search(r"[\w.+]*$", line[:i]).group(0)
            return new[w] if path.startswith("Rattle.") and "-" in w else w
        return new[w]
    return IDENT.sub(one, line)


def of_antt(text, new, facts):
    out = []
    for line in text.split("\n"):
        code, bar, note = line.partition("--") if line.lstrip().startswith("--") else (line, "", "")
        m = re.search(r"(?:^|\s)-- ", line)
        if m:
            code, note = line[:m.start()], line[m.start():]
        else:
            code, note = line, ""
        out.append(turned(code, new, True, facts) + turned(note, new, False, {}))
    return "\n".join(out)


def of_rt(text, new):
    out = []
    for line in text.split("\n"):
        pieces = re.split(r'("(?:[^"\\]|\\.)*")', line)
        ghost = line.lstrip().startswith("ghost use")
        out.append("".join(q if q.startswith('"') and len(q) > 1 else turned(q, new, ghost, {}) for q in pieces))
    return "\n".join(out)


def of_page(text, new):
    """camel names everywhere, names with a dash between backticks"""
    text = re.sub(r"(?<![\w/.-])[a-z]+\d*[A-Z]\w*(?![\w/])", lambda m: new.get(m.group(0), m.group(0)), text)
    return re.sub(r"`([^`\n]+)`", lambda m: "`" + (new[m.group(1)] if m.group(1) in new else m.group(1)) + "`", text)


def of_edit(path, text, new, facts):
    out = []
    spec = re.search(r"(?m)^file: .*\.antt", text)
    for line in text.split("\n"):
        m = re.match(r"(old|new): ", line)
        if m:
            rest = line[5:]
            out.append(line[:5] + (of_antt(rest, new, facts) if spec else of_rt(rest, new)))
        else:
            out.append(turned(line, new, False, {}))
    return "\n".join(out)


def facts_of(path):
    rel = os.path.relpath(path, ROOT)
    return next((f for p, f in FACTS.items() if rel == p or p.endswith("/") and rel.startswith(p)), {})


def main():
    names, new, notes = table()
    if "--list" in sys.argv:
        for n in sorted(new):
            print(n, new[n])
        print("\n".join(notes))
        return
    todo = [(p, of_antt(open(p).read(), new, facts_of(p))) for p in files(".antt")]
    todo += [(p, of_rt(open(p).read(), new)) for p in files(".rt")]
    for p in files(".edit"):
        text = open(p).read()
        f = re.search(r"(?m)^file: (\S+)", text)
        todo.append((p, of_edit(p, text, new, facts_of(os.path.join(os.path.dirname(os.path.dirname(p)), f.group(1)) if f else p))))
    todo += [(p, of_page(open(p).read(), new)) for p in files(".md", "docs") + [f"{ROOT}/README.md"]]
    for p, text in todo:
        if text != open(p).read():
            open(p, "w").write(text)


if __name__ == "__main__":
    main()
