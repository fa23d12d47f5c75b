#!/usr/bin/env python3
"""Sees that every statement has its proof, a must-fail edit and its row in docs/PROMISES.md.

usage: tools/statements.py               one line for each fault, or 'N statements, each with its proof and its edit'
       tools/statements.py --list        a row for each statement and definition: name, file, proof, edits
       tools/statements.py --write       sets the proofs and edits of every row of docs/PROMISES.md that names a statement or a definition, and the words of every
                                         clause that has its row, then checks
       tools/statements.py --self-test   checks; then damages proofs, statements, definitions, edits and rows, one kind of damage after the other, and sees the check tell each

Statement:  a closed type, `pub Name : Type 0`, in specs/Promises.antt, Several.antt, Claims.antt, Grammar.antt, Contents.antt, Numbers.antt or Protected.antt of a
            crate. There is none in another file of specs/, save ELSEWHERE, and there are LEAST or more.
Definition: any other public item of these files: what the statements are said with. It has no proof.
Proof:      `pub name : Name`, the name in snake case (with `_lem` behind it, where a definition has that name), in proofs/ of the crate, with `Name` imported from the
            statement's file under that name. A check proves each file of proofs/ that a Lib.antt names, cited or not.
Edit:       crates/CRATE/must-fail/*.edit. Of a statement: `# Name: ..` as its first line, of the statement's own text or of what it uses in its file. Of a definition: any
            with an `old:` in the definition's own text. Every statement has one, and every definition save UNEDITED.
Row:        in a table `sentence | statement | proof | edits` of docs/PROMISES.md: statements and definitions, their proofs and their edits, as `CRATE/EDIT`. One for each
            statement and each definition that has an edit. All other edits stand in the section "Wrong answers ruled out".
Contract:   each clause of each public call of rc4000 and capi has its row `call | clause | contract` in docs/PROMISES.md, word for word; there is no `requires`.
"""
import functools, os, re, sys
from typing import NamedTuple

FILES = "Promises", "Several", "Claims", "Grammar", "Contents", "Numbers", "Protected"
LEAST = 109     # statements: a request adds to them
PLACE = rf"crates/(\w+)/(specs/(?:{'|'.join(FILES)})\.antt)"
# closed types that claim nothing
ELSEWHERE = {"crates/definition_instructions/specs/MicroOps.antt: Value", "crates/definition_assembler/specs/Answers.antt: Address", "crates/definition_assembler/specs/Answers.antt: Assembled",
             "crates/machine/specs/Verdicts.antt: Verdict", "crates/machine/specs/Verdicts.antt: Answer"}
# definitions with no edit of their own: machine_of's type allows no other function; Remark, Content, Lent and Call are types of data and claim nothing
UNEDITED = {"machine_of", "Remark", "Content", "Lent", "Call"}
PAGE = "docs/PROMISES.md"
COLUMNS = ["sentence", "statement", "proof", "edits"]
SECTION = "## Wrong answers ruled out\n"
FACT = r"[A-Z]\w*[a-z]\w*"
NAME = rf"(?:{FACT}|[a-z]\w*_\w*)"
CLOSED = r"(?m)^[ \t]*(?:(?:abbrev|unfoldable) )?pub (\S+) :\s+Type \d(?=[ \t]*(?:--.*)?$)"
LEMMA = r"(?m)^pub (\S+) : (\w+)$"
PUBLIC = r"(?m)^(?:pub (?:record |data )?|[ \t]*(?:abbrev|unfoldable) pub )(\S+)(?: .*)? :"


class Item(NamedTuple):
    crate: str
    file: str       # specs/Promises.antt
    name: str
    proof: str      # '' for a definition

    def path(self):
        return f"crates/{self.crate}/{self.file}"


class Edit(NamedTuple):
    crate: str
    of: str         # what the first line names, or ''
    titled: bool
    pairs: list     # (file, old)


def read(root):
    """path -> text; out/ holds what rt makes"""
    os.chdir(root)
    paths = []
    for at, folders, files in os.walk("crates"):
        folders[:] = sorted(x for x in folders if x != "out")
        paths += [f"{at}/{x}" for x in files if x.endswith((".antt", ".rt", ".edit"))]
    return {p: open(p, encoding="utf-8").read() for p in sorted(paths) + [PAGE]}


def snake(name):
    return re.sub(r"(?<=.)(?=[A-Z])", "_", name).lower()


def items(tree):
    """The statements and the definitions"""
    found, lemmas = [], {(m[1], name, of) for path, text in tree.items() if (m := re.match(r"crates/(\w+)/proofs/", path)) for name, of in re.findall(LEMMA, text)}
    for path, text in tree.items():
        m = re.fullmatch(PLACE, path)
        closed = re.findall(CLOSED, text) if m else []
        for name in closed + [x for x in re.findall(PUBLIC, text) if x not in closed] if m else []:
            other = f"{snake(name)}_lem"
            found.append(Item(m[1], m[2], name, "" if name not in closed else other if (m[1], other, name) in lemmas else snake(name)))
    return found


def edits(tree):
    """CRATE/EDIT -> Edit; a first line can name a function too"""
    found, functions = {}, {name for path, text in tree.items() if path.endswith(".rt") for name in re.findall(r"\bfn (\w+)", text)}
    functions -= {s.name for s in items(tree)}
    for path, text in tree.items():
        if path.endswith(".edit"):
            crate, name = re.fullmatch(r"crates/([^/]*)/(?:.*/)?([^/]*)\.edit", path).groups()
            of, file, pairs = re.match(rf"# ({NAME}): ", text), "", []
            for key, value in re.findall(r"(?m)^(file|old): (.*)", text):
                file = value if key == "file" else file
                pairs += [(file, value)] if key == "old" else []
            found[f"{crate}/{name}"] = Edit(crate, of[1] if of and of[1] not in functions else "", bool(re.match(r"# \S", text)), pairs)
    return found


@functools.cache
def parts(text):
    """name -> comment, signature and definition of each item of a file"""
    head = r"(?m)^(?:[ \t]*(?:abbrev|unfoldable) )?(?:pub )?(?:record |data )?(?!--|use )(\S+)(?: .*)? :(?:\s|$)"
    return {m[1]: part for part in re.split(r"\n(?:[ \t]*\n)+", text) for m in re.finditer(head, part)}


def scope(s, tree, found):
    """The item's text, with that of the items of its file that it uses; another statement is none of these."""
    own, names, texts = parts(tree[s.path()]), [s.name], []
    others = {x.name for x in found if x.path() == s.path() and x.proof}
    for n in names:
        texts.append(own.get(n, ""))
        names += [m for m in own if m not in names and m not in others and re.search(rf"(?<![\w-]){re.escape(m)}(?![\w-])", texts[-1])]
    return "\n\n".join(texts)


def edits_of(s, tree, all_edits):
    text = parts(tree[s.path()]).get(s.name, "")
    own = lambda e: e.of == s.name if s.proof else any(f == s.file and old in text for f, old in e.pairs)
    return sorted(label for label, e in all_edits.items() if e.crate == s.crate and own(e))


def place_faults(tree, found):
    """Statements are in these files, each of which has one or serves one."""
    for kind in FILES:
        if not any(s.file == f"specs/{kind}.antt" for s in found):
            yield f"no crate has specs/{kind}.antt"
    for path, text in tree.items():
        if re.fullmatch(r"crates/\w+/specs/.*", path) and not re.fullmatch(PLACE, path):
            yield from (f"{path}: {x} is a closed type, but no file of statements" for x in re.findall(CLOSED, text) if f"{path}: {x}" not in ELSEWHERE)
        elif re.fullmatch(PLACE, path) and path not in {s.path() for s in found}:
            yield f"{path}: no statement and no definition"
    if sum(1 for s in found if s.proof) < LEAST:
        yield f"fewer than {LEAST} statements"
    names = [s.name for s in found]
    yield from (f"{s.path()}: another item is named {s.name}" for s in found if names.count(s.name) > 1)


def contracts(tree):
    """(call, clause, text) of the public calls; the clause of a `requires` is 'requires'. A clause of several lines is told as one"""
    for crate in "rc4000", "capi":
        for m in re.finditer(r'(?ms)^pub (?:extern "C" )?fn (\w+).*?^\{$', tree[f"crates/{crate}/src/lib.rt"]):
            for kind, clause, text in re.findall(r"(?ms)^    (requires|ensures)\*? ?(\w*) \{\s(.*?)\s\}(?=\n    (?:requires|ensures)|\n\{)", m[0]):
                yield f"{crate}::{m[1]}", clause if kind == "ensures" else kind, " ".join(text.split())


def row_of(call, clause, text):
    return f"| `{call}` | {clause and f'`{clause}`'} | `{text}` |"


def contract_faults(tree):
    """The page has each clause of each public call, and the calls have each clause of the page."""
    given = {row_of(*x) for x in contracts(tree)}
    listed = {line for line in tree[PAGE].splitlines() if re.match(r"\| `(?:rc4000|capi)::\w+` \|", line)}
    yield from (f"{PAGE}: no row {line}" for line in sorted(given - listed))
    yield from (f"{PAGE}: not a clause of the call: {line}" for line in sorted(listed - given))
    yield from (f"{call} asks something of its caller: {text}" for call, clause, text in contracts(tree) if clause == "requires")
    yield from (f"crates/{crate} has no public call with a contract" for crate in ("rc4000", "capi") if not any(x.startswith(f"| `{crate}::") for x in given))


def proofs(tree):
    """(crate, file of the statement, name of the statement, name of the proof), where the statement is imported from that file under its name"""
    found = set()
    for path, text in tree.items():
        m = re.match(r"crates/(\w+)/proofs/", path)
        for name, of in re.findall(LEMMA, text) if m else []:
            uses = re.findall(rf"(?m)^use Rattle\.{m[1]}\.specs\.(\w+)\.{{([^}}]*)}}", text)
            files = [file for file, names in uses if of in re.split(r"\s*,\s*", names.strip())]
            if files and of not in parts(text) and re.search(rf"(?m)^{re.escape(name)}(?: .*)? =", text):
                found.add((m[1], f"specs/{files[0]}.antt", of, name))
    return found


def proof_faults(tree, found):
    given = proofs(tree)
    for s in found:
        if s.proof and s not in given:
            yield f"{s.path()}: {s.name} has no proof `pub {s.proof} : {s.name}` in crates/{s.crate}/proofs"


def form_faults(tree, all_edits):
    """Each edit is one of code or specification, with a title, and its texts are there."""
    for p in tree:
        if p.endswith(".edit") and not re.fullmatch(r"crates/\w+/must-fail/\w+\.edit", p):
            yield f"{p}: not crates/CRATE/must-fail/NAME.edit"
    for label, e in all_edits.items():
        if not e.titled:
            yield f"{label}: no title in the first line"
        if not e.pairs or not all(f.startswith(("src/", "specs/")) and tree.get(f"crates/{e.crate}/{f}", "").count(old) == 1 for f, old in e.pairs):
            yield f"{label}: not every `old:` stands once in its file of src/ or specs/"


def edit_faults(tree, found, all_edits):
    """Each item has an edit, and each edit that names an item is one of it."""
    known = {(s.crate, s.name): s for s in found}
    for s in found:
        if not edits_of(s, tree, all_edits) and s.name not in UNEDITED:
            yield f"{s.path()}: {s.name} has no edit " + (f"`# {s.name}: ..`" if s.proof else "of its text") + f" in crates/{s.crate}/must-fail"
        elif s.name in UNEDITED and (s.proof or edits_of(s, tree, all_edits)):
            yield f"{s.path()}: {s.name} is not to be in UNEDITED"
    yield from (f"no definition {x}, which is in UNEDITED" for x in sorted(UNEDITED - {s.name for s in found}))
    for label, e in all_edits.items():
        s = known.get((e.crate, e.of))
        if e.of and not s:
            yield f"{label}: crate {e.crate} has no statement or definition {e.of}"
        elif s and not all(f == s.file and old in scope(s, tree, found) for f, old in e.pairs):
            yield f"{label}: not every `old:` is text of {s.name} or of what it uses in {s.file}"


def rows(page):
    """(number of the line, cells) of each row of the tables with the four columns"""
    inside, found = False, []
    for i, line in enumerate(page.splitlines()):
        cells = [c.strip() for c in line.split("|")[1:-1]]
        inside = cells == COLUMNS or inside and len(cells) == len(COLUMNS)
        if inside and cells != COLUMNS and set(cells[0]) != {"-"}:
            found.append((i, cells))
    return found


def named(cell, form):
    return [x for x in re.findall(r"`([^`]*)`", cell) if re.fullmatch(form, x)]


def due(tree, found, all_edits):
    """name -> (proof, edits) of each item that has a row"""
    each = {s.name: (s.proof, edits_of(s, tree, all_edits)) for s in found}
    return {name: (proof, own) for name, (proof, own) in each.items() if proof or own}


def columns(names, listed):
    """The proofs and the edits of a row that names these"""
    return [listed[n][0] for n in names if listed[n][0]], list(dict.fromkeys(x for n in names for x in listed[n][1]))


def row_faults(page, found, listed):
    known, seen = {s.name for s in found}, []
    for i, cells in rows(page):
        names = [n for n in named(cells[1], r"\w+") if n in listed]
        seen += names
        yield from (f"{PAGE}:{i + 1}: no statement {n}" for n in named(cells[1], FACT) if n not in known)
        given = named(cells[2], r"[a-z][a-z0-9_]*"), named(cells[3], r"\w+/\w+")
        if names and given != columns(names, listed):
            yield f"{PAGE}:{i + 1}: row of {', '.join(names)}: not its proofs and edits (tools/statements.py --write)"
    yield from (f"{PAGE}: {n} has {seen.count(n)} rows, not 1: | .. | `{n}` | | |" for n in listed if seen.count(n) != 1)


def written(page, listed, clauses):
    """The page with the proofs and edits of each row set, and the words of each clause that has its row"""
    lines, words = page.splitlines(), {row_of(call, clause, "").removesuffix("`` |"): row_of(call, clause, text) for call, clause, text in clauses}
    for i, line in enumerate(lines):
        lines[i] = next((row for head, row in words.items() if line.startswith(head)), line)
    for i, cells in rows(page):
        names = [n for n in named(cells[1], r"\w+") if n in listed]
        if names:
            lines[i] = "| " + " | ".join(cells[:2] + [", ".join(f"`{x}`" for x in xs) for xs in columns(names, listed)]) + " |"
    return "\n".join(lines) + "\n"


def page_faults(tree, listed, all_edits):
    """Every edit has its place, and what the page names is there."""
    page, placed = tree[PAGE], {x for _, own in listed.values() for x in own}
    section = page.partition(SECTION)[2].partition("\n## ")[0]
    yield from (f"{PAGE}: {x} is of no statement or definition and not in '{SECTION[3:-1]}'" for x in all_edits if x not in placed and f"`{x}`" not in section)
    yield from (f"{PAGE}: no edit {x}" for x in re.findall(r"`([a-z]\w*/\w+)`", page) if x not in all_edits)
    yield from (f"{PAGE}: no file crates/{x}" for x in re.findall(r"`(\w+/\S+\.(?:antt|rt))`", page) if f"crates/{x}" not in tree)


def faults(tree):
    found, all_edits = items(tree), edits(tree)
    listed = due(tree, found, all_edits)
    return [
        *place_faults(tree, found),
        *contract_faults(tree),
        *proof_faults(tree, found),
        *form_faults(tree, all_edits),
        *edit_faults(tree, found, all_edits),
        *row_faults(tree[PAGE], found, listed),
        *page_faults(tree, listed, all_edits),
    ]


def changed(tree, where, old, new):
    return {p: re.sub(old, new, t) if p.startswith(where) else t for p, t in tree.items()}


def damaged_statements(tree, found):
    """(what was done, the tree after it): to all statements, each of which must be told by its name"""
    kinds = {
        "proof removed": lambda s, t: changed(t, f"crates/{s.crate}/proofs/", rf"(?m)^pub {s.proof} : {s.name}$", ""),
        "proof of something else": lambda s, t: changed(t, f"crates/{s.crate}/proofs/", rf"(?m)^pub {s.proof} : {s.name}$", f"pub {s.proof} : Another"),
        "proof by another name": lambda s, t: changed(t, f"crates/{s.crate}/proofs/", rf"(?m)^pub {s.proof} : {s.name}$", f"pub another : {s.name}"),
        "another imported under its name": lambda s, t: changed(t, f"crates/{s.crate}/proofs/", rf"(?<=[{{ ]){s.name}(?=[,}}])", f"Another as {s.name}"),
        "not public": lambda s, t: changed(t, s.path(), rf"(?m)^(.*)pub (?={s.name} )", r"\1"),
        "in a file for no statements": lambda s, t: changed({**t, f"crates/{s.crate}/specs/{s.name}.antt": parts(tree[s.path()])[s.name]}, s.path(), rf"(?m)^.*pub {s.name} .*", ""),
    }
    for what, damage in kinds.items():
        yield what, functools.reduce(lambda t, s: damage(s, t), found, tree)


def damages(tree):
    """(names, what was done, the tree after it): each name must be told"""
    found, all_edits = items(tree), edits(tree)
    names, labels, listed = [s.name for s in found], list(all_edits), due(tree, found, all_edits)
    proved = [s for s in found if s.proof]
    yield from (([s.name for s in proved], what, after) for what, after in damaged_statements(tree, proved))
    head = rf"(?m)^([ \t]*(?:abbrev |unfoldable )?pub (?:record |data )?)({'|'.join(names)})(?= )"
    yield [f"{n}Renamed" for n in names], "renamed", {p: re.sub(head, r"\1\2Renamed", t) if re.fullmatch(PLACE, p) else t for p, t in tree.items()}
    yield listed, "not in its row", changed(tree, PAGE, rf"`({'|'.join(names)})`", "")
    yield [n for n in names if n in listed], "edits removed", {p: t for p, t in tree.items() if not p.endswith(".edit")}
    edit = "(?:" + "|".join(labels) + ")"
    yield [x for x in labels if not any(x in own for _, own in listed.values())], "edit not on the page", changed(tree, PAGE, f"`{edit}`", "")
    for what, old, new in ("without its title", r"\A.*", "#"), ("of a text that is not there", "(?m)^old: .*", "old: @@@"), ("of a proof", "(?m)^file: .*", "file: proofs/Lib.antt"):
        yield labels, "edit " + what, {p: re.sub(old, new, t) if p.endswith(".edit") else t for p, t in tree.items()}
    calls = {call.split("::")[1] for call, _, _ in contracts(tree)}
    yield calls, "contract dropped", {p: re.sub(r"(?m)^    ensures .*\n", "", t) if p.endswith("/src/lib.rt") else t for p, t in tree.items()}
    yield calls, "contract not on the page", changed(tree, PAGE, r"(?m)^\| `(?:rc4000|capi)::.*\n", "")
    claims = next(p for p in tree if p.endswith("/specs/Claims.antt"))
    for more in "abbrev pub Added : Type 0", "pub Added :\n    Type 1", "abbrev pub Added : ℕ → Type 0", "pub record Added (n : ℕ) : Type 0 where":
        yield ["Added"], "added", {**tree, claims: f"{tree[claims]}\n{more}\n"}
    yield ["Added"], "statement in another file", {**tree, "crates/capi/specs/More.antt": "abbrev pub Added : Type 0\nAdded = ⊥\n"}
    yield ["Added"], "edit of no statement", {**tree, "crates/capi/must-fail/added.edit": "# Added: false\nfile: specs/Claims.antt\nold: a\nnew: b\n"}
    yield [f"specs/{kind}.antt" for kind in FILES], "removed", {p: t for p, t in tree.items() if not re.fullmatch(PLACE, p)}


def self_test(tree):
    for names, what, after in damages(tree):
        told = set(re.findall(r"[\w./]*\w", " ".join(faults(after))))
        yield from (f"not seen: {name}: {what}" for name in names if name not in told)


def main():
    if sys.argv[1:] not in ([], ["--list"], ["--write"], ["--self-test"]):
        sys.exit(__doc__)
    tree = read(os.path.dirname(os.path.dirname(os.path.abspath(__file__))))
    found, all_edits = items(tree), edits(tree)
    if sys.argv[1:] == ["--list"]:
        for s in found:
            print("|", s.name, "|", s.path()[7:], "|", s.proof, "|", ", ".join(edits_of(s, tree, all_edits)), "|")
        return
    if sys.argv[1:] == ["--write"]:
        tree[PAGE] = written(tree[PAGE], due(tree, found, all_edits), list(contracts(tree)))
        open(PAGE, "w", encoding="utf-8").write(tree[PAGE])
    wrong = faults(tree)
    if sys.argv[1:] == ["--self-test"] and not wrong:
        wrong = list(self_test(tree))
    print("\n".join(wrong) or f"{sum(1 for s in found if s.proof)} statements, each with its proof and its edit")
    sys.exit(bool(wrong))


if __name__ == "__main__":
    main()
