#!/usr/bin/env python3
"""Brings the must-fail edits to the files as port.py and tools/port_names.py left them: the same wrong meaning, in today's spelling.

usage: tools/port_edits.py [--write] [--table] [--check] [NAME ..]     NAME: words of which the edit's path must hold one

An edit of the commit LANDED is applied to its file of that commit, both the file and the edited file are turned here (names, tight projections), and the
turned file is laid beside today's, line by line. What the turned edit changes becomes the new text of each pair; the old text is widened until it stands once.
--write writes the edits whose old texts do not stand exactly once or whose new texts have an old word or `x .field`, and only these: it can be run again.
--table prints each edit's pairs before and after. --check names every edit that, as it now stands, does not make the change that LANDED's makes,
and those it can't tell: they were turned by hand.
"""
import collections, difflib, glob, os, re, subprocess, sys

ROOT = os.path.dirname(os.path.dirname(os.path.abspath(__file__)))
LANDED = "cb6aac4"
TOKEN = re.compile(r'"(?:[^"\\]|\\.)*"|[(){}\[\];,]|[^\s(){}\[\];,"]+')
WORDS = {"let", "in", "record", "pub", "module", "where", "use", "abbrev", "unfoldable", "unfolding", "data", "elim", "if", "then", "else"}


def landed(path):
    r = subprocess.run(["git", "-C", ROOT, "show", f"{LANDED}:{path}"], capture_output=True, text=True)
    return r.stdout if r.returncode == 0 else None


# the turn of one line ------------------------------------------------------------------------------------------------------------------------

def is_break(t):
    return t in WORDS or t in ";,=:|" or t.startswith("λ") or t.endswith(".") or not re.search(r"[\w⊥ℕℤ\[\]\"']", t.replace("_", "")) or re.fullmatch(r"[-+*]ℤ", t) is not None


class Group:
    """what stands between a bracket and its partner, or a whole line"""
    def __init__(self, opened):
        self.opened, self.items, self.chain, self.projected = opened, [], 0, False


def turned(line, names):
    """a line of antt: names by the table, `f x .g` as `(f x).g`, `(m .g)` as `m.g`"""
    indent = re.match(r"\s*", line).group(0)
    parts = [(m.group(0), m.start() > 0 and line[m.start() - 1].isspace()) for m in TOKEN.finditer(line)]
    # an item is (text, whether a space stands before it); chain is where the application that is being read begins
    stack = [Group(None)]
    for t, space in parts:
        g = stack[-1]
        if t in "([{":
            stack.append(Group((t, space)))
        elif t in ")]}" and len(stack) > 1:
            inner = stack.pop()
            before = stack[-1]
            text = "".join((" " if s and (i or inner.opened[0] != "(") else "") + x for i, (x, s) in enumerate(inner.items))
            alone = inner.projected and len(inner.items) == 1
            whole = text if alone and inner.opened[0] == "(" else inner.opened[0] + text + (" " if space and text else "") + t
            if inner.opened[0] == "{" and before.items and before.items[-1][0] == "record":
                before.chain = len(before.items)
            before.items.append((whole, inner.opened[1]))
        elif re.match(r"\.[\w]", t) and len(g.items) > g.chain:
            tail = re.match(r"(\.[\w']+)(.*)", t)
            field = "." + names.get(tail.group(1)[1:], tail.group(1)[1:])
            atoms = g.items[g.chain:]
            if len(atoms) == 1:
                head = atoms[0][0]
            else:
                head = "(" + "".join((" " if s and i else "") + x for i, (x, s) in enumerate(atoms)) + ")"
            g.items[g.chain:] = [(head + field + tail.group(2), atoms[0][1])]
            g.projected = g.chain == 0 and len(g.items) == 1
        else:
            word = re.match(r"(λ?)(.*?)(\.?)$", t)
            w = names.get(word.group(2), word.group(2))
            g.items.append((word.group(1) + w + word.group(3), space))
            if is_break(t):
                g.chain = len(g.items)
                g.projected = False
        if len(stack[-1].items) != 1:
            stack[-1].projected = False
    while len(stack) > 1:
        inner = stack.pop()
        stack[-1].items.append((inner.opened[0] + "".join((" " if s and i else "") + x for i, (x, s) in enumerate(inner.items)), inner.opened[1]))
    return indent + "".join((" " if s and i else "") + x for i, (x, s) in enumerate(stack[0].items))


def bare(line):
    return re.sub(r"[\s()._◌-]", "", line).lower().replace("getor", "getd")


def side_by_side(old, new, same=bare):
    """line of old -> line of new: the lines that are the same in the same order, and runs of changed lines of one length"""
    out = {}
    a, b = [same(l) for l in old], [same(l) for l in new]
    for op, i1, i2, j1, j2 in difflib.SequenceMatcher(None, a, b, autojunk=False).get_opcodes():
        if op == "equal" or op == "replace" and i2 - i1 == j2 - j1:
            out.update((i1 + k, j1 + k) for k in range(i2 - i1))
    return out


def learn(pairs):
    """the names that changed: the words of lines that are the same but for them; a table for all files, and each file's own before it"""
    seen, own = collections.defaultdict(collections.Counter), collections.defaultdict(lambda: collections.defaultdict(collections.Counter))
    for path, old, new in pairs:
        if not path.endswith(".antt"):
            continue
        lines, now = old.split("\n"), new.split("\n")
        for i, j in side_by_side(lines, now).items():
            if lines[i].lstrip().startswith(("use ", "--")):
                continue
            x, y = (re.findall(r"[A-Za-z][\w'′-]*", re.sub(r'"[^"]*"', '""', l)) for l in (lines[i], now[j]))
            if len(x) == len(y):
                for u, v in zip(x, y):
                    seen[u][v] += 1
                    own[path][u][v] += 1
    first = lambda table: {u: c.most_common(1)[0][0] for u, c in table.items()}
    return {path: {**first(seen), **first(own[path])} for path, _, _ in pairs}


# edits ---------------------------------------------------------------------------------------------------------------------------------------

def read(text):
    file = re.search(r"(?m)^file: (.*)$", text).group(1).strip()
    pairs, o = [], None
    for line in text.split("\n"):
        if line.startswith("old: "):
            o = line[5:]
        elif line.startswith("new:"):
            pairs.append((o, line[5:]))
    return file, pairs


def old_words(pairs, names, file):
    """whether a new text is in an older spelling"""
    if not file.endswith(".antt"):
        return False
    words = {w for _, n in pairs for w in re.findall(r"[A-Za-z][\w'′-]*", re.sub(r'"[^"]*"', "", n))}
    return any(re.search(r"[\w)] \.\w", n) for _, n in pairs) or any(names.get(w, w) != w for w in words)


def apply(text, pairs):
    for o, n in pairs:
        if text.count(o) != 1:
            return None
        text = text.replace(o, n)
    return text


def ends(a, b):
    """how many characters two texts share at the head and at the tail"""
    h = 0
    while h < min(len(a), len(b)) and a[h] == b[h]:
        h += 1
    t = 0
    while t < min(len(a), len(b)) - h and a[-1 - t] == b[-1 - t]:
        t += 1
    return h, t


def span(line, a, b, now):
    """where the part a..b of an older line stands in today's: by the letters before it and in it, of which bare leaves the same in both lines"""
    skip, long = len(bare(line[:a])), len(bare(line[a:b]))
    at = [i for i, c in enumerate(now) if bare(c) and not now[:i + 1].endswith("get_or")]  # get_or counts as getD does, by its first four letters
    return (at[skip], at[skip + long - 1] + 1) if long and skip + long <= len(at) else None


def open_ones(text):
    """how many more parentheses the text opens than it closes"""
    text = re.sub(r'"[^"]*"', "", text)
    return text.count("(") - text.count(")")


def changes(path, file, pairs, old, new, names):
    """the lines of today's file that the edit changes: line -> text; a text where that can't be told"""
    lines, now = old.split("\n"), new.split("\n")
    turn = turned if file.endswith(".antt") else lambda l, names: l
    to = side_by_side(lines, now)
    out, at = {}, list(lines)
    for o, n in pairs:
        text = "\n".join(at)
        if text.count(o) != 1:
            return f"LANDED's own text does not stand once: {o}"
        i = text[:text.index(o)].count("\n")
        at[i] = at[i].replace(o, n)
    for i, (u, v) in enumerate(zip(lines, at)):
        if u == v:
            continue
        if i not in to:
            return f"no line of today's file is: {u}"
        j = to[i]
        if u.startswith("use ") or turn(u, names) != now[j]:
            return f"the line reads otherwise: {turn(u, names)} / {now[j]}"
        out[j] = turn(v, names)
    return out


def pairs_of(pairs, old, new, out, names):
    """the edit's pairs against today's file, or a text that says why not"""
    lines, at, file_now = old.split("\n"), old.split("\n"), new.split("\n")
    to = side_by_side(lines, file_now)
    got = []
    by_line = collections.defaultdict(list)
    for o, n in pairs:
        text = "\n".join(at)
        i = text[:text.index(o)].count("\n")
        by_line[i].append((o, n, at[i]))
        at[i] = at[i].replace(o, n)
    text = new
    for i, many in by_line.items():
        j = to[i]
        before, after = file_now[j], out[j]
        a = min(lines[i].find(o) if o in lines[i] else 0 for o, _, _ in many)
        b = max(lines[i].find(o) + len(o) if o in lines[i] else len(lines[i]) for o, _, _ in many)
        s = span(lines[i], a, b, before)
        if s is None:
            return f"no place of {lines[i][a:b]}"
        s = [s[0], s[1]]
        h, t = ends(before, after)
        s = [min(s[0], h), max(s[1], len(before) - t)]
        # whole words, closed parentheses, then wider until the text stands once
        while s[0] > 0 and re.match(r"[\w.']", before[s[0] - 1]) and re.match(r"[\w.']", before[s[0]:s[0] + 1] or " "):
            s[0] -= 1
        while s[1] < len(before) and re.match(r"[\w.']", before[s[1]]):
            s[1] += 1
        while s[1] < len(before) and before[s[1]] == ")" and open_ones(before[s[0]:s[1]]) > 0:
            s[1] += 1
        while s[0] > 0 and before[s[0] - 1] == "(" and (open_ones(before[s[0]:s[1]]) < 0 or lines[i][a] in " (" or not before[:s[0] - 1].strip()):
            s[0] -= 1
            while s[1] < len(before) and before[s[1]] == ")" and open_ones(before[s[0]:s[1]]) > 0:
                s[1] += 1
        if not lines[i][:a].strip() and not before[:s[0]].strip() and lines[i][a] == " ":
            s[0] = 0
        while text.count(before[s[0]:s[1]]) != 1:
            if s[0] == 0 and s[1] == len(before):
                return f"stands more than once: {before}"
            if s[0] > 0:
                s[0] -= 1
                while s[0] > 0 and before[s[0] - 1] not in " (":
                    s[0] -= 1
            else:
                s[1] += 1
                while s[1] < len(before) and before[s[1]] not in " )":
                    s[1] += 1
        o, n = before[s[0]:s[1]], after[s[0]:len(after) - (len(before) - s[1])]
        got.append((o, n))
        text = text.replace(o, n)
    return got


def main(words):
    write, table, check = ("--" + w in words for w in ("write", "table", "check"))
    names_wanted = [w for w in words if not w.startswith("--")]
    edits = sorted(os.path.relpath(p, ROOT) for p in glob.glob(f"{ROOT}/crates/*/must-fail/*.edit"))
    old_edits, old_files, new_files = {}, {}, {}
    for e in edits:
        old_edits[e] = landed(e)
        crate = os.path.dirname(os.path.dirname(e))
        f = f"{crate}/{read(open(f'{ROOT}/{e}').read())[0]}"
        if f not in new_files:
            old_files[f], new_files[f] = landed(f), open(f"{ROOT}/{f}").read()
    tables = learn([(f, old_files[f], new_files[f]) for f in new_files if old_files[f]])
    count = collections.Counter()
    for e in edits:
        if names_wanted and not any(w in e for w in names_wanted):
            continue
        text = open(f"{ROOT}/{e}").read()
        file, pairs = read(text)
        path = f"{os.path.dirname(os.path.dirname(e))}/{file}"
        new = new_files[path]
        done = apply(new, pairs)
        if done is not None and not check and not old_words(pairs, tables.get(path, {}), file):
            count["stands"] += 1
            continue
        if old_edits[e] is None or old_files[path] is None:
            count["not in LANDED"] += 1
            print(f"HAND {e}: not in {LANDED}")
            continue
        was = read(old_edits[e])[1]
        names = tables[path]
        out = changes(path, file, was, old_files[path], new, names)
        if isinstance(out, str):
            count["by hand"] += 1
            print(f"HAND {e}: {out}")
            continue
        if check:
            if done is None:
                count["does not stand"] += 1
                print(f"OFF {e}")
                continue
            wanted = [out.get(j, l) for j, l in enumerate(new.split("\n"))]
            squeeze = lambda l: re.sub(r"\s+", " ", l)
            differ = [(squeeze(x), squeeze(y)) for x, y in zip(wanted, done.split("\n")) if squeeze(x) != squeeze(y)]
            if differ or len(wanted) != len(done.split("\n")):
                count["differs"] += 1
                print(f"DIFFERS {e}")
                for x, y in differ:
                    print(f"   turned: {x}\n   now:    {y}")
            else:
                count["the same"] += 1
            continue
        got = pairs_of(was, old_files[path], new, out, names)
        if isinstance(got, str):
            count["by hand"] += 1
            print(f"HAND {e}: {got}")
            continue
        count["turned"] += 1
        if table:
            print(e)
            for o, n in was:
                print(f"   - old: {o}\n   - new: {n}")
            for o, n in got:
                print(f"   + old: {o}\n   + new: {n}")
        if write:
            head = [l for l in text.split("\n") if not l.startswith(("old: ", "new:"))]
            while head and not head[-1]:
                head.pop()
            body = [l for o, n in got for l in (f"old: {o}", f"new: {n}".rstrip(" ") if not n else f"new: {n}")]
            open(f"{ROOT}/{e}", "w").write("\n".join(head + body) + "\n")
    print(", ".join(f"{v} {k}" for k, v in sorted(count.items())))


if __name__ == "__main__":
    main(sys.argv[1:])
