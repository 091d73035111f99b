#!/usr/bin/env python3
"""Respells a ported repository's own antt names: types and modules in upper camel case, all else in snake case, a dash between two names.

usage, at the top of a checkout in which port.py ran (commit first):
  respell.py [--dry] [--exists] [--mapping FILE]   finds the names, writes FILE (default ../respell.tsv: old, tab, new), rewrites
  respell.py --with FILE [--dry]                   the same by the mapping of an earlier run, as in another clone of the repository
  respell.py --docs FILE PAGE..                    turns the names that stand in the pages' backquotes

Own names: what crates/*/specs and crates/*/proofs declare: definitions, lemmas, fields, constructors, helpers, variables.
Rewritten: the code of those files; clauses, ghost blocks, `ghost use` and #[tactic] of src/*.rt; names in comments; must-fail/*.edit.
Left: what Rattle makes (an answer to a goal, as `x : tie.Need-x` or `x : goal.x`; a name behind a dot that is no field of yours), names
that a file imports from elsewhere, Rust code. "clash:" lines name what would have met another name in a file and got an ending (`_lem`
a lemma, `_is` a field, `_here` a variable); "care:" lines an own name that a file has from elsewhere; "missing:" a bad import.

The dash. A lemma `a-b` keeps its dash where a and b are each named in its statement (`length-drop`; `part-cons` on `part` and `∷`) or are
definitions of its crate's specs/; else it gets `_`, as `patch_none`, and so does one that a #[tactic] cites. Where the statement names
both, a dash that port.py took comes back (`length_part`). A definition, a field, a constructor and a variable have none.
`f_spec` is the proof of a Rattle function f. With --exists a definition, field or type of any crate counts as a name in the lemma's name.
"""
import collections
import functools
import os
import re
import sys

NAME = r'[^\s(){}.;,@"«»]+'
PATH = re.compile(rf'(?<![^\s(){{}}.;,@"«»])(?<!mod )(\.?)({NAME}(?:\.{NAME})*)')  # a dotted name, but a `mod` line's
GROUP = r"[({][^(){}]*[)}]"
for _ in range(9):  # brackets, ten deep
    GROUP = rf"[({{](?:[^(){{}}]|{GROUP})*[)}}]"
QUIET = re.compile(r'"(?:[^"\\\n]|\\.)*"|(?<![^\s(){}.;,@"«»])--[^\n]*|\{-.*?-\}', re.S)  # a text or a comment of antt's
CLAUSE = r"((?:requires|ensures)\s*\*?\s*(?:\w+\s*)?|ghost\s+(?!use\b)\w+\s*(?::\s*(?:(?:owns|lends|shares)\s*)?|=\s*)?)"
RUST = re.compile(rf'(//[^\n]*|/\*.*?\*/|"(?:[^"\\]|\\.)*"|\x27(?:[^\x27\\]|\\.)\x27)|(\bghost\s+use\b[^;]*;)|(#!?\[tactic\b[^\]]*\])|\b{CLAUSE}(?=\{{)({GROUP})', re.S)
USE = re.compile(r"(?m)(^\s*(?:(?:ghost|pub|unfoldable)\s+)*use\s+)([^\s{;]+?)(?:(\.\{)([^}]*)\}|(\s+as\s+)([^\s;]+))?(?=[;\s]|$)")
MOD = re.compile(r"(?m)^((?:pub )?mod )(\S+)")
SHAPED = re.compile(r"\w[-·′]|[a-z0-9][A-Z]")  # a name that the rules may turn
WORDS = set("use mod module let in λ where unfolding unfold ruleset infix infixl infixr elim open mutual deriving do rw = : ← → ∙ ≡ × |".split())
# What a lemma's name says of a sign in its statement, and words of std that port.py renamed.
SIGNS = {"∷": "cons", "[]": "nil", "++": "append snoc", "+": "add", "*": "mul", "-": "sub", "/": "div", "%": "mod", "^": "pow", "≤": "le",
         "<": "lt", "≡": "eq", "≢": "ne", "==": "eq", "&&": "and", "||": "or", "0": "zero", "∘": "after"}
RENAMED = {"getD": "get_or", "get_d": "get_or"}
LITTLE = set("is are no not in at of to as on by all any one with".split())  # such a word is a name only where it is written so
ENGLISH = {"one-to-one"}  # stays in a comment where it has no backquotes
TAKEN = set("first_of fun_ext is_prop is_set path_j in_s out_s".split())  # Prim's
# Lemmas that would meet the definition or the function that they speak of, and one field: each gets a name of its own.
CHOSEN = {"beside-fits": "side_fits_beside", "count-of": "count_spelled", "digest-rules": "digest_verdict", "entry-bytes": "entry_written",
          "gateway-numbers": "numbers_gateway", "head-fits": "joined_head_fits", "is-done": "only_done", "joint-fits": "joined_fits",
          "joint-numbers": "numbers_joint", "later-numbers": "numbers_later", "later-proofs": "proofs_later", "leaf-fits": "sent_fits",
          "once-more": "filed_once_more", "once_more": "filed_once_more", "own-at": "own_last", "place-numbers": "numbers_place",
          "place-of": "placed_at", "proved-rank": "rank_proved", "spare-after": "spare_then", "stop-side": "side_stop", "tag-after": "tag_from"}
# The kinds of declarations, the ones that give way first, each with the endings for a name that would meet another.
ENDINGS = {"local": ["_here", "_now"], "lemma": ["_lem", "_law"], "field": ["_is", "_holds"], "con": ["_case"], "def": ["_def"], "type": ["Type"]}
# kind: as above, or made (by Rattle). def: abbrev or unfoldable; lemma: any other of a file or section. bound: the statement's variables.
Decl = collections.namedtuple("Decl", "name kind path statement bound", defaults=("", ()))


def read(path):
    with open(path, encoding="utf-8") as f:
        return f.read()


@functools.lru_cache(None)
def split(name):
    """The words of a name, and what joins each two: '-', '_', or 'A' for a hump."""
    for old, new in RENAMED.items():
        name = re.sub(rf"(?<![^-_]){old}(?![^-_])", new, name)
    words, joints = [], []
    for i, part in enumerate(re.split(r"([-_·])", name.replace("′", "'"))):
        humps = re.split(r"(?<=[a-z0-9])(?=[A-Z])", part)
        joints += [part] if i % 2 else ["A"] * (len(humps) - 1)
        words += [] if i % 2 else humps
    return words, joints


@functools.lru_cache(None)
def canon(name):
    return tuple(w.lower().rstrip("'") for w in split(name)[0])


def camel(name):
    return "".join(w[:1].upper() + w[1:] for w in split(name)[0])


def declarations(path, text):
    code = QUIET.sub(lambda m: re.sub(r"[^\n]", " ", m[0]), text)
    lines, found, opens, head = code.split("\n"), [], [], None  # opens: the blocks around, each its depth and what stands in it
    for n, line in enumerate(lines):
        first, depth = line.split(), len(line) - len(line.lstrip())
        if not first:
            continue
        while opens and depth <= opens[-1][0]:
            opens.pop()
        inside, item = opens[-1][1] if opens else "def", [line]
        for more in lines[n + 1 : n + 60]:
            if more.strip() and len(more) - len(more.lstrip()) <= depth:
                break
            item.append(more)
        words, names, member = " ".join(item).split(), [], inside in ("field", "con")
        while words and words[0] in ("pub", "abbrev", "unfoldable", "pattern", "axiom"):
            words.pop(0)
        block = words[0] if words and words[0] in ("data", "record", "module") and words[1:2] != ["{"] else None
        if block:
            head = (depth, {"data": "con", "record": "field", "module": inside}[words.pop(0)])
        if first[-1] == "where":
            opens.append(head or (depth, "local"))
            head = None
        while words and re.fullmatch(NAME, words[0]) and words[0] not in WORDS:
            names.append(words.pop(0))
        binders, rest = re.fullmatch(rf"((?:{GROUP} ?)*)(.*)", " ".join(words)).groups()
        if block == "module" or not names or not (block or rest.startswith(": ")):
            continue
        statement = re.split(r" where\b| unfolding ", rest[2:])[0]
        if not member:  # up to the first clause
            statement = re.split(rf"\s{re.escape(names[0])}(?=\s[^:]*=)", statement)[0]
        kind = inside
        if block or not member and re.match(r"\s*Type\b", re.sub(GROUP, "", statement).split("→")[-1]):
            kind = "type"
        elif re.match(r"(?:tie|goal)\.", statement):
            kind = "made"
        elif kind == "def" and not {"abbrev", "unfoldable"} & set(first):
            kind = "lemma"
        bound = " ".join(re.findall(rf"[({{]((?:{NAME} )+):", binders + rest)).split()
        found += [Decl(name, kind, path, binders + statement, bound) for name in (names[:1] if block else names)]
    if re.search(r"/proofs/.*/(?:Answers|Invariants)\.antt$", path):  # there a goal's answer may stand without its type
        have = {d.name for d in found}
        found += [Decl(name, "made", path) for name in set(re.findall(rf"(?m)^({NAME})", code)) - have - WORDS]
    # Variables: let, do, groups of binders, and what an import is called here.
    loose = " ".join(map(" ".join, re.findall(rf"\blet ({NAME}) [:=]|({NAME}) ← |\b as ({NAME})|[({{]((?:{NAME} )+): ", code))).split()
    return found + [Decl(name, "local", path) for name in sorted(set(loose)) if not name[0].isupper()]


def new_name(d, defined):
    """The spelling of a declaration by the rules. defined: what the specs of its crate define."""
    words, joints = list(split(d.name)[0]), split(d.name)[1]
    member, lemma = d.kind in ("field", "con"), d.kind == "lemma"
    if "◌" in d.name or not all(words) or d.kind == "made":
        return d.name
    if d.kind == "type":
        return camel(d.name) if re.search("[-_·]|^[a-z]", d.name) else d.name
    if not joints and not member:
        return d.name.replace("′", "'")
    for i, w in enumerate(words):  # a hump's word, and a capital or an acronym behind the first word
        if i and joints[i - 1] == "A" or (i or member) and re.fullmatch("[A-Z0-9]+'*", w):
            words[i] = w.lower()
    said, exact = set(), set()
    for m in re.finditer(NAME, d.statement if lemma and not d.name.endswith(("-spec", "_spec")) else ""):
        if m[0] not in d.bound or d.statement[m.start() - 1 : m.start()] == ".":
            said |= {(w,) for w in SIGNS[m[0]].split()} if m[0] in SIGNS else {canon(m[0])}
            exact.add(m[0])
    low, out, i, before = [w.lower().rstrip("'") for w in words], "", 0, 0

    def rank(run):  # 2: the statement names it (or a longer name that begins so); 1: a definition of the crate's; 0: a plain word
        if len(run) == 1 and run[0] in LITTLE:
            return 2 * (run[0] in exact)
        return 2 if any(w[: len(run)] == run for w in said) else int(lemma and run in defined)

    while i < len(words):
        j = next((j for j in range(len(words), i, -1) if rank(tuple(low[i:j]))), i + 1)
        now, needed = rank(tuple(low[i:j])), 1 if i and joints[i - 1] == "-" else 2
        out += ("-" if min(before, now) >= needed or before > 2 else "_") * bool(i) + "_".join(words[i:j])
        before = 3 if not i and words[0][:1].isupper() and lemma else now  # a type at the head keeps its dash
        i = j
    return out


def pieces(path, text):
    """The text in pieces: ('code', antt), ('note', a comment), ('tactic', an attribute), ('other', a text or Rust)."""
    out, at = [], 0
    for m in (QUIET if path.endswith(".antt") else RUST).finditer(text):
        out.append(("code" if path.endswith(".antt") else "other", text[at : m.start()]))
        at = m.end()
        if path.endswith(".antt") or m[1]:
            out.append(("note" if m[0][:1] in "-/{" else "other", m[0]))
        else:
            out += [("code", m[2])] if m[2] else [("tactic", m[3])] if m[3] else [("other", m[4]), *pieces("clause.antt", m[5])]
    return out + [("code" if path.endswith(".antt") else "other", text[at:])]


def below(path):
    """The folder of a module's children."""
    return os.path.dirname(path) if path.endswith("/Lib.antt") else path[:-5]


class File:
    """A file's text, and what its names are: items (from your files), foreign (from elsewhere), made (by Rattle), modules (yours)."""

    def __init__(self, repo, path):
        self.repo, self.path, self.text = repo, path, read(path)
        self.parts, self.rust = pieces(path, self.text), path.endswith(".rt")
        self.decls = [] if self.rust else declarations(path, self.text)
        self.items, self.wanted, self.foreign, self.modules, self.free = set(), set(), set(), set(), set()
        for m in USE.finditer("\n".join(t for k, t in self.parts if k == "code")):
            own = repo.own(m[2], path)
            for item in filter(None, map(str.strip, (m[4] or "").split(","))):
                (self.items if own or " as " in item else self.foreign).add(re.split(r" as |\.", item)[-1])
                self.wanted |= {item.split(" as ")[0]} if own else set()
            self.modules |= {m[6] or m[2].split(".")[-1]} if own and not m[4] else set()
        self.skip = {d.name for d in self.decls if d.kind == "made"} | self.foreign
        self.turned(None)
        # A parameter or a field of Rust hides a word of its name in a clause.
        rust = re.findall(r"\b(\w+)\s*:(?!:)", " ".join(t for k, t in self.parts if k == "other")) if self.rust else ()
        self.fixed = self.skip | set(rust)

    def turned(self, new):
        """The text with each name n of a scope written new[n]. With None it notes in self.free the names that may turn."""
        repo, to = self.repo, lambda n: (new or {}).get(n, n)

        def say(n):
            self.free |= {n} if new is None else set()
            return n if n in self.skip or self.rust and not (SHAPED.search(n) or n in self.items) else to(n)

        def use(m):
            own = repo.own(m[2], self.path)
            a = lambda i: to(i[1]) if own else i[1]  # noqa: E731
            item = lambda i: f"{a(i)} as {say(i[2])}" if i[2] and a(i) != say(i[2]) else a(i)  # noqa: E731
            items = re.sub(r"([^\s,]+)(?:\s+as\s+([^\s,]+))?", item, m[4] or "")
            return m[1] + repo.path(m[2], self.path) + (m[3] + items + "}" if m[3] else m[5] + say(m[6]) if m[5] else "")

        def term(m):
            if "." not in m[0]:
                return say(m[0])
            parts = repo.path(m[2], self.path).split(".")
            deep = parts[0] in self.modules or parts[0] == "Rattle" and repo.own(m[2].rpartition(".")[0], self.path)
            turns = lambda i, p: (i or m[1]) and (i and deep or repo.kinds.get(p, set()) & {"field", "con"})  # noqa: E731
            return m[1] + ".".join(to(p) if turns(i, p) else p if i or m[1] else say(p) for i, p in enumerate(parts))

        def code(t):
            out, at = [], 0
            for m in USE.finditer(t):
                out += [PATH.sub(term, t[at : m.start()]), use(m)]
                at = m.end()
            return "".join(out) + PATH.sub(term, t[at:])

        def note(t):  # names in backquotes, and others that are spelled like no plain word
            may = lambda w, quoted: w not in self.skip and (quoted or w not in ENGLISH and ("_" in w or SHAPED.search(w)))  # noqa: E731
            one = lambda quoted: lambda m: (repo.quoted.get(m[0], m[0]) if quoted else to(m[0])) if may(m[0], quoted) else m[0]  # noqa: E731
            return "".join(re.sub(r"[^\W_][\w'′·-]*", one(i % 2), s) for i, s in enumerate(re.split(r"(`[^`\n]*`)", t)))

        turns = {"code": code, "note": note, "tactic": lambda t: re.sub(r"(?<=::)\w+", lambda m: to(m[0]), t), "other": str}
        text = "".join(turns[k](t) for k, t in self.parts)
        return MOD.sub(lambda m: m[1] + repo.modules.get((below(self.path), m[2]), m[2]), text)


class Repository:
    def __init__(self):
        found = sorted(os.path.join(d, f) for d, _, files in os.walk("crates") for f in files if not re.search(r"^crates/[^/]+/out(/|$)", d))
        self.paths = {p for p in found if re.match(r"crates/[^/]+/(specs|proofs)/.*\.antt$", p)}
        self.edits = [p for p in found if re.search(r"/must-fail/[^/]+\.edit$", p)]
        self.kinds, self.modules, self.quoted = collections.defaultdict(set), {}, {}  # quoted: the spellings in backquotes
        self.files = [File(self, p) for p in found if p in self.paths or re.match(r"crates/[^/]+/src/.*\.rt$", p)]
        self.decls = [d for f in self.files for d in f.decls]
        for d in self.decls:
            self.kinds[d.name].add(d.kind)
        declared = {d.name for d in self.decls}
        for f in self.files:
            for name in sorted(f.wanted - declared - {"*"}):
                print(f"missing: {f.path} imports {name} from your files, and none declares it")
            for _, name in () if f.rust else MOD.findall(f.text):  # a module beside a definition of its name keeps it
                if re.search("^[a-z]|[-_]", name) and name not in {d.name for d in f.decls}:
                    self.modules[below(f.path), name] = camel(name)
            for name in () if f.rust else f.free - declared - f.fixed:  # a variable of a λ or of a pattern
                if SHAPED.search(name) and name[0].islower():
                    self.kinds[name].add("local")
                    self.decls.append(Decl(name, "local", f.path))

    def steps(self, path, where):
        """The steps of a dotted path, each with the folder that it is looked for in."""
        steps, base = path.split("."), below(where)
        if steps[0] == "Rattle" and len(steps) > 2:
            base, steps = "/".join(["crates"] + steps[1:3]), steps[3:]
        return [("/".join([base] + steps[:i]), s) for i, s in enumerate(steps)]

    def own(self, path, where):
        at = ["/".join(it) for it in self.steps(path, where)][-1:]
        return bool(at and {at[0] + ".antt", at[0] + "/Lib.antt"} & self.paths)

    def path(self, path, where):
        at = self.steps(path, where) if self.modules else []
        return ".".join(path.split(".")[: path.count(".") + 1 - len(at)] + [self.modules.get(it, it[1]) for it in at])

    def kind(self, name):
        return next((k for k in ("type", "def", "lemma", "field", "con", "local") if k in self.kinds.get(name, ())), "made")

    def mapping(self, exists=False):
        defined, votes, new = collections.defaultdict(set), collections.defaultdict(set), {}
        for d in self.decls:
            if d.kind in ("def", "con") and "/specs/" in d.path or exists and d.kind in ("def", "con", "field", "type"):
                defined["" if exists else d.path.split("/")[1]].add(canon(d.name))
        for d in self.decls:
            votes[d.name, d.kind].add(new_name(d, defined["" if exists else d.path.split("/")[1]]))
        for name in list(self.kinds):
            kind = next((k for k in ("field", "con") if k in self.kinds[name]), self.kind(name))  # these have no dash
            new[name] = max(votes.get((name, kind), {name}), key=lambda n: (n.count("-"), n))
        new.update((name, to) for name, to in CHOSEN.items() if name in self.kinds)
        for name in re.findall(r"::(\w+)", "".join(t for f in self.files for k, t in f.parts if k == "tactic")):
            new[name] = new.get(name, name).replace("-", "_")  # an attribute can cite no name with a dash
        for again in range(9):
            for spelled, (names, f) in sorted(self.clashes(new).items()):
                may = [n for n in names if new.get(n) == spelled and n in f.free - f.fixed and self.kind(n) != "made"]
                loser = min(may, key=lambda n: (list(ENDINGS).index(self.kind(n)), n == spelled, n), default=None)
                if loser and again < 8:
                    ends = [spelled + e for e in ENDINGS[self.kind(loser)]]
                    new[loser] = next((e for e in ends if e not in new.values() and e not in f.free), spelled + "_too")
                    print(f"clash: {loser} -> {new[loser]}: {', '.join(sorted(names - {loser})) or 'Prim'} is {spelled} too in {f.path}")
                elif again == 8:
                    print(f"left: {', '.join(sorted(names))} are all {spelled} in {f.path}")
        return {a: b for a, b in new.items() if a != b}

    def clashes(self, new):
        found = {}
        for f in self.files:
            seen = collections.defaultdict(set)
            for n in f.free | f.fixed:
                seen[n if n in f.skip else new.get(n, n)].add(n)
            found.update({s: (names, f) for s, names in seen.items() if any(new.get(n, n) != n for n in names) and (len(names) > 1 or s in TAKEN)})
        return found

    def older(self, text, new):
        """Names in an edit or a page as they stood before port.py, each with its spelling now: a name with a dash was a lemma or a field."""
        now = {(canon(n), self.kind(n) in ("lemma", "field")): new.get(n, n) for n in sorted(self.kinds)}
        words = {w for w in re.findall(r"[^\W_][\w'′-]*", text) if SHAPED.search(w) and w[0].islower() and w not in self.kinds}
        return {w: now[canon(w), "-" in w] for w in words if (canon(w), "-" in w) in now}


def main(args):
    value = lambda flag, other=None: args[args.index(flag) + 1] if flag in args else other  # noqa: E731
    rows = lambda path: dict(line.split("\t") for line in read(path).splitlines() if "\t" in line)  # noqa: E731
    dry, count, said = "--dry" in args, [0], {}

    def write(path, old, text):
        count[0] += text != old
        if text != old and not dry:
            with open(path, "w", encoding="utf-8") as f:
                f.write(text)

    if "--docs" in args:
        new, word = rows(value("--docs")), re.compile(r"(?<![\w'′·-])[^\W_][\w'′·-]*")
        for page in args[args.index("--docs") + 2 :]:
            span = lambda m: word.sub(lambda w: new.get(w[0], w[0]), m[0])  # noqa: E731
            write(page, read(page), re.sub(r"(?ms)^```(?!sh|bash|console|json|toml|c$|rust).*?^```|`[^`\n]+`", span, read(page)))
        return
    if not os.path.isdir("crates"):
        sys.exit("respell: run it at the top of a repository, beside crates/")
    repo = Repository()
    new = {a: b for a, b in rows(value("--with")).items() if a in repo.kinds} if "--with" in args else repo.mapping("--exists" in args)
    said.update(repo.older(" ".join(s for f in repo.files for k, t in f.parts if k == "note" for s in re.findall("`[^`\n]+`", t)), new))
    repo.quoted = {**said, **new}
    for path in repo.edits:
        names = {**repo.older(" ".join(re.findall(r"(?m)^(?:old|new):.*", read(path))), new), **new}
        turn = lambda m: PATH.sub(lambda p: p[1] + ".".join(names.get(s, s) for s in p[2].split(".")), m[0])  # noqa: B023, E731
        write(path, read(path), re.sub(r"(?m)^(old|new):.*", turn, read(path)))
        said.update(names)
    for page in filter(os.path.exists, ["README.md"] + [os.path.join(d, f) for d, _, fs in os.walk("docs") for f in fs if f.endswith(".md")]):
        said.update(repo.older(" ".join(re.findall(r"`[^`\n]+`", read(page))), new))
    for f in repo.files:
        for name in sorted(f.foreign & set(new)):
            print(f"care: {f.path}: {name} comes from elsewhere here, and stays")
        write(f.path, f.text, f.turned(new))
    for (folder, name), to in sorted(repo.modules.items(), key=lambda it: -it[0][0].count("/")):  # the deepest first
        for tail in () if dry else (".antt", ""):
            if os.path.exists(f"{folder}/{name}{tail}"):
                os.rename(f"{folder}/{name}{tail}", f"{folder}/{to}{tail}")
    if "--with" not in args and new:
        with open(value("--mapping", "../respell.tsv"), "w", encoding="utf-8") as f:
            f.write("".join(f"{a}\t{b}\n" for a, b in sorted({**said, **new}.items())))
    print(f"respell: {len(new)} names, {len(repo.modules)} modules; files {'to change' if dry else 'changed'}: {count[0]}")


if __name__ == "__main__":
    main(sys.argv[1:])
