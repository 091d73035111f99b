"""Counts the lines of definitions that each statement of crates/demands/specs rests on, without comments and imports, and holds
docs/READING.md to them. With --print it only prints what should stand there."""
import re
import sys
from pathlib import Path

ROOT = Path(__file__).resolve().parent.parent.parent
IMPORT = re.compile(r"use Rattle\.(\w+)\.specs\.([\w.-]+?)(?:\.\{(.*)\}| as (\S+))?$")
NAMED = re.compile(r"(?:(?:abbrev|unfoldable|pub)\s+)*(?:(?:record|data)\s+(\S+)|(?!→)(\S+) :)")


def imports(lines):
    """Name here -> (crate, module, name there); name there is None for a whole module."""
    found = {}
    for line in lines:
        match = IMPORT.match(line)
        if not match:
            continue
        crate, module, names, alias = match.groups()
        if names is None:
            found[alias or module] = (crate, module, None)
            continue
        for name in names.split(", "):
            there, _, here = name.partition(" as ")
            found[here or there] = (crate, module, there)
    return found


def definitions(lines):
    """Name -> its lines. What stands below `module _` is indented by two and needs that line as well."""
    found, name, indent = {}, "", 0
    for line in lines:
        text = line.strip()
        if not text or text.startswith("--") or line.startswith("use "):
            continue
        if text.startswith("module _"):
            name, indent = "module", 2
            found[name] = [line]
            continue
        match = NAMED.match(text)
        if match and len(line) - len(line.lstrip()) == indent:
            name = match.group(1) or match.group(2)
        found.setdefault(name, []).append(line)
    return found


def modules():
    for path in sorted(ROOT.glob("crates/*/specs/*.antt")):
        if path.stem == "Lib":
            continue
        lines = path.read_text().split("\n")
        yield (path.parts[-3], path.stem), (imports(lines), definitions(lines))


MODULES = dict(modules())


def mentioned(name, words):
    """Is the name, or the operator that it is the name of, among the words?"""
    return name in words or (name.startswith("◌") and name.strip("◌") in words)


def needed(crate, module, name):
    """The definitions that one definition names."""
    here, defined = MODULES[crate, module]
    text = " ".join(defined[name])
    words = set(re.findall(r"[^\s(){},;.λ→]+", text))
    for other in defined:
        if mentioned(other, words) or (other == "module" and defined[name][0].startswith("  ")):
            yield crate, module, other
    for local, (there, source, other) in here.items():
        if other is None:
            for member in re.findall(re.escape(local) + r"\.([^\s(){},;.]+)", text):
                yield there, source, member
        elif mentioned(local, words):
            yield there, source, other


def rests_on(module):
    """Crate -> lines, of all that a module of `demands` rests on."""
    seen, left = set(), [("demands", module, name) for name in MODULES["demands", module][1]]
    lines = {}
    while left:
        at = left.pop()
        crate, source, name = at
        if at in seen or (crate, source) not in MODULES or name not in MODULES[crate, source][1]:
            continue
        seen.add(at)
        lines[crate] = lines.get(crate, 0) + len(MODULES[crate, source][1][name])
        left.extend(needed(*at))
    return lines


def row(module):
    lines = rests_on(module)
    return "%d to state; %d in all" % (lines["demands"], sum(lines.values()))


def shares():
    """Demand 2's lines by what they are about."""
    lines = rests_on("SecondDemand")
    total = sum(lines.values())
    forms = lines["octets"] + lines["archive"] + lines["proofbytes"] + lines["jointbytes"]
    calls = total - forms - lines["sha256"] - lines["skiplist"] - lines["demands"]
    return (
        "Of the %d lines, %d are SHA-256, %d the model (row, tree, way, labels, edits, meeting), %d numbers, runs of bytes and the forms of "
        "image, proof and joint proof, %d the calls' rules and answers and saved metadata, and %d the statement."
        % (total, lines["sha256"], lines["skiplist"], forms, calls, lines["demands"])
    )


def main():
    reading = (ROOT / "docs/READING.md").read_text()
    wanted = [(module, row(module)) for crate, module in MODULES if crate == "demands" and module != "Words"]
    if "--print" in sys.argv:
        print("\n".join("%s: %s" % pair for pair in wanted) + "\n" + shares())
        return 0
    failed = 0
    for module, text in wanted:
        if not re.search(r"`%s\.%s`.*\| %s \|\n" % (module, module, text), reading):
            failed += 1
            print("docs/READING.md: the row of `%s.%s` should end with '%s'" % (module, module, text))
    if shares() not in reading:
        failed += 1
        print("docs/READING.md should have: " + shares())
    print("%d passed, %d failed" % (len(wanted) + 1 - failed, failed))
    return failed != 0


sys.exit(main())
