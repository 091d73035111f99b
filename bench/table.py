"""table.py TARGET LINE..: the tables of the benchmark, in Markdown. TARGET is the folder with the programs that bench/run made; the LINEs,
on the machine, go above the tables. A figure is a run of two turns less a run of one, so that start-up drops out."""
import glob
import hashlib
import os
import re
import subprocess
import sys

import rows
import stackuse

TARGET, MACHINE = sys.argv[1], sys.argv[2:]
LIBRARY = "crates/quaythistle/out/libquaythistle.a"
NATIVE = os.uname().machine == "x86_64"
CALLGRIND = NATIVE and os.environ.get("COUNTER") != "plugin"
METHOD = (
    "instructions executed, `Ir` of `valgrind --tool=callgrind`"
    if CALLGRIND
    else "instructions executed, counted by the emulator's plugin `bench/icount.c` (`qemu-x86_64 -cpu max`)"
)
MOST = 4096


# Running a measured program.
def run(words, env):
    done = subprocess.run(words, capture_output=True, text=True, env={"PATH": os.environ["PATH"], **(env or {})})
    if done.returncode:
        sys.exit(f"{' '.join(words)}: status {done.returncode}\n{done.stderr}")
    return done


def total(words, env):
    if CALLGRIND:
        done = run(["valgrind", "--tool=callgrind", "--callgrind-out-file=/dev/null"] + words, env)
        return int(re.search(r"Collected : (\d+)", done.stderr)[1])
    done = run(["qemu-x86_64", "-cpu", "max", "-plugin", f"{TARGET}/icount.so"] + words, env)
    return int(re.search(r"total (\d+)", done.stderr)[1])


def count(program, *words, turns=(1, 2), env=None):
    """The instructions of one turn."""
    fewer, more = ([f"{TARGET}/{program}", *map(str, words), "count", str(n)] for n in turns)
    return total(more, env) - total(fewer, env)


def ask(how, program, *words, env=None):
    emulator = [] if NATIVE else ["qemu-x86_64", "-cpu", "max"]
    return run(emulator + [f"{TARGET}/{program}", *map(str, words), how, "0"], env).stdout.strip()


# A program takes the least of 30 runs; it is asked as often as this, so that it is the least of 150.
ROUNDS = 5


def nanoseconds(program, *words, env=None):
    return float(ask("time", program, *words, env=env))


def stack(turn, program, *words, env=None):
    """The bytes of stack that a call writes: those of its turn, less the turn's own frame."""
    own = stackuse.bounds([f"{TARGET}/{program}.o"], [turn])[turn][0]
    return int(ask("stack", program, *words, env=env)) - own


def image(name, heights):
    path = f"{TARGET}/{name}.image"
    with open(path, "wb") as f:
        f.write(rows.image(heights))
    return path


# Printing.
def number(x):
    return "–" if x is None else f"{x:,.0f}"


def line(cells):
    print("| " + " | ".join(cells) + " |")


def heading(title, text, cells):
    if title:
        print(f"\n## {title}\n")
    if text:
        print(text + "\n")
    line(cells)
    line(["---"] * len(cells))


# Digest. OpenSSL chooses its code by what the processor has; a mask hides that, so that each of its codes can be run.
DIGESTS = {
    "proved": "`sha256::digest`, through the C interface",
    "gcc-loop": "portable C, gcc -O3, loop",
    "gcc-unrolled": "portable C, gcc -O3, eight rounds to a turn",
    "clang-loop": "portable C, clang -O3, loop",
    "clang-unrolled": "portable C, clang -O3, eight rounds to a turn",
    "gcc-nested": "the same in the proved code's forms, gcc -O3",
    "clang-nested": "the same in the proved code's forms, clang -O3",
    "sha2": "Rust's `sha2`, soft code",
}
OPENSSL = {
    "scalar": {"OPENSSL_ia32cap": "~0x1000020000000000:~0x20000128"},
    "AVX2": {"OPENSSL_ia32cap": ":~0x20000000"},
}


class Digest:
    def __init__(self, program, env=None, counted=True):
        self.program, self.env, self.times = program, env, [None, None]
        self.checked(program, env)
        lengths = (1, 4, 32, 128, MOST - 64, MOST) if counted else ()
        self.count = {n: count(program, n, env=env) for n in lengths}
        self.block = self.count[MOST] - self.count[MOST - 64] if counted else None
        self.stack = stack("turn", program, MOST, env=env)

    @staticmethod
    def checked(program, env):
        message = bytes(i % 256 for i in range(MOST))
        for n in (0, 1, 32, 55, 56, 63, 64, 128, MOST):
            if ask("show", program, n, env=env) != hashlib.sha256(message[:n]).hexdigest():
                sys.exit(f"{program}: a wrong digest of {n} bytes")

    def timed(self):
        for i, n, blocks in (0, MOST, MOST // 64 + 1), (1, 32, 1):
            now = nanoseconds(self.program, n, env=self.env) / blocks
            self.times[i] = min(now, self.times[i] or now)

    def row(self, name, best):
        ratio = lambda x, y: f"{x:,.0f} ({x / y:.2f})" if x else "–"
        mine = [self.block, self.count.get(32), *self.times]
        block, short, *times = map(ratio, mine, best)
        line([name, block, short, number(self.count.get(128)), number(self.count.get(MOST)), *times, number(self.stack)])


def digests():
    found = {os.path.basename(p)[len("digest-"):] for p in glob.glob(f"{TARGET}/digest-*") if not p.endswith(".o")}
    portable = {k: Digest(f"digest-{k}") for k in DIGESTS if k in found}
    others = [d for k, d in portable.items() if k != "proved"]
    assembly = {}
    if "openssl" in found:
        assembly = {"OpenSSL, " + k: Digest("digest-openssl", mask) for k, mask in OPENSSL.items()}
        if NATIVE and "sha_ni" in open("/proc/cpuinfo").read():
            assembly["OpenSSL, SHA instructions (the counter does not know them)"] = Digest("digest-openssl", counted=False)
    for _ in range(ROUNDS if NATIVE else 0):
        for d in [*portable.values(), *assembly.values()]:
            d.timed()
    best = [min(d.block for d in others), min(d.count[32] for d in others)] + [min(d.times[i] for d in others) if NATIVE else None for i in (0, 1)]
    heading("Digest", "In brackets: the ratio to the best of the portable ones, column by column. Per block: 4,096 bytes less 4,032. Nanoseconds per block: those\n"
            "of 4,096 bytes, by their 65 blocks; the digests are timed in turn, five times round. Stack: the bytes that a call writes. OpenSSL's assembly\n"
            "stands here as a class of its own.",
            ["", "per 64-byte block", "32 bytes", "128 bytes", "4,096 bytes", "ns per block", "ns for 32 bytes", "stack"])
    for k, d in portable.items():
        d.row(DIGESTS[k], best)
    for name, d in assembly.items():
        d.row(name, best)
    for k in {"sha2", "openssl"} - found:
        print(f"\n`{k}` could not be had on this machine: not measured.")
    return portable["proved"]


# The bill of a call: the 64-byte blocks that its definition hashes, at what a block of a label's messages takes.
class Bill:
    def __init__(self, digest):
        c = digest.count
        self.label = c[1] + c[4] + 2 * c[32] + c[128]
        self.unit = self.label / rows.BLOCKS
        self.block = digest.block
        self.worst = {}

    def ratios(self, instructions, labels):
        blocks = labels * rows.BLOCKS
        return instructions / (blocks * self.unit), instructions / (blocks * self.block)

    def cell(self, call, instructions, labels):
        if not labels:
            return f"{instructions:,} (no label)"
        ratios = self.ratios(instructions, labels)
        self.worst[call] = max(self.worst.get(call, ratios), ratios)
        return "{:,} ({:.3f}; {:.3f})".format(instructions, *ratios)

    def slope(self, ends):
        """From the last figure but one to the last, of (k or n, instructions, labels)."""
        (k, a, x), (l, b, y) = ends[-2:]
        return "{:,.0f} ({:.3f}; {:.3f})".format((b - a) / (l - k), *self.ratios(b - a, y - x))

    def say(self):
        print("\n## What the calls are measured against\n")
        print(f"A label hashes a level (1 byte), a rank (4), two messages of 32 and one of 128: {rows.BLOCKS} blocks of 64 bytes. Those five digests, each called")
        print(f"through the C interface, take {self.label:,} instructions: **{self.unit:,.1f}** for each block of such short messages, against **{self.block:,}** for a")
        print("compression alone (the digest's figure per block). A cell has the call's instructions and, in brackets, two ratios: to the blocks that")
        print(f"its definition hashes at {self.unit:,.1f} each, its bill; and to the same blocks at {self.block:,} each.")

    def say_worst(self):
        heading("Worst ratios", None, ["call", "to the bill", "to the compressions alone"])
        for call, ratios in self.worst.items():
            line([call] + [f"{r:.3f}" for r in ratios])


# The gateway's calls.
COMMANDS = [
    ("Read", "read", 0),
    ("Replace", "replace", 0),
    ("Insert, height 0", "insert", 0),
    ("Insert, height 5", "insert", 5),
    ("Insert, height 15", "insert", 15),
    ("Delete", "delete", 0),
]
GATEWAY = {
    "all 0": {k: (rows.flat(k), k) for k in (0, 1, 16, 100, 200)},
    "of every level": {k: rows.stairs(k) for k in (16, 100, 200)},
    "drawn, n = 256": {len(rows.path(rows.drawn(256), 128)[0]): (rows.drawn(256), 128)},
}


def gateway_case(call, heights, p, height):
    """What calls.c is asked, and the labels that the call's definition hashes."""
    entries = rows.path(heights, p)[0]
    k, labels = str(len(entries)), 0
    if call == "delete":
        before = rows.path(heights, p - 1)[0]
        k, labels = f"{len(before)}/{k}", rows.delete(before, entries)
    else:
        labels = {"read": rows.read, "replace": rows.replace}.get(call, lambda n: rows.insert(n, height))(len(entries))
    return (call, image(f"row-{len(heights)}-{sum(heights)}", heights), p, height, k), labels


def gateway(bill):
    text = "By k, the entries of the proof (Delete: of its second one). A path to a block has at least one entry, so k = 0 is Insert's alone."
    for kind, cases in GATEWAY.items():
        many = len(cases) > 1
        heading(text and "Gateway", text, [f"heights {kind}"] + [f"k = {k}" for k in cases] + ["slope over k"] * many)
        text = None
        for name, call, height in COMMANDS:
            cells, ends = [], []
            for k, (heights, p) in cases.items():
                if k == 0 and call != "insert":
                    cells.append("–")
                    continue
                words, labels = gateway_case(call, heights, p, height)
                ends.append((k, count("calls", *words), labels))
                cells.append(bill.cell(f"gateway, {name}", *ends[-1][1:]))
            line([name] + cells + ([bill.slope(ends)] if many else []))
        print()


# The store's calls.
SIZES = (0, 16, 256, MOST)
STORE = {"drawn": (rows.drawn, lambda n: n // 2), "all 0": (rows.flat, lambda n: min(n // 2, 100))}


def store_case(call, kind, n):
    row, place = STORE[kind]
    heights, p = row(n), place(n)
    labels = rows.check(heights) if call == "check" else rows.prove(heights, p)
    return (call, image(f"row-{n}-{sum(heights)}", heights), p, 0, len(rows.path(heights, p)[0])), labels


def store(bill):
    text = "The position proved is n / 2, and at most 100 where all heights are 0. Slope: for each block from n = 256 to n = 4,096."
    for kind in STORE:
        heading(text and "Store", text, [f"heights {kind}"] + [f"n = {n:,}" for n in SIZES] + ["slope over n"])
        text = None
        for call in ("check", "prove"):
            ends = []
            for n in SIZES:
                words, labels = store_case(call, kind, n)
                ends.append((n, count("calls", *words), labels))
            line([call] + [bill.cell(f"store, {call}", *e[1:]) for e in ends] + [bill.slope(ends)])
        print()


# A joint proof against a proof for each position: of positions evenly spread, and of neighbours.
POSITIONS = 32
SETS = {"spread": (MOST // POSITIONS, MOST // POSITIONS), "neighbours": (MOST // 2 - POSITIONS // 2 + 1, 1)}


def set_words(name, heights, start, step):
    """What calls.c is asked of a set of positions, whose proofs are made and kept."""
    sizes = rows.proof_bytes(heights, range(start, start + POSITIONS * step, step))
    words = image(name, heights), start, step, "{}/{}".format(*sizes)
    ask("write", "calls", "prove-jointly", *words)
    return words, sizes


def joint():
    heading("Joint proof", f"One joint proof of {POSITIONS} positions, and a proof for each of them, at n = {MOST:,} with heights drawn. Spread: positions 128, 256, .. 4,096;\n"
            "neighbours: positions 2,033 to 2,064. Ratio: what the single ones take, to what the joint one takes. The thesis (source document 000, section\n"
            "4.4) has one proof of 460 among 500,000 blocks: up to 1.75 times as small and, at the server, 1.60 times as fast.",
            ["", *(f"{kind}: {what}" for kind in SETS for what in ("single", "joint", "ratio")), "thesis"])
    pairs = {"bytes": [], "prove": [], "check": []}
    for kind, at in SETS.items():
        words, (together, apart) = set_words(f"joint-{kind}", rows.drawn(MOST), *at)
        pairs["bytes"].append((apart, together))
        # A turn of the store's is long: a run of one turn less a run of none.
        for call, turns in ("prove", (0, 1)), ("check", (1, 2)):
            pairs[call].append([count("calls", f"{call}-{how}", *words, turns=turns) for how in ("singly", "jointly")])
    for call, name, thesis in ("bytes", "bytes", "1.75"), ("prove", "store, prove: instructions", "1.60"), ("check", "gateway, check: instructions", "–"):
        line([name] + [cell for x, y in pairs[call] for cell in (number(x), number(y), f"{x / y:.2f}")] + [thesis])


# A late block filed by its time in the middle of a row, beside the calls that a filing has in it.
FILED, READINGS, NEW_HEIGHT = (1000, MOST - 1), 1000, 5
PARTS = [
    ("Insert's check, with the proof of p", "file-insert"),
    ("Read's check, with the proof of p + 1", "file-read"),
    ("the tags of the three blocks", "file-tags"),
]
FILINGS = [("gateway, filing", "file"), ("gateway, filing refused with 15", "file-refused")]


def filing_words(name, heights, p):
    """What calls.c is asked of a filing, whose neighbours and proofs are made and kept."""
    entries = [len(rows.path(heights, q)[0]) for q in (p, p + 1)]
    words = image(name, heights), p, NEW_HEIGHT, "{}/{}".format(*entries)
    ask("write", "calls", "file", *words)
    return words, entries


def filing_case(n):
    return filing_words(f"filing-{n}", rows.drawn(n), n // 2)


def filing(bill):
    heading("Filing", f"A block of {READINGS:,} bytes filed by its time between two of the same length, after p = n / 2, heights drawn, its own {NEW_HEIGHT}; n is at most 4,095,\n"
            "since 4,096 is full. In brackets: the ratios to Insert's check, and to the three calls together. Refused with 15: the time is the next block's.",
            ["", *(f"n = {n:,}" for n in FILED)])
    cells = {name: [] for name, _ in PARTS + [("together", "")] + FILINGS}
    for n in FILED:
        words, entries = filing_case(n)
        own = {name: count("calls", call, *words) for name, call in PARTS + FILINGS}
        parts = [own[name] for name, _ in PARTS]
        own["together"] = sum(parts)
        bill.cell(FILINGS[0][0], own[FILINGS[0][0]], rows.filing(*entries, NEW_HEIGHT, READINGS))
        for name, row in cells.items():
            row.append(f"{own[name]:,} ({own[name] / parts[0]:.3f}; {own[name] / own['together']:.3f})")
    for name, row in cells.items():
        line([name, *row])


def apply():
    heading("Apply", "Heights drawn; nothing is hashed. Front: position 1 (Insert: after 0), so that every other record moves; back: the last position. Insert is\n"
            "taken at n = 4,095, since 4,096 is full.", ["", "front", "back", "for each height looked at", "for each byte moved"])
    for name, n in (("read", MOST), ("replace", MOST), ("insert", MOST - 1), ("delete", MOST)):
        file = image(f"row-{n}-drawn", rows.drawn(n))
        front, back = (count("calls", "apply-" + name, file, p, 3, 0) for p in ((0, n) if name == "insert" else (1, n)))
        moved = {"insert": 33 * n, "delete": 33 * (n - 1)}.get(name)
        line([name.capitalize(), number(front), number(back), f"{back / n:.2f}", f"{(front - back) / moved:.3f}" if moved else "–"])


# The digest of the longest message, and what hashes the same blocks.
WHOLE = [
    ("`sha256::digest` of 4,096 bytes", "digest"),
    ("`sha256::digest_joined` of 7 and 4,089 bytes", "joined"),
    ("`labels::tag` of a time and 4,089 bytes", "tag"),
    ("`labels::matches` of a time and 4,089 bytes", "matches"),
]
SHORT = [
    ("`labels::height`", "height"),
    ("`gateway::saved::save`", "save"),
    ("`gateway::saved::load`", "load"),
    (f"`times::place` after {MOST:,} times", "place"),
]


def short():
    empty = image("row-0-0", [])
    none = count("calls", "nothing", empty, 0, 0, 0)
    own = {call: count("calls", call, empty, 0, 0, 0) - none for _, call in WHOLE + SHORT}
    heading("Other calls", f"Less the {none} instructions of a turn that calls nothing. In brackets: the ratio to the digest's, where the same blocks are hashed.",
            ["", "instructions"])
    for name, call in WHOLE:
        line([name, f"{number(own[call])} ({own[call] / own['digest']:.4f})"])
    for name, call in SHORT:
        line([name, number(own[call])])


# The export, the calls that its stack is painted by, and their turn in calls.c.
STACKS = [
    ("qt_sha256_digest", ["digest"], "digest"),
    ("qt_sha256_digest_joined", ["joined"], "joined"),
    ("qt_labels_tag", ["tag"], "tag"),
    ("qt_labels_matches", ["matches"], "matches"),
    ("qt_labels_height", ["height"], "height"),
    ("qt_store_check", ["check"], "check"),
    ("qt_store_prove", ["prove"], "prove"),
    ("qt_store_apply", ["apply-read", "apply-replace", "apply-insert", "apply-delete"], "apply"),
    ("qt_shapes_shape", ["shape"], "shapes"),
    ("qt_gateway_check", ["read", "replace", "insert", "delete"], "gate"),
    ("qt_gateway_save", ["save"], "save"),
    ("qt_gateway_load", ["load"], "load"),
    ("qt_jointstore_prove", ["prove-jointly"], "prove_jointly"),
    ("qt_jointgateway_check", ["check-jointly"], "check_jointly"),
    ("qt_times_place", ["place"], "place"),
    ("qt_filer_file", ["file"], "file"),
]


# Of these the dearest way is told, and of the digest also what it takes without the C interface, as the gateway calls it.
WAYS = ["qt_sha256_digest", "qt_gateway_check", "qt_filer_file", "qt_jointgateway_check"]
INNER = "sha256::digest"


def stacks():
    heading("Stack", "In bytes, with the return address. Bound: the dearest way through the code that was compiled, without what memcpy, memmove and memset take.\n"
            "Written: by painting, on a row of 200 columns of every level; a joint proof is of 32 neighbours in it.", ["call", "bound", "written"])
    bound = stackuse.bounds([LIBRARY], [name for name, _, _ in STACKS] + [INNER])
    heights, p = rows.stairs(200)
    file, k = image("stack", heights), [len(rows.path(heights, q)[0]) for q in (p - 1, p)]
    many, late = set_words("stack-joint", heights, p - POSITIONS + 1, 1)[0], filing_words("stack-filing", heights, p)[0]
    own_words = {"delete": (file, p, 5, f"{k[0]}/{k[1]}"), "prove-jointly": many, "check-jointly": many, "file": late}
    for name, calls, turn in STACKS:
        deep = {c: stack(turn, "calls", c, *own_words.get(c, (file, p, 5, k[1]))) for c in calls}
        own = bound[name][3][0][1]
        if name == "qt_sha256_digest":
            line([f"`{INNER}`, without the C interface", number(bound[INNER][1]), number(max(deep.values()) - own)])
        for call, written in deep.items() if name in WAYS and len(calls) > 1 else [("", max(deep.values()))]:
            line([f"`{name}`" + (f", {call.capitalize()}" if call else ""), number(bound[name][1]), number(written)])
    print("\nThe dearest way, frame by frame:\n")
    for name in WAYS:
        print(f"- {number(bound[name][1])}: " + ", ".join(f"`{function}` {size}" for function, size in bound[name][3]))


def times():
    gate = {f"gateway, {name}": [gateway_case(call, *rows.stairs(k), height)[0] for k in (16, 200)] for name, call, height in COMMANDS}
    kept = {f"store, {call}": [store_case(call, "drawn", n)[0] for n in (256, MOST)] for call in ("check", "prove")}
    late = {name: [(call, *filing_case(n)[0]) for n in FILED] for name, call in FILINGS}
    best = {}
    for _ in range(ROUNDS):
        for words in [w for cases in [*gate.values(), *kept.values(), *late.values()] for w in cases]:
            now = nanoseconds("calls", *words)
            best[words] = min(now, best.get(words, now))
    for cases, title, text, ends in (
        (gate, "Time", "Microseconds of processor time, natively: the least of 150 runs. The calls are timed in turn, five times round.", ["k = 16", "k = 200"]),
        (kept, None, None, ["n = 256", "n = 4,096"]),
        (late, None, None, [f"n = {n:,}" for n in FILED]),
    ):
        heading(title, text, ["", *ends])
        for name, pair in cases.items():
            line([name] + [f"{best[words] / 1000:,.0f}" for words in pair])
        print(end="" if cases is late else "\n")


def main():
    for text in MACHINE + [f"Method: {METHOD}; a run of two turns less a run of one." + " Time: processor time, natively, the least of 150 runs." * NATIVE]:
        print("- " + text)
    digest = digests()
    bill = Bill(digest)
    bill.say()
    gateway(bill)
    store(bill)
    filing(bill)
    bill.say_worst()
    joint()
    apply()
    short()
    stacks()
    if NATIVE:
        times()


main()
