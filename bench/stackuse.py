"""The stack that an x86-64 function needs at most, read from its code (objects, archives or programs): each function's frame at its
deepest, with its return address and the red zone it uses, and the dearest way through what it calls. A call that is not in the files
(memcpy) counts as nothing. A jump through a table may lead to any block of its function, whose frame then is as deep as at the jump.
bounds(files, names) answers {name: (bytes of the frame, bytes in all, calls that were not found, the dearest way)}, the way as
[(function, bytes of it)] from the name downwards."""
import re
import subprocess
import sys

sys.setrecursionlimit(10000)


def functions(files):
    """The code of each function, as [address, instruction, symbol called through a relocation], and a name for each place."""
    code, places, current = {}, {}, None
    for file in files:
        listing = subprocess.run(["x86_64-linux-gnu-objdump", "-dr", "--no-show-raw-insn", "-w", file], capture_output=True, text=True)
        for line in listing.stdout.split("\n"):
            if m := re.match(r"([0-9a-f]+) <(.*)>:$", line):
                key = m[2] if m[2] not in code else f"{m[2]}@{m[1]}"
                current = code[key] = []
                places[m[2], int(m[1], 16)] = key
            elif m := re.match(r"\s+([0-9a-f]+):\s+([^\t#]*)(?:.*\t[0-9a-f]+: R_X86_64_P\w+\s+(?:\.text\.)?(\S+?)[-+]0x)?", line):
                current.append((int(m[1], 16), m[2].strip(), m[3]))
    return code, places


def depth_after(depth, probe, text):
    """The depth after an instruction, and the depth that a frame of many pages, probed in a loop, is going to have."""
    op = text.split()[0] if text else ""
    if op == "push":
        return depth + 8, probe
    if op == "pop":
        return depth - 8, probe
    if m := re.match(r"(sub|add)q?\s+\$(-?0x[0-9a-f]+),%rsp", text):
        return depth + int(m[2], 16) * (1 if m[1] == "sub" else -1), probe
    if m := re.match(r"and\s+\$0x(f+)([0-9a-f]0*),%rsp", text):
        return depth + (16 - int(m[2][0], 16)) * 16 ** (len(m[2]) - 1) - 8, probe
    if m := re.match(r"(?:lea\s+-|sub\s+\$)(0x[0-9a-f]+)(?:\(%rsp\))?,%r11", text):
        return depth, depth + int(m[1], 16)
    if re.match(r"cmp\s+%r11,%rsp", text) and probe:
        return probe, probe
    if m := re.match(r"lea\s+-(0x[0-9a-f]+)\(%rbp\),%rsp", text):
        return 16 + int(m[1], 16), probe
    if re.match(r"mov\s+%rbp,%rsp|leave", text):
        return (8 if op == "leave" else 16), probe
    return depth, probe


def frame(name, code, places):
    """The deepest byte of a function, and its calls with the depth at each."""
    body = code[name]
    at = {a: k for k, (a, _, _) in enumerate(body)}
    blocks = [k + 1 for k, (_, text, _) in enumerate(body[:-1]) if re.match(r"jmp|ret|ud2", text)]
    deepest, calls, seen, pending = 8, [], set(), [(0, 8, None)]
    while pending:
        k, depth, probe = pending.pop()
        while k < len(body) and k not in seen:
            seen.add(k)
            _, text, symbol = body[k]
            op = text.split()[0] if text else ""
            k += 1
            depth, probe = depth_after(depth, probe, text)
            zone = [int(x, 16) for x in re.findall(r"-(0x[0-9a-f]+)\(%rsp", text)] if op != "lea" else []
            deepest = max([deepest, depth] + [depth + z for z in zone])
            jump = re.match(r"j\w+\s+([0-9a-f]+)\b", text)
            inside = jump and int(jump[1], 16) in at
            if op == "call":
                calls.append((depth, callee(text, symbol, places)))
            elif op == "ret" or op.startswith("ud2"):
                break
            elif op == "jmp" and "*%" in text:
                pending += [(i, depth, probe) for i in blocks if i not in seen]
                break
            elif op == "jmp" and (symbol or not inside):
                calls.append((depth - 8, callee(text, symbol, places)))
                break
            elif inside:
                pending.append((at[int(jump[1], 16)], depth, probe))
                if op == "jmp":
                    break
    return deepest, calls


def callee(text, symbol, places):
    m = re.search(r"([0-9a-f]+) <([^>+]*)>", text)
    if "*" in text:
        return "*"
    return symbol or (places.get((m[2], int(m[1], 16)), m[2]) if m else "*")


def bounds(files, names):
    code, places = functions(files)
    known, busy = {}, set()

    def whole(name):
        if name in known:
            return known[name]
        if name not in code or name in busy:
            return 0, {"recursion" if name in busy else name}, []
        busy.add(name)
        total, calls = frame(name, code, places)
        lost, way = set(), [(name, total)]
        for depth, other in calls:
            below, missing, down = whole(other)
            lost |= missing
            if depth + below > total:
                total, way = depth + below, [(name, depth)] + down
        busy.discard(name)
        known[name] = total, lost, way
        return known[name]

    return {name: (frame(name, code, places)[0], *whole(name)) for name in names}
