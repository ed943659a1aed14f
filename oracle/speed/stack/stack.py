#!/usr/bin/env python3
"""How deep a program's stack goes below one function: objdump's listing gives each function's frame (what it pushes and takes off the stack
pointer) and its calls; the answer is the deepest path. Started by `oracle/speed/run stack PROGRAM PART_OF_A_FUNCTION'S_NAME`."""

import re
import subprocess
import sys


def listing(program):
    """Each function's frame in bytes, and the functions that it calls or jumps to."""
    text = subprocess.run(["objdump", "-d", "--no-show-raw-insn", program], capture_output=True, text=True, check=True).stdout
    frames, calls, name = {}, {}, None
    for line in text.splitlines():
        head = re.match(r"[0-9a-f]+ <(.+)>:$", line)
        if head:
            name = head.group(1)
            frames[name], calls[name] = 8, set()
            continue
        if name is None:
            continue
        if re.search(r"\tpush ", line):
            frames[name] += 8
        taken = re.search(r"\tsub +\$0x([0-9a-f]+),%rsp", line)
        if taken and int(taken.group(1), 16) < 1 << 63:  # a negative number is given back
            frames[name] += int(taken.group(1), 16)
        called = re.search(r"\t(call|jmp) +[0-9a-f]+ <([^+>]+)>", line)
        if called and (called.group(1) == "call" or called.group(2) != name):  # a jump to its own start is a loop
            calls[name].add(called.group(2))
        if re.search(r"\tcall +\*", line):
            calls[name].add("?")
    return frames, calls


def deepest(name, frames, calls, above, known):
    """The deepest path from a function, with its bytes. A function above itself would be recursion."""
    if name == "?":
        sys.exit("a call that the listing doesn't name")
    if name in above:
        sys.exit(f"recursion: {name}")
    if name not in known:
        paths = [deepest(next_, frames, calls, above | {name}, known) for next_ in sorted(calls.get(name, ()))]
        best = max(paths, default=(0, []))
        known[name] = (frames.get(name, 0) + best[0], [name, *best[1]])
    return known[name]


def main():
    program, part = sys.argv[1:]
    frames, calls = listing(program)
    found = [name for name in frames if name == part] or [name for name in frames if part in name]
    if len(found) != 1:
        sys.exit(f"{len(found)} functions have that in their name: {found[:20]}")
    total, path = deepest(found[0], frames, calls, frozenset(), {})
    for name in path:
        print(f"{frames.get(name, 0):8} {name}")
    print(f"{total:8} bytes in all")


main()
