#!/usr/bin/env python3
"""Lists where the archive's basic blocks begin in a linked program: blocks.py ARCHIVE PROGRAM.

Each line is an offset from the function shr_write, in decimal, and the function's name. The archive itself has no
instrumentation; a trap at each of these places gives the fuzzer its coverage."""
import re
import subprocess
import sys

BRANCH = re.compile(r"\s(?:notrack )?(j\w+|ret\w*|ud2|hlt)\b\s*([0-9a-f]+)?")
LINE = re.compile(r"^\s*([0-9a-f]+):\t(.*)$")
PADDING = re.compile(r"^(?:data16 |cs )*(?:nop|int3|xchg +%ax,%ax)")


def out(*words):
    return subprocess.run(words, check=True, capture_output=True, text=True).stdout


def functions(archive):
    lines = out("nm", archive).splitlines()
    return {x.split(None, 2)[2] for x in lines if re.match(r"^[0-9a-f]+ [tT] ", x)}


def leaders(code):
    """The function's first instruction, each target of a jump inside it, and what follows a jump."""
    here = {address for address, _ in code}
    found = {code[0][0]}
    for (_, text), (after, following) in zip(code, code[1:] + [(None, "nop")]):
        branch = BRANCH.match(" " + text)
        if not branch:
            continue
        if branch[2] and int(branch[2], 16) in here:
            found.add(int(branch[2], 16))
        if after is not None and not PADDING.match(following):
            found.add(after)
    return found


def disassembly(program):
    """Each function's name and instructions."""
    name, code = None, []
    for line in out("objdump", "-d", "--no-show-raw-insn", program).splitlines():
        head = re.match(r"^[0-9a-f]+ <(.*)>:$", line)
        if head:
            if code:
                yield name, code
            name, code = head[1], []
        elif LINE.match(line):
            address, text = LINE.match(line).groups()
            code.append((int(address, 16), text))
    if code:
        yield name, code


def main(archive, program):
    wanted = functions(archive)
    found = [(name, code) for name, code in disassembly(program) if name in wanted]
    base = next(code[0][0] for name, code in found if name == "shr_write")
    for name, code in found:
        for address in sorted(leaders(code)):
            print(address - base, name)


main(*sys.argv[1:])
