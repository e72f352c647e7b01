#!/usr/bin/env python3
"""How much stack each function of the library takes at most, whatever it is handed: the frames along every way of calls
through its code.

    objdump -dr --no-show-raw-insn libverity.a | stack.py

Prints the names of the functions that verity.h declares, and the bytes. On x86-64 the return addresses count, also that
of the function itself. What memcpy, memmove, memset and getauxval take themselves isn't known here. Code is refused in which
there is what this doesn't know, as a call by a pointer, a recursion or a frame of any size.
"""

import functools
import re
import sys

# Instructions of x86-64 and of 64-bit ARM that move the stack pointer by a number; that move it back; others that
# change it, and calls by a pointer; calls; and all that may go to another function.
INTEL = re.compile(r"(sub|add) \$(0x\w+),%rsp$")
ARM = re.compile(r"sub sp, sp, #(0x\w+)(, lsl #12)?$")
ARM_STORE = re.compile(r"\w+ .*\[sp(?:, #(-?\d+)\]!|\], #(-?\d+))$")
BACK = re.compile(r"pop |add sp, sp, |mov sp, x29$")
CHANGES = re.compile(r".*,%rsp$|\w+ sp, |.*\[sp(\], |.*\]!)|call \*|blr ")
CALL = re.compile(r"(call|bl) ")
JUMP = re.compile(r"(call|bl?|j\w+|b\.\w+|cbn?z|tbn?z) ")


def larger(instruction):
    """By how many bytes an instruction makes the frame larger, if it does."""
    if instruction.startswith("push "):
        return 8
    if found := INTEL.match(instruction):
        number = int(found[2], 16)
        number -= number >> 63 << 64
        return max(0, number if found[1] == "sub" else -number)
    if found := ARM.match(instruction):
        return int(found[1], 16) << (12 if found[2] else 0)
    if found := ARM_STORE.match(instruction):
        return max(0, -int(found[1] or found[2]))
    if CHANGES.match(instruction) and not BACK.match(instruction):
        sys.exit(f"not known: {instruction}")
    return 0


text = sys.stdin.read()
return_address = 8 if "%rsp" in text else 0
frames, ways = {name: 0 for name in ("memcpy", "memmove", "memset", "getauxval")}, {}
function = instruction = ""
for line in text.split("\n"):
    line = " ".join(line.split("//")[0].split())
    if found := re.match(r"\w+: R_\w+ (\.text\.)?(.+?)([-+]0x\w+)?$", line):
        if JUMP.match(instruction):
            ways[function].add(found[2])
        elif found[1]:
            sys.exit(f"not known: the address of {found[2]}")
        instruction = ""
    elif CALL.match(instruction) or JUMP.match(instruction) and "<" in instruction.replace(f"<{function}", ""):
        sys.exit(f"not known: {instruction} in {function}")
    elif found := re.match(r"\w+ <(.+)>:$", line):
        function, instruction = found[1], ""
        frames[function], ways[function] = 0, set()
    elif found := re.match(r"\w+: (.+)$", line):
        instruction = found[1]
        frames[function] += larger(instruction)


@functools.cache
def most(name):
    """The most bytes that a function takes. A jump to another counts as a call."""
    return return_address + frames[name] + max(map(most, ways.get(name, ())), default=0)


for name in sorted(frames):
    if re.fullmatch(r"(fs)?verity_[a-z_]+", name):
        print(name, most(name))
