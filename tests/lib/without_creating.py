"""Runs the command of its arguments under a filter of system calls (seccomp(2)): to open a file with O_CREAT is refused
as the kernel refuses it for files of others in a sticky folder, but for any file."""
import ctypes
import errno
import os
import struct
import sys

OPENAT = {"x86_64": 257, "aarch64": 56}[os.uname().machine]
FLAGS_AT = 16 + 2 * 8  # where the third argument of a call stands, after its number, its processor and its place
NO_NEW_PRIVILEGES, SECCOMP, FILTER = 38, 22, 2

STEPS = (
    (0x20, 0, 0, 0),  # load the number of the call
    (0x15, 0, 4, OPENAT),
    (0x20, 0, 0, FLAGS_AT),
    (0x54, 0, 0, os.O_CREAT | os.O_EXCL),  # with O_EXCL a file that is there is found before it is refused
    (0x15, 0, 1, os.O_CREAT),
    (0x06, 0, 0, 0x00050000 | errno.EACCES),
    (0x06, 0, 0, 0x7FFF0000),  # allow it
)
steps = ctypes.create_string_buffer(b"".join(struct.pack("HBBI", *step) for step in STEPS))
program = struct.pack("HP", len(STEPS), ctypes.addressof(steps))
libc = ctypes.CDLL(None)
if libc.prctl(NO_NEW_PRIVILEGES, 1, 0, 0, 0) or libc.prctl(SECCOMP, FILTER, program):
    sys.exit("no filter of system calls can be set here")
os.execvp(sys.argv[1], sys.argv[1:])
