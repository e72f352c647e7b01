"""Prints a digest of a file, which is read in pieces of 64 KiB: digest.py update|slices|file_digest|sha256 FILE. The
first three are its fs-verity digest; slices reads all pieces into one buffer, and file_digest has pieces of its own."""

import hashlib
import sys

import verity

way, name = sys.argv[1:]
if way not in ("update", "slices", "file_digest", "sha256"):
    sys.exit(f"digest.py: no such way: {way}")
with open(name, "rb", buffering=0) as file:
    if way == "file_digest":
        digest = verity.file_digest(file)
    elif way == "slices":
        digest, buffer = verity.FileDigest(), memoryview(bytearray(65536))
        while count := file.readinto(buffer):
            digest.update(buffer[:count])
    else:
        digest = hashlib.sha256() if way == "sha256" else verity.FileDigest()
        while piece := file.read(65536):
            digest.update(piece)
print(digest.hexdigest())
