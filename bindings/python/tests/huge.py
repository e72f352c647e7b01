"""The digest of more than 4 GiB of zeros, which are handed over at once. It takes longer than all other tests together,
so tests/bindings/python.sh runs it with HUGE=yes alone. The last line is 'N passed, M failed'."""

import mmap
import os
import sys

import verity

sys.path.insert(1, os.path.join(os.path.dirname(os.path.abspath(__file__)), "..", "..", "..", "tests", "lib"))
from trees import FS_VERITY, Settings, file_digest, root_of_zeros

SIZE = (4 << 30) + 4097
settings = Settings("sha256", 4096, 4096, b"", -(-SIZE // 4096), FS_VERITY)
with mmap.mmap(-1, SIZE, prot=mmap.PROT_READ) as zeros:
    passed = verity.FileDigest(zeros).digest() == file_digest(settings, SIZE, root_of_zeros(settings))
print(f"{int(passed)} passed, {int(not passed)} failed")
sys.exit(not passed)
