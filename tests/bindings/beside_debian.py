"""The binding for Python beside Debian's fsverity and veritysetup, over random settings, images and changed bytes:

    beside_debian.py FOLDER SEED FILES IMAGES

FOLDER takes the files. The last line is 'N passed, M failed'.
"""

import os
import random
import re
import subprocess
import sys

import verity

FOLDER, SEED, FILES, IMAGES = sys.argv[1], *map(int, sys.argv[2:])
numbers = random.Random(SEED)
passed = failed = 0


def same(what, stated, found):
    global passed, failed
    if stated == found:
        passed += 1
    else:
        failed += 1
        print(f"FAILED {what}\n    expected: {stated!r:.200}\n    found:    {found!r:.200}")


def written(name, data):
    path = os.path.join(FOLDER, name)
    with open(path, "wb") as file:
        file.write(data)
    return path


def said(*words):
    return subprocess.run(words, capture_output=True, text=True, check=True).stdout


def pieces(data, most):
    """The data in pieces of random lengths and kinds."""
    at = 0
    while at < len(data):
        piece = data[at : at + numbers.randrange(most) + 1]
        at += len(piece)
        yield numbers.choice((bytes, bytearray, memoryview))(piece)


def a_file():
    name, block = numbers.choice(("sha256", "sha512")), 1024 << numbers.randrange(3)
    salt, about = numbers.randbytes(numbers.randrange(33)), block * numbers.choice((0, 1, 2, 16, 32, 64, 128, 129))
    data = numbers.randbytes(max(0, about + numbers.choice((-1, 0, 1, numbers.randrange(block)))))
    path = written("file", data)
    words = [f"--hash-alg={name}", f"--block-size={block}", f"--salt={salt.hex()}"]
    stated = said("fsverity", "digest", "--compact", *words, path).strip()
    digest = verity.FileDigest(name=name, block_size=block, salt=salt)
    for piece in pieces(data, numbers.choice((100, 5000, 1 << 20))):
        digest.update(piece)
    settings = f"{words}, {len(data)} bytes"
    same(settings, stated, digest.hexdigest())
    with open(path, "rb") as file:
        found = verity.file_digest(file, name=name, block_size=block, salt=salt)
    same(f"{settings}, as a file", stated, found.hexdigest())
    if data:
        at = numbers.randrange(len(data))
        changed = verity.FileDigest(data[:at], name=name, block_size=block, salt=salt)
        changed.update(bytes([data[at] ^ 1 << numbers.randrange(8)]) + data[at + 1 :])
        same(f"{settings}, byte {at} changed", False, stated == changed.hexdigest())


def an_image():
    name, kind = numbers.choice(("sha256", "sha512", "sha1", "sha384")), numbers.randrange(2)
    size, hash_block_size = (512 << numbers.randrange(5) for _ in range(2))
    count = numbers.choice((2, 8, 9, 17, 129, numbers.randrange(2, 400)))
    salt = numbers.randbytes(numbers.randrange(257))
    bare, uuid = numbers.randrange(2) == 1, "00112233-4455-4677-8899-aabbccddeeff"
    offset = numbers.randrange(4) * (hash_block_size if bare else 4096)
    data = numbers.randbytes(count * size)
    image, path = written("image", data), written("hashes", bytes(offset))
    words = [f"--hash={name}", f"--format={kind}", f"--data-block-size={size}", f"--hash-block-size={hash_block_size}"]
    words += [f"--salt={salt.hex() or '-'}", f"--hash-offset={offset}", "--no-superblock" if bare else f"--uuid={uuid}"]
    report = said("veritysetup", "format", *words, image, path)
    root = bytes.fromhex(re.search(r"^Root hash:\s*(\w+)$", report, re.M)[1])
    settings = f"{words}, {count} blocks"
    bytes_of_uuid = bytes(16) if bare else bytes.fromhex(uuid.replace("-", ""))
    params = verity.Params(count, name, kind, size, hash_block_size, offset, bare, salt, bytes_of_uuid)
    with open(path, "rb") as file:
        stated = file.read()
    if not bare:
        same(f"{settings}: superblock", params, verity.Params.from_superblock(stated[offset:], offset))
        same(f"{settings}: bytes of the superblock", stated[offset : offset + 512], params.superblock())
    tree, found = verity.TreeBuilder(params), bytearray(stated[: offset + 512 * (not bare)].ljust(len(stated), b"\0"))
    for piece in pieces(data, numbers.choice((1000, 100000, 1 << 22))):
        for block in tree.feed(piece):
            found[block.start : block.start + len(block.data)] = block.data
    same(f"{settings}: root hash", root, tree.root_hash())
    same(f"{settings}: hash blocks", stated, bytes(found))
    changed(settings, params, data, stated, root, image, path)


def changed(settings, params, data, hashes, root, image, path):
    """Changes a byte: all can be read but what is below it, and Debian's program refuses the image, too."""
    size, hash_block_size, every = params.data_block_size, params.hash_block_size, range(params.data_blocks)
    tree_begin = params.level_start(params.level_count - 1)[0]
    at = numbers.randrange(len(data) + len(hashes) - tree_begin)
    bit = 1 << numbers.randrange(8)
    if at < len(data):
        what, bad = f"data byte {at}", {at // size}
        data = data[:at] + bytes([data[at] ^ bit]) + data[at + 1 :]
        written("image", data)
    else:
        at += tree_begin - len(data)
        what, start = f"hash byte {at}", at // hash_block_size * hash_block_size
        bad = {i for i in every for n in range(params.level_count) if params.hash_block_start(i, n) == start}
        hashes = hashes[:at] + bytes([hashes[at] ^ bit]) + hashes[at + 1 :]
        written("hashes", hashes)
    refused, wrong = set(), 0
    with open(image, "rb") as one, open(path, "rb", buffering=0) as other:
        file = verity.CheckedFile(one, other, params, root)
        for index in every:
            file.seek(index * size)
            try:
                wrong += file.read(size) != data[index * size : (index + 1) * size]
            except verity.Differs:
                refused.add(index)
    same(f"{settings}, {what}: refused blocks", bad, refused)
    same(f"{settings}, {what}: other bytes handed out", 0, wrong)
    alone = set()
    for index in every:
        starts = [params.hash_block_start(index, level) for level in range(params.level_count)]
        blocks = b"".join(hashes[start : start + hash_block_size] for start in starts)
        try:
            verity.check_block(params, index, data[index * size : (index + 1) * size], blocks, root)
        except verity.Differs:
            alone.add(index)
    same(f"{settings}, {what}: refused by check_block", bad, alone)
    words = ["--no-superblock", f"--hash={params.hash_algorithm}", f"--format={params.hash_type}"]
    words += [f"--data-blocks={params.data_blocks}", f"--data-block-size={size}"]
    words += [f"--hash-block-size={hash_block_size}", f"--salt={params.salt.hex() or '-'}"]
    words += [f"--hash-offset={params.hash_offset}"]
    if not params.no_superblock:
        words = [f"--hash-offset={params.hash_offset}"]
    done = subprocess.run(["veritysetup", "verify", *words, image, path, root.hex()], capture_output=True, text=True)
    same(f"{settings}, {what}: Debian's program refuses it", bool(bad), done.returncode != 0)


for _ in range(FILES):
    a_file()
for _ in range(IMAGES):
    an_image()
print(f"{passed} passed, {failed} failed")
sys.exit(failed > 0)
