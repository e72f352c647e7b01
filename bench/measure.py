"""Measures the programs in bin/ beside Debian's, as bench/bench.sh says: python3 bench/measure.py SCRATCH-FOLDER.

What counts is the processor's time, in the program and in the system for it, so that what else runs disturbs little; and
of each command the least time of all rounds. In a round each command runs once, by one program right after the other,
and every other round goes backwards.
"""

import os
import re
import subprocess
import sys

SCRATCH = sys.argv[1]
SIZE = int(os.environ.get("SIZE", "32"))
FILES = int(os.environ.get("FILES", "3000"))
ROUNDS = int(os.environ.get("ROUNDS", "15"))
WITHOUT_SHA = os.environ.get("SHA") == "no"
SALT = "07" * 32
BLOCKS = [(name, size) for name in ("sha256", "sha512", "sha1") for size in (512, 4096, 16384, 65536, 262144)]
OURS = {name: os.path.abspath(f"bin/{name}") for name in ("fsverity", "veritysetup", "bench_bare")}
DEBIANS = {name: name for name in ("fsverity", "veritysetup")}
PROGRAMS = {"here": OURS, "Debian's": DEBIANS}
OTHER = os.environ.get("OTHER")
if OTHER:
    others = {name: os.path.abspath(f"{OTHER}/bin/{name}") for name in OURS}
    PROGRAMS["OTHER's"] = {name: program for name, program in others.items() if os.path.exists(program)}


def at(name):
    """A path in the folder for what is measured."""
    return f"{SCRATCH}/{name}"


def seconds(words):
    """Runs a command, which has to end with 0, and returns the processor's time that it took."""
    quiet = [(os.POSIX_SPAWN_OPEN, stream, "/dev/null", os.O_WRONLY, 0) for stream in (1, 2)]
    pid = os.posix_spawnp(words[0], words, os.environ, file_actions=quiet)
    _, status, used = os.wait4(pid, 0)
    if status:
        sys.exit(f"{' '.join(words[:12])} ended with status {os.waitstatus_to_exitcode(status)}")
    return used.ru_utime + used.ru_stime


def least(commands):
    """Returns the least time of each command of a dictionary; one that writes an image at `made` makes it anew."""
    best = dict.fromkeys(sorted(commands, key=lambda name: name[:-1]), float("inf"))
    for turn in range(ROUNDS):
        for name in list(best)[:: 1 - turn % 2 * 2]:
            if os.path.exists(at("made")):
                os.remove(at("made"))
            best[name] = min(best[name], seconds(commands[name]))
    return best


def format_words(program, function, block, image, data="data"):
    sizes = [f"--data-block-size={block}", f"--hash-block-size={block}"]
    return [program, "format", f"--hash={function}", *sizes, f"--salt={SALT}", at(data), image]


def block_commands(function, block):
    """The commands over blocks of one size. All programs verify one image, of which this makes the root hash."""
    image = at(f"{function}.{block}")
    report = subprocess.run(format_words(OURS["veritysetup"], function, block, image), capture_output=True, text=True, check=True)
    root = re.search(r"^Root hash:\s*(\w+)$", report.stdout, re.M)[1]
    found = {}
    for who, programs in PROGRAMS.items():
        found["format", who] = format_words(programs["veritysetup"], function, block, at("made"))
        found["verify", who] = [programs["veritysetup"], "verify", at("data"), image, root]
        words = ["digest", f"--hash-alg={function}", f"--block-size={block}", f"--salt={SALT}", at("data")]
        if function != "sha1":
            found["digest", who] = [programs["fsverity"], *words]
        for way in ("crates", "alone") if "bench_bare" in programs else ():
            found[way, who] = [programs["bench_bare"], way, function, str(block), at("data")]
    return {(function, block, *name): words for name, words in found.items()}


def table(heads, rows):
    """Prints a table, of which the heads that end with a colon are of numbers."""
    print(f"\n| {' | '.join(it.rstrip(':') for it in heads)} |")
    print(f"|{'|'.join('--:' if it.endswith(':') else '---' for it in heads)}|")
    for row in rows:
        print(f"| {' | '.join(row)} |")


def beside(best, *name):
    """How many times as fast a command of this name is here as by the programs in OTHER, if there are both."""
    here, other = (best.get((*name, who)) for who in ("here", "OTHER's"))
    return f"{other / here:.2f}" if here and other else ""


def throughput():
    commands = {}
    for function, block in BLOCKS:
        commands.update(block_commands(function, block))
    best = least(commands)
    rows = []
    for function, block in BLOCKS:
        bare, alone = (best[function, block, way, "here"] for way in ("crates", "alone"))
        row = [function, str(block), f"{SIZE / bare:.0f}", f"{SIZE / alone:.0f} ({bare / alone:.2f})"]
        for command in ("format", "verify", "digest"):
            here, other = (best.get((function, block, command, who)) for who in ("here", "Debian's"))
            row.append(f"{SIZE / here:.0f} ({other / here:.2f})" if here else "")
        rows.append(row)
    table(["Function", "Block:", "bare:", "alone:", "format:", "verify:", "digest:"], rows)
    if OTHER:
        ways = ("crates", "alone", "format", "verify", "digest")
        rows = [[name, str(size), *(beside(best, name, size, way) for way in ways)] for name, size in BLOCKS]
        table(["Times OTHER's speed", "Block:", "bare:", "alone:", "format:", "verify:", "digest:"], rows)


def files(folder, count, length):
    """Makes a folder of files of one length, of which each holds its number, and returns their names."""
    os.mkdir(at(folder))
    names = [at(f"{folder}/{number}") for number in range(count)]
    for number, name in enumerate(names):
        with open(name, "w", encoding="ascii") as it:
            it.write(f"{number:{length}}")
    return names


def gibibyte(name, parts_of_zeros):
    """Makes DATA of 1 GiB, of which so many of four parts are zeros, again and again."""
    with open(at("data"), "rb") as it:
        part = it.read(1 << 20)
    with open(at(name), "wb") as it:
        for _ in range(256):
            it.write(part * (4 - parts_of_zeros) + bytes(len(part) * parts_of_zeros))


def single_commands():
    gibibyte("full", 0)
    gibibyte("zeros", 3)
    few, long, many = files("few", FILES, 1000), files("long", FILES, 20000), files("many", 20 * FILES // 3, 500)
    open(at("empty"), "w", encoding="ascii").close()
    commands = {}
    for who, programs in PROGRAMS.items():
        for data, what in (("full", ""), ("zeros", ", three quarters of it zeros")):
            words = format_words(programs["veritysetup"], "sha256", 4096, at("made"), data)
            commands[f"`veritysetup format`, 1 GiB{what}", who] = words
        digest = [programs["fsverity"], "digest"]
        commands[f"`fsverity digest`, {len(few)} files of 1000 bytes", who] = [*digest, *few]
        commands[f"`fsverity digest`, {len(long)} files of 20000 bytes", who] = [*digest, *long]
        large = [*digest, "--block-size=65536", *many]
        commands[f"`fsverity digest --block-size=65536`, {len(many)} files of 500 bytes", who] = large
        commands["`fsverity digest`, an empty file: its start-up", who] = [*digest, at("empty")]
        commands["`veritysetup dump`: its start-up", who] = [programs["veritysetup"], "dump", at("sha256.4096")]
    best = least(commands)
    rows = []
    for name in dict.fromkeys(name for name, _ in commands):
        here, other = (best[name, who] * 1000 for who in ("here", "Debian's"))
        rows.append([name, f"{here:.2f}", f"{other:.2f}", f"{other / here:.2f}"])
        if OTHER:
            rows[-1].append(beside(best, name))
    heads = ["Milliseconds of processor time", "here:", "Debian's:", "Debian's / here:", "OTHER's / here:"]
    table(heads[: len(rows[0])], rows)


def peak(words):
    """The most memory that a command, which runs in the folder for what is measured, held, in KiB."""
    if os.path.exists(at("made")):
        os.remove(at("made"))
    command = ["/usr/bin/time", "-o", at("peak"), "-f", "%M", *words]
    subprocess.run(command, stdout=subprocess.DEVNULL, check=True, cwd=SCRATCH)
    with open(at("peak"), encoding="ascii") as it:
        return it.read().strip()


def memory():
    for name, size in (("little", 1 << 20), ("much", 1 << 30)):
        with open(at(name), "w", encoding="ascii") as it:
            it.truncate(size)
    rows = []
    for command in ("format", "digest"):
        row = [f"`veritysetup {command}`" if command == "format" else f"`fsverity {command}`"]
        for programs in PROGRAMS.values():
            for data in (at("little"), at("much")):
                if command == "format":
                    row.append(peak([programs["veritysetup"], command, "--salt=-", data, at("made")]))
                else:
                    row.append(peak([programs["fsverity"], command, data]))
        rows.append(row)
    heads = ["Peak memory, KiB", "here, 1 MiB of data:", "here, 1 GiB:", "Debian's, 1 MiB:", "Debian's, 1 GiB:"]
    heads += ["OTHER's, 1 MiB:", "OTHER's, 1 GiB:"]
    table(heads[: len(rows[0])], rows)
    name = "a-name-of-25-characters__"
    with open(at(name), "w", encoding="ascii") as it:
        it.write("a")
    counts = (1, 10000, 50000)
    rows = [
        [f"`fsverity digest`, {who}"] + [peak([programs["fsverity"], "digest", *[name] * count]) for count in counts]
        for who, programs in PROGRAMS.items()
    ]
    table(["Peak memory, KiB", "one name:", "10,000 names of 25 characters:", "50,000 names:"], rows)


def version(name):
    """The version that one of Debian's programs says that it is."""
    said = subprocess.run([name, "--version"], capture_output=True, text=True, check=True).stdout
    return re.search(r"[0-9][0-9.]+", said)[0]


def surroundings():
    """Prints on what is measured."""
    with open("/proc/cpuinfo", encoding="utf-8") as it:
        text = it.read()
    name = re.search(r"^model name\s*: *(.*)$", text, re.M)
    flags = re.search(r"^flags\s*:(.*)$", text, re.M)[1].split()
    avx2 = "with AVX2" if "avx2" in flags else "without AVX2"
    sha = "with SHA instructions" if "sha_ni" in flags else "without SHA instructions"
    if WITHOUT_SHA and "sha_ni" in flags:
        sha += ", from which all are kept"
    built = set()
    for program in (*OURS.values(), *PROGRAMS.get("OTHER's", {}).values()):
        with open(f"{program}.made", encoding="ascii") as it:
            built.add(it.readline().strip())
    print(f"Programs built for {' and '.join(sorted(built))}, on one core of an {name[1] if name else 'unknown processor'},")
    print(f"{avx2} and {sha}, beside veritysetup {version('veritysetup')} and fsverity {version('fsverity')}:")
    print(f"MiB a second of processor time, for {SIZE} MiB in the page cache with a salt of 32 bytes, the best of {ROUNDS}")
    print("rounds; in brackets, how many times Debian's speed that is. `bare` is the hashing of the same blocks, one after")
    print("another, by the crates `sha1` and `sha2`; `alone` is that by the function that the programs use for one block, in")
    print("brackets beside `bare`.")


if WITHOUT_SHA:
    # OPENSSL_ia32cap(3): Debian's programs hash by OpenSSL, which leaves out what is switched off here.
    os.environ["OPENSSL_ia32cap"] = ":~0x20000000"
    os.environ["VERITY_PROCESSOR"] = "x86-64-v3"
with open(at("data"), "wb") as data:
    data.write(b"".join(b"%d\n" % number for number in range((SIZE << 20) // 6))[: SIZE << 20].ljust(SIZE << 20, b"."))
surroundings()
throughput()
single_commands()
memory()
