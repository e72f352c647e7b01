"""The rows of docs/DIFFERENCES.md, as far as command lines show them. Each is a function of a case, of our outcome and
of that of Debian's program, and answers which of the differences found are what the row says. The text of a row is its
first cell."""

import re

from lines import DEVICES, OTHER_SPELLINGS, PIPE, PROC_FILE
from reading import OUTPUTS
from veritysetup_expected import ALGORITHMS

STATUS, LINES, NAMED, FILES, MODES = "status", "lines", "line of the UUID", "files", "modes of new files"
ALL = {STATUS, LINES, NAMED, FILES, MODES}
UUID_LINE = re.compile(r"^(UUID: +\t)(.*)\n", re.MULTILINE)
NUMBER_OPTIONS = ["format", "data-block-size", "hash-block-size", "data-blocks", "hash-offset"]
FLAGS = ["no-superblock", "compact", "for-builtin-sig"]
OPTION_NAMES = {
    "veritysetup": NUMBER_OPTIONS + ["hash", "salt", "uuid", "no-superblock"],
    "fsverity": ["hash-alg", "block-size", "salt", "compact", "for-builtin-sig"] + OUTPUTS,
}
REFUSED = {"veritysetup": 1, "fsverity": 2}
KERNEL_COMMANDS = ["open", "close", "status", "create", "remove", "measure", "sign", "enable", "dump_metadata"]

# Program, first cell, and function of each row.
ROWS = []


def outcome_row(program, text, said=frozenset(ALL)):
    """A row that covers `said` if two outcomes are as the function has it."""

    def taken(is_so):
        ROWS.append((program, text, lambda *outcomes: set(said) if is_so(*outcomes) else set()))
        return is_so

    return taken


def refused_row(program, text):
    """A row of what ours refuses, where the line is as the function has it."""

    def taken(is_so):
        outcome_row(program, text)(lambda case, ours, theirs: is_refused(case, ours) and is_so(case))
        return is_so

    return taken


def is_refused(case, ours):
    """Ours refuses the words, and touches no file."""
    return ours.status == REFUSED[case.program] and not ours.out and ours.files == case.before.files


def says(outcome, text):
    return re.search(text, outcome.err)


def any_text(case, names, matches):
    """Whether an option of these names has a text that matches."""
    return any(matches(text) for name in names for text in case.texts(name))


def has_any(case, names):
    return any(case.has(name) for name in names)


def is_signed(text):
    """A number that isn't written by digits alone."""
    return re.fullmatch(r"[ \t\n\v\f\r]*[+-]?[0-9]+", text) and not text.isdecimal()


def led_to(case, place):
    """To what the word beside the options that has this place leads."""
    words = case.beside()
    return case.before.leads_to(words[place]) if place < len(words) else None


# Lines that ours refuses.


@refused_row("veritysetup", "`veritysetup`: an option given twice")
@refused_row("fsverity", "a flag given twice, such as `--compact --compact`")
def is_twice(case):
    names = [part.name for part in case.parts if part.kind in ("option", "flag")]
    return len(names) != len(set(names))


@refused_row("veritysetup", "options before the command, as in `veritysetup --hash-offset=4096 format A A`")
def is_before(case):
    return case.parts and case.parts[0].kind in ("option", "flag", "theirs", "end")


@refused_row("veritysetup", "more words than the command has")
def has_more_words(case):
    return len(case.beside()) > {"dump": 1, "format": 2}.get(case.command(), 3)


@refused_row("veritysetup", "`veritysetup`: a name that isn't UTF-8")
@refused_row("fsverity", "`fsverity`: a name that isn't UTF-8")
def is_not_utf8(case):
    return any("\udcff" in word for word in case.words())


@refused_row("veritysetup", "`veritysetup`: what else there is")
@refused_row("fsverity", "`fsverity`: what else there is")
def is_theirs(case):
    return case.command() in KERNEL_COMMANDS or any(part.kind == "theirs" for part in case.parts)


@refused_row(
    "veritysetup", "`veritysetup`: a value that begins with `-`, as a word of its own, such as `--data-blocks -1`"
)
@refused_row(
    "fsverity", "`fsverity`: a value that begins with `-`, as a word of its own, such as `--out-descriptor -x`"
)
def is_dash_value(case):
    for part, after in zip(case.parts, case.parts[1:] + [None]):
        if part.kind == "option" and not part.joined and re.match("-.", part.text):
            return True
        # An option that lacks its text takes the next word for it.
        if part.kind == "flag" and part.name not in FLAGS and after:
            return True
    return False


@refused_row(
    "veritysetup", "`veritysetup`: a number with a sign or white space before it, such as `+4096` or `' 4096'`"
)
def has_signed_number(case):
    return any_text(case, NUMBER_OPTIONS, is_signed)


@refused_row("fsverity", "a block size with a sign or white space before it, such as `+4096` or `' 4096'`")
def has_signed_size(case):
    return any_text(case, ["block-size"], is_signed)


@refused_row("veritysetup", "hash functions")
def is_other_hash(case):
    return any_text(case, ["hash"], lambda text: text not in ALGORITHMS + OTHER_SPELLINGS)


@refused_row("veritysetup", "other spellings of a hash function, such as `SHA256`, `sha-256` or `sha2-256`")
def is_other_spelling(case):
    return any_text(case, ["hash"], lambda text: text in OTHER_SPELLINGS)


@refused_row("veritysetup", "`dump` with another option than `--hash-offset`")
def is_dump_with_others(case):
    return case.command() == "dump" and has_any(case, set(OPTION_NAMES["veritysetup"]) - {"hash-offset"})


@refused_row("veritysetup", "`verify` with `--uuid`")
def is_verify_with_uuid(case):
    return case.command() == "verify" and case.has("uuid")


@refused_row("veritysetup", "`--uuid` with `--no-superblock`")
def is_bare_with_uuid(case):
    return case.has("uuid") and case.has("no-superblock")


@refused_row("veritysetup", "`--hash-offset` above 9223372036854775807")
def is_far(case):
    return any_text(case, ["hash-offset"], lambda text: text.isdecimal() and int(text) >= 2**63)


@refused_row("veritysetup", "`--data-blocks 0`")
def is_none(case):
    return any_text(case, ["data-blocks"], lambda text: re.fullmatch(r"\s*[+-]?0+", text))


@refused_row("veritysetup", "a hash offset within a hash block, without a superblock")
def is_within_block(case):
    return case.has("no-superblock") and case.has("hash-offset")


@refused_row("veritysetup", "`verify` without a superblock and without `--salt`")
def lacks_salt(case):
    return case.command() == "verify" and case.has("no-superblock") and not case.has("salt")


@refused_row("fsverity", "a shortened option, such as `--hash-al`")
def is_shortened(case):
    return any(part.kind in ("option", "flag") and part.name not in OPTION_NAMES["fsverity"] for part in case.parts)


@refused_row("fsverity", "the number of a hash function, such as `--hash-alg=1`")
def is_hash_number(case):
    return any_text(case, ["hash-alg"], lambda text: re.fullmatch(r"\s*\+?[0-9]+", text))


@refused_row("fsverity", "block sizes above 524288")
def is_large(case):
    return any_text(case, ["block-size"], lambda text: text.isdecimal() and int(text) > 524288)


@refused_row("fsverity", "output files and several inputs")
def has_outputs_of_several(case):
    return len(case.beside()) > 1 and has_any(case, OUTPUTS)


# Other outcomes of veritysetup.


@outcome_row("veritysetup", "a single data block, HASH new or ending within the superblock's hash block", {FILES})
def is_padded(case, ours, theirs):
    name = led_to(case, 1)
    here, there = ours.files.get(name, b""), theirs.files.get(name, b"")
    is_longer = there.startswith(here) and not any(there[len(here) :]) and len(there) % 512 == 0
    return ours.status == theirs.status == 0 and is_of_one_block(ours) and is_longer


@outcome_row(
    "veritysetup",
    "a single data block, at an offset within a hash block, HASH new or ending before the superblock would",
)
def is_not_written(case, ours, theirs):
    return is_of_one_block(ours) and theirs.status == 1 and case.has("hash-offset")


def is_of_one_block(outcome):
    return "Data blocks:     \t1\n" in outcome.out


@outcome_row("veritysetup", "`format`: `--data-blocks` above what DATA has")
def is_format_past_data(case, ours, theirs):
    is_lengthened = theirs.status == 0 and led_to(case, 0) == led_to(case, 1)
    is_past = case.command() == "format" and says(ours, "Data ends before the end of block")
    return is_past and (theirs.status == 1 or is_lengthened)


@outcome_row("veritysetup", "`verify`: DATA ends too early", {STATUS})
def is_verify_past_data(case, ours, theirs):
    return case.command() == "verify" and says(ours, "Data ends before the end of block") and theirs.status in (1, 2)


@outcome_row("veritysetup", "`verify`: HASH ends too early", {STATUS})
def is_past_hash(case, ours, theirs):
    return says(ours, "is missing") and theirs.status == 1


@outcome_row("veritysetup", "`verify`: another root hash", {STATUS})
def is_other_root(case, ours, theirs):
    return says(ours, "failed: root hash is") and theirs.status == 1


@outcome_row(
    "veritysetup",
    "`verify` with a superblock: no number, or one too large to be taken, for an option other than `--hash-offset`",
    {STATUS},
)
def is_number_ignored(case, ours, theirs):
    is_wrong = any_text(case, NUMBER_OPTIONS[:-1], lambda text: not re.fullmatch("[0-9]+", text) or int(text) >= 2**32)
    return case.command() == "verify" and not case.has("no-superblock") and is_wrong and theirs.status == 1


@outcome_row(
    "veritysetup",
    "`verify` without a superblock: a hash area that overlaps the covered data in one file, under any names",
    {STATUS},
)
def is_one_verified(case, ours, theirs):
    is_one = case.command() == "verify" and case.has("no-superblock") and led_to(case, 0) == led_to(case, 1)
    return is_one and ours.status in (0, 2) and theirs.status == 1 and says(theirs, "overlaps")


@outcome_row(
    "veritysetup",
    "a refused hash offset, salt, hash function, block size or hash type, no whole block of data, or too large an area",
    {FILES},
)
def is_empty_made(case, ours, theirs):
    refused = "Hash offset|Salt|hash algorithm|Hash type|block size|No data blocks|too large"
    return ours.status == theirs.status == 1 and says(ours, refused) and is_one_made(case, ours, theirs)


@outcome_row(
    "veritysetup", "`format`: DATA that can't be opened, a folder, or a pipe that is open at its other end", {FILES}
)
def is_made_without_data(case, ours, theirs):
    is_unread = led_to(case, 0) not in case.before.files and says(ours, "Cannot open")
    return is_unread and ours.status == theirs.status == 4 and is_one_made(case, ours, theirs)


@outcome_row("veritysetup", "a file of `/proc` as DATA", {STATUS, FILES})
def is_proc_data(case, ours, theirs):
    is_data = case.command() in ("format", "verify") and led_to(case, 0) == PROC_FILE
    return is_data and (ours.status, theirs.status) == (4, 1) and ours.files == case.before.files


@outcome_row("veritysetup", "HASH is a symbolic link that leads nowhere")
def is_made_behind_link(case, ours, theirs):
    is_dangling = len(case.beside()) > 1 and case.before.is_dangling(case.beside()[1])
    return case.command() == "format" and is_dangling and (ours.status, theirs.status) == (0, 4)


@outcome_row(
    "veritysetup",
    "a character device that takes what is written, such as `/dev/null` or `/dev/zero`, as HASH of `format`",
)
def is_lost(case, ours, theirs):
    is_device = led_to(case, 1) in ("/dev/null", "/dev/zero")
    return case.command() == "format" and is_device and (ours.status, theirs.status) == (0, 4)


@outcome_row(
    "veritysetup",
    "a character device, such as `/dev/null` or `/dev/zero`, as DATA, or as HASH of `dump` or `verify`",
    {STATUS, FILES},
)
def is_device_read(case, ours, theirs):
    is_device = led_to(case, 0) in DEVICES or (case.command() == "verify" and led_to(case, 1) in DEVICES)
    return is_device and theirs.status == 4 and ours.files == case.before.files


@outcome_row(
    "veritysetup", "a single data block without a superblock, and HASH is a pipe, or a device that takes nothing"
)
def is_unused(case, ours, theirs):
    is_special = led_to(case, 1) in (PIPE, "/dev/full")
    return case.has("no-superblock") and is_special and (ours.status, theirs.status) == (0, 4)


@outcome_row("veritysetup", "a superblock of 0 data blocks")
def is_of_no_blocks(case, ours, theirs):
    return case.command() in ("dump", "verify") and says(ours, "No data blocks") and ours.status == 1


@outcome_row("veritysetup", "a superblock of more data than there can be")
def is_of_too_many_blocks(case, ours, theirs):
    return case.command() == "dump" and says(ours, "too large") and (ours.status, theirs.status) == (1, 0)


@outcome_row("veritysetup", "other spellings of a hash function, such as `SHA256`, `sha-256` or `sha2-256`")
def is_spelled_in_superblock(case, ours, theirs):
    return case.command() in ("dump", "verify") and says(ours, "Superblock hash algorithm") and ours.status == 1


@outcome_row("veritysetup", "HASH that can't be written to its end, as on a full disk", {STATUS})
def is_not_written_to_end(case, ours, theirs):
    return case.command() == "format" and (ours.status, theirs.status) == (4, 1) and says(ours, "Cannot write")


def is_one_made(case, ours, theirs):
    made = [content for name, content in theirs.files.items() if name not in case.before.files]
    return ours.files == case.before.files and made == [b""]


@outcome_row("veritysetup", "a refused UUID", {FILES})
def is_uuid_refused(case, ours, theirs):
    return says(ours, "UUID is not valid") and says(theirs, "Wrong VERITY UUID")


@outcome_row("veritysetup", "forms of a UUID")
def is_uuid_taken(case, ours, theirs):
    return ours.status == 0 and says(theirs, "Wrong VERITY UUID")


@outcome_row("veritysetup", "HASH that can't be made, or that can be read and not written", {STATUS})
def is_not_opened(case, ours, theirs):
    is_hash = case.command() == "format" and led_to(case, 0) in case.before.files and says(ours, "Cannot open")
    return is_hash and (ours.status, theirs.status) == (4, 1)


@outcome_row("veritysetup", "mode of a new HASH", {MODES})
def is_made_by_umask(case, ours, theirs):
    return all(made_by(case, ours, 0o666)) and all(made_by(case, theirs, 0o600))


def made_by(case, outcome, mode):
    return [made == mode & ~case.umask for made in outcome.modes.values()]


# Reports.


@outcome_row("veritysetup", "the report of `format` and `dump`", {LINES})
def has_other_labels(case, ours, theirs):
    text = re.sub(r"^Hash (blocks|device size):.*\n", "", theirs.out, flags=re.MULTILINE)
    text = re.sub(r"^(Root hash:) +\t", r"\1       \t", text, flags=re.MULTILINE)
    return UUID_LINE.sub("", text) == UUID_LINE.sub("", ours.out)


def uuids(ours, theirs):
    return [found and found[2] for found in (UUID_LINE.search(ours.out), UUID_LINE.search(theirs.out))]


@outcome_row("veritysetup", "the report without a superblock", {NAMED})
def lacks_uuid(case, ours, theirs):
    return uuids(ours, theirs) == ["-", ""]


@outcome_row("veritysetup", "forms of a UUID", {NAMED})
def has_small_uuid(case, ours, theirs):
    here, there = uuids(ours, theirs)
    return here and there and here == there.lower()


# Other outcomes of fsverity.


def outputs(case, names=OUTPUTS):
    """To what the output files' names lead."""
    return [case.before.leads_to(text) for name in names for text in case.texts(name) if text]


def inputs(case):
    return [case.before.leads_to(word) for word in case.beside()]


@outcome_row("fsverity", "an option that is refused, after an output file", {FILES})
def is_made_first(case, ours, theirs):
    changed = [name for name, content in theirs.files.items() if case.before.files.get(name) != content]
    is_emptied = all(case.before.leads_to(name) in outputs(case) and not theirs.files[name] for name in changed)
    return is_refused(case, ours) and theirs.status == 2 and is_emptied


@outcome_row("fsverity", "a refused salt length, or a block size below twice the digest")
def is_length_refused(case, ours, theirs):
    return (ours.status, theirs.status) == (2, 1) and says(ours, "(salt|block size) is not valid")


@outcome_row("fsverity", "an output file that is the input")
def is_input_lost(case, ours, theirs):
    return ours.status == 1 and says(ours, "cannot open") and set(inputs(case)) & set(outputs(case))


@outcome_row("fsverity", "one output file for both")
def is_output_lost(case, ours, theirs):
    is_one = len(outputs(case)) == 2 and len(set(outputs(case))) == 1
    return ours.status == 1 and says(ours, "cannot open") and is_one


@outcome_row("fsverity", "an input that can't be opened, or a folder", {FILES})
def is_input_missing(case, ours, theirs):
    return ours.status == 1 and says(theirs, "for reading|reading from '.*': Is a directory")


@outcome_row("fsverity", "an output file that can't be opened", {STATUS})
def is_output_missing(case, ours, theirs):
    return (ours.status, theirs.status) == (1, 2) and says(theirs, "for writing")


@outcome_row("fsverity", "a folder as the second output file", {FILES})
def is_second_folder(case, ours, theirs):
    return ours.status == 1 and says(theirs, "for writing: Is a directory") and ours.files == case.before.files


@outcome_row("fsverity", "two output files, of which one can't be opened", {FILES})
def is_opened_in_order(case, ours, theirs):
    is_missing = says(theirs, "for writing: ") and not says(theirs, "Is a directory")
    return ours.status == 1 and all(case.texts(name) for name in OUTPUTS) and is_missing


@outcome_row(
    "fsverity",
    "a character device that takes what is written, such as `/dev/null`, as the tree file, for more than one block",
)
def is_tree_lost(case, ours, theirs):
    is_device = set(outputs(case, OUTPUTS[:1])) & {"/dev/null", "/dev/zero"}
    return is_device and (ours.status, theirs.status) == (0, 1) and says(theirs, "preallocating")


@outcome_row("fsverity", "`digest` of a pipe")
def is_pipe_empty(case, ours, theirs):
    return is_taken_for_empty(case, ours, theirs, PIPE)


def is_taken_for_empty(case, ours, theirs, name):
    """Ours ends at an input of this name, and theirs goes on, to its end or to a further fault."""
    return name in inputs(case) and ours.status == 1 and says(ours, "cannot open") and theirs.status in (0, 1)


@outcome_row("fsverity", "`digest` of a file of `/proc`")
def is_proc_empty(case, ours, theirs):
    return is_taken_for_empty(case, ours, theirs, PROC_FILE)


@outcome_row("fsverity", "mode of a new output file", {MODES})
def is_written_by_all(case, ours, theirs):
    return all(made_by(case, ours, 0o666)) and all(made_by(case, theirs, 0o644))


# In both.


@outcome_row("veritysetup", "several faults at once", {STATUS, FILES})
@outcome_row("fsverity", "several faults at once", {STATUS, FILES})
def is_faulty_twice(case, ours, theirs):
    return case.odd > 1 and ours.status and theirs.status and ours.files == case.before.files
