#!/usr/bin/env bash
# Runs bin/fsverity as a user would: options, forms of the line, and command lines.
set -u
cd "$(dirname "$0")/../.."
. tests/lib/checks.sh
. tests/lib/digests.sh
has_program fsverity
fsverity=$BIN/fsverity
usage='Usage: fsverity digest [--hash-alg NAME] [--block-size BYTES] [--salt HEX]
           [--compact] [--for-builtin-sig] [--out-merkle-tree FILE]
           [--out-descriptor FILE] FILE...'

# refuses NAME TEXT WORD..: an option is refused before any file is opened, so a missing file is not spoken of.
refuses() {
    local name=$1 text=$2
    shift 2
    runs "$name" 2 '' "fsverity: $text" "$fsverity" digest "$@" "$scratch/missing"
}

options() {
    local salt32 salt33
    salt32=$(printf '%064d' 0)
    salt33=${salt32}00
    refuses 'an unknown hash algorithm' 'unknown hash algorithm.' --hash-alg md5
    refuses 'a hash algorithm in capitals' 'unknown hash algorithm.' --hash-alg SHA256
    refuses 'an algorithm before a block size' 'unknown hash algorithm.' --block-size 1 --hash-alg md5
    refuses 'a block size that is no number' 'block size is not valid.' --block-size 4k
    refuses 'a block size with a sign' 'block size is not valid.' --block-size=+4096
    refuses 'an empty block size' 'block size is not valid.' --block-size=
    refuses 'a block size that is no power of two' 'block size is not valid.' --block-size 4095
    refuses 'a block size above the largest' 'block size is not valid.' --block-size 1048576
    refuses 'a block size of two to the 64' 'block size is not valid.' --block-size 18446744073709551616
    refuses 'a block size below two digests of SHA-256' 'block size is not valid.' --block-size 32
    refuses 'a block size below two digests of SHA-512' 'block size is not valid.' --hash-alg sha512 --block-size 64
    refuses 'a block size before a salt' 'block size is not valid.' --salt zz --block-size 3
    refuses 'a salt of 33 bytes' 'salt is not valid.' --salt "$salt33"
    refuses 'a salt of an odd number of digits' 'salt is not valid.' --salt abc
    refuses 'a salt that is not hexadecimal' 'salt is not valid.' --salt zz
    refuses 'a hyphen as a salt' 'salt is not valid.' --salt=-

    runs 'options that are accepted' 1 '' "fsverity: cannot open $scratch/missing." \
        "$fsverity" digest --hash-alg=sha512 --block-size=00128 --salt="$salt32" "$scratch/missing"
    : >"$scratch/empty"
    runs 'an empty salt' 0 "sha256:$(digest "$(printf '%064d' 0)" 0) $scratch/empty" '' \
        "$fsverity" digest --salt= "$scratch/empty"
    salted_example
    option_forms
}

# One byte, blocks of 1024, a salt of 2 bytes: the salt is filled up to 64 bytes before the block.
salted_example() {
    local root
    printf a >"$scratch/one"
    {
        bytes abcd
        zeros 62
        printf a
        zeros 1023
    } >"$scratch/block"
    root=$(sha256 "$scratch/block")
    descriptor 01010a02 1 "$root" abcd >"$scratch/descriptor"
    runs 'a salt and a block size' 0 "sha256:$(sha256 "$scratch/descriptor") $scratch/one" '' \
        "$fsverity" digest "$scratch/one" --salt ABcd --block-size 1024
}

# An option and its value are two words or one, and stand before, among or after the files. The same byte, blocks and
# salt, with SHA-512: the salt is filled up to 128 bytes.
option_forms() {
    local one=$scratch/one line
    printf a >"$one"
    {
        bytes abcd
        zeros 126
        printf a
        zeros 1023
    } >"$scratch/block"
    descriptor 01020a02 1 "$(sha512 "$scratch/block")" abcd >"$scratch/descriptor"
    line="sha512:$(sha512 "$scratch/descriptor") $one"
    runs 'options of two words before a file' 0 "$line" '' \
        "$fsverity" digest --hash-alg sha512 --block-size 1024 --salt ABcd "$one"
    runs 'options of one word after a file' 0 "$line" '' \
        "$fsverity" digest "$one" --salt=ABcd --hash-alg=sha512 --block-size=01024
    runs 'options among files' 0 "$line
$line" '' "$fsverity" digest --salt=ABcd "$one" --block-size 1024 "$one" --hash-alg=sha512
}

# Forms of the line: the digest alone, and the formatted digest, which a signature signs.
forms() {
    local file="$scratch/an empty file" digest signed
    : >"$file"
    digest=$(digest "$(printf '%064d' 0)" 0)
    signed=465356657269747901002000$digest
    runs 'a compact line' 0 "$digest" '' "$fsverity" digest --compact "$file"
    runs 'a formatted digest' 0 "$signed $file" '' "$fsverity" digest --for-builtin-sig "$file"
    runs 'a compact formatted digest' 0 "$signed" '' "$fsverity" digest --compact "$file" --for-builtin-sig
    runs 'a compact line of each of two files' 0 "$digest
$digest" '' "$fsverity" digest "$file" --compact /dev/null
    runs 'a formatted digest of each of two files' 0 "$signed $file
$signed /dev/null" '' "$fsverity" digest "$file" /dev/null --for-builtin-sig
    runs 'a compact formatted digest of each of two files' 0 "$signed
$signed" '' "$fsverity" digest --for-builtin-sig "$file" --compact /dev/null
}

# command_line NAME TEXT WORD..: the words are refused with this text and the usage. A run that waits is stopped.
command_line() {
    local name=$1 text=$2
    shift 2
    runs "$name" 2 '' "error: $text

$usage" timeout --foreground 20 "$fsverity" "$@"
}

command_lines() {
    local file=$scratch/pipe
    # Nobody writes to it, so a run that opened it would wait.
    mkfifo "$file"
    command_line 'no words' "'fsverity' requires a subcommand but one was not provided
  [subcommands: digest]"
    command_line 'an unknown command' "unrecognized subcommand 'measure'" measure "$file"
    command_line 'no file' 'the following required arguments were not provided:
  <files>...' digest
    command_line 'an unknown option' "unexpected argument '--sloth' found

  tip: a similar argument exists: '--salt'" digest --sloth "$file"
    command_line 'an option without its value' "a value is required for '--salt <salt>' but none was supplied" \
        digest "$file" --salt
    command_line 'an option given twice' "the argument '--salt <salt>' cannot be used multiple times" \
        digest --salt ab --salt ab "$file"
    command_line 'a flag given twice' "the argument '--compact' cannot be used multiple times" \
        digest --compact --compact "$file"
    command_line 'a flag with a value' "unexpected value 'yes' for '--compact' found; no more were expected" \
        digest --compact=yes "$file"
    command_line 'a help option' "unexpected argument '--help' found" --help
    command_line 'a short help option' "unexpected argument '-h' found" -h
    command_line 'a help command' "unrecognized subcommand 'help'" help
    command_line 'help of a command' "unexpected argument '--help' found

  tip: to pass '--help' as a value, use '-- --help'" digest --help
    runs 'a file name after two hyphens' 1 '' 'fsverity: cannot open --salt.' "$fsverity" digest -- --salt
}

# not_utf8 NAME NUMBER SHOWN WORD..: a word is refused by its number, and shown with its bytes escaped.
not_utf8() {
    local name=$1 number=$2 shown=$3
    shift 3
    runs "$name" 2 '' "error: argument $number is not UTF-8: $shown" "$fsverity" "$@"
}

words_that_are_not_utf8() {
    not_utf8 'a file name that is not UTF-8' 2 '\xff\xfe' digest $'\xff\xfe'
    not_utf8 'a word that is not UTF-8' 1 '\xff' $'\xff' "$scratch/empty"
    not_utf8 'a word with each kind of byte' 2 '\xc3\xb6 \\x~\x7f\x0a\xff\xc3' digest $'\xc3\xb6 \\x~\x7f\n\xff\xc3'
}

options
forms
command_lines
words_that_are_not_utf8
finish
