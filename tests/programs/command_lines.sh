#!/usr/bin/env bash
# Runs bin/veritysetup with command lines that it refuses: clap's whole text, and the usage.
set -u
cd "$(dirname "$0")/../.."
. tests/lib/checks.sh
has_program veritysetup
veritysetup=$BIN/veritysetup

# DATA, and HASH of dump and verify. Nobody writes to it, so a run that opened it would wait.
pipe=$scratch/pipe
mkfifo "$pipe"
# HASH of format. A run that opened it would make it.
hash=$scratch/hash.img

program_usage='Usage: veritysetup format [options] DATA HASH
       veritysetup dump [--hash-offset BYTES] HASH
       veritysetup verify [options] DATA HASH ROOT'

format_usage='Usage: veritysetup format [--hash NAME] [--format TYPE] [--data-block-size BYTES]
           [--hash-block-size BYTES] [--data-blocks NUMBER] [--salt HEX] [--uuid UUID]
           [--hash-offset BYTES] [--no-superblock] DATA HASH'

dump_usage='Usage: veritysetup dump [--hash-offset BYTES] HASH'

verify_usage='Usage: veritysetup verify [--hash NAME] [--format TYPE] [--data-block-size BYTES]
           [--hash-block-size BYTES] [--data-blocks NUMBER] [--salt HEX]
           [--hash-offset BYTES] [--no-superblock] DATA HASH ROOT'

# refuses NAME TEXT USAGE WORD..: the words are refused with clap's text and a usage, and no file is made. A run that
# waits is stopped.
refuses() {
    local name=$1 text=$2 usage=$3
    shift 3
    runs "$name" 1 '' "error: $text"$'\n\n'"$usage" timeout --foreground 20 "$veritysetup" "$@"
    absent "$name" "$hash"
}

# lacks NAME FILES USAGE WORD..: files are missing.
lacks() {
    local name=$1 files=$2 usage=$3
    shift 3
    refuses "$name" $'the following required arguments were not provided:\n  '"${files// /$'\n  '}" "$usage" "$@"
}

# does_not_have NAME OPTION USAGE WORD..: the command does not have an option.
does_not_have() {
    local name=$1 option=$2 usage=$3
    shift 3
    refuses "$name" \
        "unexpected argument '$option' found"$'\n\n'"  tip: to pass '$option' as a value, use '-- $option'" "$usage" "$@"
}

# takes_once USAGE COMMAND FILE.. -- OPTION..: each option of a command needs a value, and is given once.
takes_once() {
    local usage=$1 command=$2 files=() option
    shift 2
    while [ "$1" != -- ]; do
        files+=("$1")
        shift
    done
    shift
    for option in "$@"; do
        refuses "$command: --$option without its value" \
            "a value is required for '--$option <$option>' but none was supplied" "$usage" \
            "$command" "${files[@]}" "--$option"
        refuses "$command: --$option twice" \
            "the argument '--$option <$option>' cannot be used multiple times" "$usage" \
            "$command" "--$option" 1 "${files[@]}" "--$option=1"
    done
}

commands() {
    refuses 'no words' \
        "'veritysetup' requires a subcommand but one was not provided"$'\n  [subcommands: format, dump, verify]' \
        "$program_usage"
    refuses 'an empty word' "unrecognized subcommand ''" "$program_usage" ''
    refuses 'an unknown command' "unrecognized subcommand 'open'" "$program_usage" open "$pipe" "$hash"
    refuses 'a help option' "unexpected argument '--help' found" "$program_usage" --help
    refuses 'a help command' "unrecognized subcommand 'help'" "$program_usage" help
}

format() {
    lacks 'format: no files' '<DATA> <HASH>' "$format_usage" format
    lacks 'format: one file' '<HASH>' "$format_usage" format "$pipe"
    refuses 'format: three files' "unexpected argument '$hash' found" "$format_usage" format "$pipe" "$hash" "$hash"
    does_not_have 'format: help' --help "$format_usage" format --help
    does_not_have 'format: an unknown option' --fec-roots "$format_usage" format --fec-roots 2 "$pipe" "$hash"
    does_not_have 'format: a short option' -s "$format_usage" format -s ab "$pipe" "$hash"
    takes_once "$format_usage" format "$pipe" "$hash" -- \
        hash format data-block-size hash-block-size data-blocks salt uuid hash-offset
    refuses 'format: --no-superblock twice' "the argument '--no-superblock' cannot be used multiple times" \
        "$format_usage" format --no-superblock "$pipe" --no-superblock "$hash"
}

dump() {
    lacks 'dump: no file' '<HASH>' "$dump_usage" dump
    refuses 'dump: two files' "unexpected argument '$pipe' found" "$dump_usage" dump "$pipe" "$pipe"
    does_not_have 'dump: no superblock' --no-superblock "$dump_usage" dump --no-superblock "$pipe"
    does_not_have 'dump: help' --help "$dump_usage" dump --help
    takes_once "$dump_usage" dump "$pipe" -- hash-offset
}

verify() {
    lacks 'verify: no files' '<DATA> <HASH> <ROOT>' "$verify_usage" verify
    lacks 'verify: no root hash' '<ROOT>' "$verify_usage" verify "$pipe" "$pipe"
    refuses 'verify: four words' "unexpected argument 'ab' found" "$verify_usage" verify "$pipe" "$pipe" ab ab
    does_not_have 'verify: a UUID' --uuid "$verify_usage" verify --uuid ab "$pipe" "$pipe" ab
    does_not_have 'verify: help' -h "$verify_usage" verify -h
    takes_once "$verify_usage" verify "$pipe" "$pipe" ab -- \
        hash format data-block-size hash-block-size data-blocks salt hash-offset
    refuses 'verify: --no-superblock twice' "the argument '--no-superblock' cannot be used multiple times" \
        "$verify_usage" verify --no-superblock "$pipe" "$pipe" ab --no-superblock
}

# A word is refused by its number, and shown with each byte that is no printable ASCII character escaped.
words_that_are_not_utf8() {
    runs 'format: a word that is not UTF-8' 1 '' 'error: argument 3 is not UTF-8: \xc3\xb6 \\x~\x7f\x0a\xff\xc3' \
        timeout --foreground 20 "$veritysetup" format "$pipe" $'\xc3\xb6 \\x~\x7f\n\xff\xc3'
    runs 'verify: a root hash that is not UTF-8' 1 '' 'error: argument 4 is not UTF-8: \xff' \
        timeout --foreground 20 "$veritysetup" verify "$pipe" "$pipe" $'\xff'
}

commands
format
dump
verify
words_that_are_not_utf8
finish
