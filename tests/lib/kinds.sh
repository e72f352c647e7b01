# The kinds of programs beside those for one processor of x86-64, and commands that begin such programs by qemu. Sourced
# at the repository's root, by bash.

# kinds: prints the folders of programs that tests/built.sh makes, as far as there is what that takes: a target's C
# compiler, and qemu, which runs those below bin/imitated on processors that it imitates.
kinds() {
    if type -P cc >/dev/null; then
        printf '%s\n' bin/any bin/static
        if type -P qemu-x86_64 >/dev/null; then printf 'bin/imitated/any-%s\n' core2duo Nehalem max; fi
    fi
    if type -P aarch64-linux-gnu-gcc qemu-aarch64 >/dev/null; then
        printf '%s\n' bin/imitated/aarch64 bin/imitated/aarch64-static
    fi
}

# imitated FOLDER PROGRAMS QEMU WORD..: puts commands of the programs' names into a folder, which begin the programs of
# another folder by qemu with these words. The file `imitated` says by which.
imitated() {
    local folder=$1 programs=$2 name qemu
    qemu=$(type -P "$3")
    shift 3
    mkdir -p "$folder"
    echo "${qemu##*/} $*" >"$folder/imitated"
    for name in fsverity veritysetup; do
        printf '#!/bin/sh\nexec %s"$@"\n' "$(printf '%q ' "$qemu" "$@" "$PWD/$programs/$name")" >"$folder/$name"
        chmod +x "$folder/$name"
        cp "$programs/$name.made" "$folder"
    done
}
