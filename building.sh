# What the scripts that build, install and release share. Sourced at the repository's root, by bash.

# refuse MESSAGE: ends before anything is built, made, installed or removed.
refuse() {
    echo "${0##*/}: $1" >&2
    exit 1
}

# failed WHAT: shows what was said last, which is in $scratch/said, and ends.
failed() {
    cat "$scratch/said"
    echo "${0##*/}: $1" >&2
    exit 1
}

# header_version: prints the version that include/verity.h, on standard input, has.
header_version() {
    awk '/^#define VERITY_VERSION_/ { printf "%s%s", dot, $3; dot = "." }'
}

# sources: prints the sum of the toolchain and of all that the crates are built of, whatever the user's locale.
sources() {
    { rt version && find crates.txt crates/*/{src,specs,proofs} -type f -print0 2>/dev/null | LC_ALL=C sort -z |
        xargs -0 sha256sum; } | sha256sum
}

# archived WORD..: writes an archive of what was committed, by `git archive` with these words. What the user, the system
# and this clone have set for archives changes nothing: one of its own, in $scratch, has no settings.
archived() {
    if [ ! -e "$scratch/clone" ]; then git clone -q --bare --shared --template= . "$scratch/clone"; fi
    GIT_ATTR_NOSYSTEM=1 git -C "$scratch/clone" -c tar.umask=0022 -c core.autocrlf=false \
        -c core.attributesFile=/dev/null archive --format=tar "$@"
}

# name_proved: reads what `rt` says, and names each crate that it has proved.
name_proved() {
    local first second name=
    while read -r first second _; do
        case $first in
        crate) name=${second%:} ;;
        logic=proved) echo "    $name is proved" ;;
        esac
    done
}

# made FILE FOR: prints for what a file was built, of what all is built, which is in `of`, and the sum of the file.
made() {
    printf '%s\n' "$2" "$of"
    sha256sum <"$1"
}

# is_made FILE FOR: whether the file was built for this, and nothing has changed.
is_made() {
    [ -e "$1" ] && [ -e "$1.made" ] && cmp -s <(made "$1" "$2") "$1.made"
}

# put_in_place FILE TO FOR: a built file gets its place.
put_in_place() {
    mkdir -p "$(dirname "$2")"
    cp "$1" "$2.new"
    mv "$2.new" "$2"
    made "$2" "$3" >"$2.made"
}

# over_proved CRATE CPU TO KEPT [TOOLCHAIN]: proves and compiles a program or a library for C over the crates below as
# they have been proved, for a processor of x86-64 or with `aarch64` for 64-bit ARM. TO gets a program's object file or
# the library's archive. What is the same for several processors is proved once, and kept in the folder KEPT. TOOLCHAIN
# is a folder in place of the toolchain's own. `rt` has no word for another processor than x86-64's, and after the gate
# it would prove each crate below a second time, so the compiler under it is called.
over_proved() {
    local kit root=src/main.rt words=() name folder
    kit=$(dirname "$(rt doc)")
    if grep -q "^$1 staticlib:" crates.txt; then root=src/lib.rt words=(--crate-type staticlib); fi
    case $2 in
    aarch64) words+=(--target aarch64-unknown-linux-gnu) ;;
    *) words+=(--cpu="$2") ;;
    esac
    for name in std $(sed -nE "s/^$1( staticlib)?: //p" crates.txt); do
        folder=$kit/rlibs
        if [ -e "crates/$name" ]; then folder=$PWD/crates/$name/out/rlib; fi
        words+=(--extern "$name=$folder/$name.rlib")
    done
    for folder in "$PWD"/crates/*/out/rlib "$kit/rlibs"; do words+=(-L "dependency=$folder"); done
    (
        cd "crates/$1" && "$kit/bin/rattle" build --crate-name "$1" "$root" "${words[@]}" --links "$1=" \
            --antt-project "$kit/rattle/logic/antt-project.json" --logic-built "$kit/logic_built" \
            --toolchain "${5:-$kit/toolchain}" --backend llvm --jobs 2 --incremental "$4" -o "$3" </dev/null
    )
}

# The stand-ins for clang that a build has made, and in which folder of $scratch each is.
declare -A stand_ins=()

# stand_in SHA FOR [WORDS FEATURES]: sets `tools` to a folder like the toolchain's, for over_proved, whose clang puts
# SHA instructions in the place of their models if SHA is yes, for `programs` or for the `library`, as FOR says. For
# 64-bit ARM it takes further words too: WORDS are C strings with a comma after each, and FEATURES are what they mean in
# LLVM's language, with a comma before each.
stand_in() {
    local from file instructions
    tools=${stand_ins[$*]:-}
    if [ -n "$tools" ]; then return; fi
    tools=$scratch/tools${#stand_ins[@]}
    from=$(dirname "$(rt doc)")/toolchain && mkdir -p "$tools/bin" && cp -r "$from/lib" "$tools/lib" || return
    for file in "$from"/bin/*; do
        if [ "${file##*/}" != clang ]; then ln -s "$file" "$tools/bin/" || return; fi
    done
    case $1 in yes) instructions=1 ;; *) instructions=0 ;; esac
    cc -O1 -Wall -Wextra -D_GNU_SOURCE -DTOOLCHAIN="\"$from\"" -DFOLDER="\"$PWD/instructions\"" \
        -DINSTRUCTIONS=$instructions -DFOR="\"$2\"" -DWORDS="${3:-}" -DFEATURES="\"${4:-}\"" \
        instructions/clang_with_instructions.c -o "$tools/bin/clang" && stand_ins[$*]=$tools
}

# with_sha: sets `sha` to whether what is built gets SHA instructions, yes or no, as SHA in the environment says. If it
# says nothing they are left out where there is no C compiler for the stand-in for clang.
with_sha() {
    sha=${SHA:-}
    if [ -z "$sha" ]; then if type -P cc >/dev/null; then sha=yes; else sha=no; fi; fi
    case $sha in
    yes) type -P cc >/dev/null || refuse 'SHA=yes needs cc, which is not installed' ;;
    no) ;;
    *) refuse 'SHA is yes or no' ;;
    esac
}

# counted TARGET FILE [NAME]: whether each SHA instruction stands as often in each function of an object file or archive
# as its target's file in instructions/ says, and in no other function. If not, says so. Functions whose names end with
# NAME may be missing.
counted() {
    local of=instructions/instructions_of_x86.ll kit
    kit=$(dirname "$(rt doc)")
    if [ "$1" = aarch64 ]; then of=instructions/instructions_of_arm.ll; fi
    # The toolchain's clang is its objdump, too, by another name.
    (exec -a llvm-objdump "$kit/toolchain/bin/clang" -d --no-show-raw-insn "$2") | awk '
        FNR == NR { if (/^; In /) expected[$3 $4] = $5; next }
        /^[0-9a-f]+ <.*>:$/ { name = substr($0, index($0, "<") + 1); sub(/>:$/, ":", name); there[name] }
        $2 ~ /^sha[0-9]+[a-z]+[0-9]*$/ { found[name $2]++ }
        END {
            for (it in expected) {
                name = substr(it, 1, match(it, /:[a-z0-9]*$/))
                if (found[it] != expected[it] && !(lacking != "" && name ~ lacking ":$" && !(name in there)))
                    wrong = wrong it " " found[it] + 0 " for " expected[it] "\n"
            }
            for (it in found) if (!(it in expected)) wrong = wrong it " " found[it] "\n"
            printf "%s", wrong
            exit wrong != ""
        }' lacking="${3:-}" "$of" -
}

# proves_below CRATE: proves and keeps what a crate is proved over. Names each crate that had to be proved anew.
proves_below() {
    local name
    for name in $(sed -nE "s/^$1( staticlib)?: //p" crates.txt); do
        if [ -e "crates/$name" ]; then (cd "crates/$name" && rt lib </dev/null 2>&1) || return; fi
    done | tee "$scratch/said" | name_proved
}

# The programs. A build of them is described by four words: TARGET is x86_64 or aarch64; CPU is a processor of x86-64,
# or `any` for a program that has code for each of $levels and chooses when it begins, and is empty for aarch64; STATIC
# is yes or no, and so is SHA.
levels=(x86-64 x86-64-v3)

# in_order TARGET CPU STATIC: says what is wrong with a description, and fails, or says nothing.
in_order() {
    case $1 in
    x86_64)
        case $2 in
        x86-64 | x86-64-v2 | x86-64-v3 | any) ;;
        *) echo 'CPU is x86-64, x86-64-v2, x86-64-v3 or any' && return 1 ;;
        esac
        ;;
    aarch64) if [ -n "$2" ]; then echo 'CPU is for x86_64 alone' && return 1; fi ;;
    *) echo 'TARGET is x86_64 or aarch64' && return 1 ;;
    esac
    case $3 in
    yes | no) ;;
    *) echo 'STATIC is yes or no' && return 1 ;;
    esac
}

# kind_of TARGET CPU STATIC SHA: prints what a program is called that is built by this description.
kind_of() {
    local kind=${2:-$1}
    if [ "$3" = yes ]; then kind+=', static'; fi
    if [ "$4" = no ]; then kind+=', without SHA instructions'; fi
    echo "$kind"
}

# place TARGET STATIC: prints the folder of programs: bin, bin/static, bin/aarch64 or bin/aarch64/static.
place() {
    local folder=bin
    if [ "$1" = aarch64 ]; then folder+=/aarch64; fi
    if [ "$2" = yes ]; then folder+=/static; fi
    echo "$folder"
}

# prefix_of TARGET: prints what the names of the target's compiler, linker and so on begin with.
prefix_of() {
    if [ "$1" = aarch64 ]; then echo aarch64-linux-gnu-; fi
}
