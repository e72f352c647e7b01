# The virtual machine of tests/kernel.sh: which kernel runs in it, what is packed into it, what it is asked and what it
# answers. Sourced after tests/lib/checks.sh.

# The guest's files, and the seconds after which a guest that hasn't ended has failed.
guest=$scratch/guest
time_limit=1800

# What the guest is asked, in order, and the text that is expected for each.
names=()
declare -A expected=()

mkdir -p "$guest/modules" "$guest/dev" "$guest/proc" "$guest/sys" "$guest/mnt"

# find_kernel: KERNEL, or the newest kernel in /boot, and MODULES, or the modules that Debian's package puts beside it.
# Sets `kernel`, `modules` and `release`.
find_kernel() {
    local missing=
    kernel=${KERNEL:-$(find /boot -name 'vmlinuz-*' | sort -V | tail -n 1)}
    modules=${MODULES:-$(dirname "$kernel")/../lib/modules/${kernel##*/vmlinuz-}}
    release=$(basename "$modules")
    if [ -r "$kernel" ] && [ -d "$modules" ]; then return; fi
    if [ -n "$kernel" ]; then missing="$kernel or the folder of its modules, $modules"; fi
    cat >&2 <<END
$0: ${missing:-a kernel in /boot} can't be read, so nothing was compared.
One of Debian's kernels (linux-image-cloud-amd64, linux-image-amd64) can be had without installing it:
    apt-get download \$(apt-cache depends linux-image-cloud-amd64 | sed -n 's/.*Depends: //p')
    dpkg -x linux-image-*.deb FOLDER
    make kernel KERNEL=\$(echo FOLDER/boot/vmlinuz-*)
MODULES=FOLDER names the modules if they aren't in ../lib/modules/VERSION from vmlinuz-VERSION.
END
    exit 1
}

# since VERSION: whether the kernel is of that version or a later one.
since() {
    printf '%s\n' "$1" "$release" | sort -V -C
}

# put_program NAME: a program and the libraries that it is linked with, for the guest.
put_program() {
    local program library
    program=$(command -v "$1")
    install -D "$program" "$guest/bin/$1"
    for library in $(ldd "$program" 2>/dev/null | grep -o '/[^ ]*'); do
        install -D "$library" "$guest$library"
    done
}

# put_module NAME: a module after those that it depends on, unless the kernel has it built in.
put_module() {
    local plain=$guest/modules/$1.ko file depends name
    file=$(find "$modules/" -name "$1.ko*" | head -n 1)
    if [ -z "$file" ] || [ -e "$plain" ]; then return; fi
    case $file in
    *.xz) needs xz xz-utils && xz -dc "$file" ;;
    *.zst) needs zstd zstd && zstd -dc "$file" ;;
    *) cat "$file" ;;
    esac >"$plain"
    IFS=, read -ra depends <<<"$(sed -zn 's/^depends=//p' "$plain" | tr -d '\0')"
    for name in "${depends[@]}"; do put_module "$name"; done
    echo "$1.ko" >>"$guest/modules/order"
}

# plan COMMAND..: has the guest run a command of tests/kernel/init.
plan() {
    printf '%q ' "$@" >>"$guest/plan"
    echo >>"$guest/plan"
}

# ask NAME TEXT COMMAND..: has the guest run a command that is expected to print the text. A name that is asked twice
# would have one answer for both, and is a failure.
ask() {
    if [ -n "${expected[$1]-}" ]; then
        fail "$1" 'it is asked twice'
        return
    fi
    names+=("$1")
    expected[$1]=$2
    plan tell "$1" "${@:3}"
}

# pack: makes one archive of programs, modules, images and plan.
pack() {
    local name
    for name in busybox dd dmsetup veritysetup fsverity; do put_program "$name"; done
    for name in loop dm-mod dm-verity sha1_generic sha256_generic sha512_generic crc32c_generic ext4; do
        put_module "$name"
    done
    cp tests/kernel/init "$guest/init"
    (cd "$guest" && find . | busybox cpio -o -H newc -R 0:0) >"$scratch/archive" 2>"$scratch/.cpio"
}

# boot: runs the guest to its end. Its console goes to one file, and its answers to another.
boot() {
    timeout "$time_limit" qemu-system-x86_64 -accel tcg -m 1024 -nodefaults -display none -no-reboot \
        -kernel "$kernel" -initrd "$scratch/archive" -append 'console=ttyS0 panic=-1 quiet' \
        -serial "file:$scratch/console" -serial "file:$scratch/answers" </dev/null ||
        fail 'the virtual machine' "it ended with status $?; 124 means that $time_limit seconds were over"
}

# compare: the answers with what is expected. A guest that left something open, as after a panic, is one failure.
compare() {
    local name text open=0
    local -A found=()
    while IFS=$'\t' read -r name text; do found[${name:-none}]=${text% }; done <"$scratch/answers"
    for name in "${names[@]}"; do
        if [ -n "${found[$name]-}" ]; then
            same "$name" "${expected[$name]}" "${found[$name]}"
        else
            open=$((open + 1))
        fi
    done
    if [ "$open" -gt 0 ]; then
        fail 'the guest' "$open of ${#names[@]} answers are missing; its console ends with:" \
            "$(tail -n 40 "$scratch/console")"
    fi
}
