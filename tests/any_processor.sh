#!/usr/bin/env bash
# Compiles any_processor.c over stand-ins for a program's two halves, and runs it on processors that qemu imitates: the
# half for x86-64-v3 begins only if the processor has all of that and the system has switched it on, and
# VERITY_PROCESSOR=x86-64 chooses the other one.
set -u
cd "$(dirname "$0")/.."
. tests/lib/checks.sh
needs cc gcc
needs qemu-x86_64 qemu-user

cat >"$scratch/halves.c" <<'END'
#include <stdio.h>

static int begins(const char *name, int argc, char **argv)
{
    printf("%s", name);
    for (int i = 1; i <= argc; i++)
        printf(" %s", argv[i] != NULL ? argv[i] : "end");
    printf("\n");
    return argc;
}

int main_for_x86_64(int argc, char **argv)
{
    return begins("x86-64", argc, argv);
}

int main_for_x86_64_v3(int argc, char **argv)
{
    return begins("x86-64-v3", argc, argv);
}
END
for linking in '-pie -fPIE' -static-pie; do
    # shellcheck disable=SC2086
    if ! cc -O2 -Wall -Wextra -Werror $linking -o "$scratch/both" any_processor.c "$scratch/halves.c"; then
        fail "any_processor.c, $linking" "it isn't compiled"
        finish
        exit
    fi

    # begins MODEL HALF [VARIABLE]: on a model of a processor this half begins, with all words, and its status is given.
    begins() {
        runs "$linking, on $1${3:+ with $3}" 3 "$2 word  end" '' \
            env -u VERITY_PROCESSOR ${3:+"$3"} qemu-x86_64 -cpu "$1" "$scratch/both" word ''
    }

    # Core 2 has less than x86-64-v2, and Nehalem has that and no more.
    for model in core2duo Nehalem max,-{avx,avx2,bmi1,bmi2,f16c,fma,abm,movbe,sse4.2,popcnt,xsave}; do
        begins "$model" x86-64
    done
    begins max x86-64-v3
    begins max x86-64 VERITY_PROCESSOR=x86-64
    for value in '' x86-64-v3 x86-64-v2 x86-64-v4 X86-64 x86-6 ' x86-64' any; do
        begins max x86-64-v3 "VERITY_PROCESSOR=$value"
        begins max,-avx2 x86-64 "VERITY_PROCESSOR=$value"
    done
done
finish
