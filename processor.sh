#!/usr/bin/env bash
# processor.sh [LOADER..]: prints for which processor the programs are built here: x86-64-v3, if the one that builds
# has all of it, AVX2 among others, and x86-64-v2 else. The system's loader tells; where none does, the flags that the
# kernel lists. LOADER is a command in the loader's place, and CPUINFO a file in that of /proc/cpuinfo.
if [ $# -eq 0 ]; then set -- /lib64/ld-linux-x86-64.so.2; fi
listed=$("$@" --help 2>/dev/null | grep '^ *x86-64-v3')
if [ -z "$listed" ]; then
    listed='(supported'
    flags=" $(grep -m 1 '^flags' "${CPUINFO:-/proc/cpuinfo}" 2>/dev/null) "
    # The kernel's names of what x86-64-v2 and then x86-64-v3 have by the ABI: LZCNT is abm, SSE3 pni, LAHF lahf_lm.
    for flag in cx16 lahf_lm popcnt pni ssse3 sse4_1 sse4_2 avx avx2 bmi1 bmi2 f16c fma abm movbe xsave; do
        if [[ $flags != *" $flag "* ]]; then listed=; fi
    done
fi
case $listed in
*'(supported'*) echo x86-64-v3 ;;
*) echo x86-64-v2 ;;
esac
