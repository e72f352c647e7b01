# The versions of Debian's programs that docs/DIFFERENCES.md speaks of. Sourced after tests/lib/checks.sh.

# needs_versions: ends with status LEFT_OUT if the programs that are installed have other versions.
needs_versions() {
    local versions
    versions="$(veritysetup --version | cut -d' ' -f2) $(fsverity --version | cut -d' ' -f2)"
    if [ "$versions" != '2.6.1 v1.5' ]; then
        echo "$0: docs/DIFFERENCES.md is about cryptsetup 2.6.1 and fsverity 1.5, and these are $versions"
        exit "$LEFT_OUT"
    fi
}
