# Completes the words of fsverity, for fish: the command, its options, their values, and names of files.

# Whether an option of `digest` may be typed, or its value: each option is given once.
function __fsverity_takes --argument-names option
    set -l words (commandline -opc)
    if test "$words[2]" != digest
        return 1
    end
    if test "$words[-1]" = --$option; and not contains $option compact for-builtin-sig
        set -e words[-1]
    end
    not string match -qr -- "^--$option(=|\$)" $words
end

# The sizes of blocks: a block holds two digests at least.
function __fsverity_sizes
    if not string match -qr -- '^(--hash-alg=)?sha512$' (commandline -opc)
        echo 64
    end
    string split ' ' '128 256 512 1024 2048 4096 8192 16384 32768 65536 131072 262144 524288'
end

complete -c fsverity -n 'test (count (commandline -opc)) -eq 1' -f -a digest -d 'print the digests of files'
complete -c fsverity -n '__fsverity_takes hash-alg' -l hash-alg -x -a 'sha256 sha512' -d 'hash function'
complete -c fsverity -n '__fsverity_takes block-size' -l block-size -x -k -a '(__fsverity_sizes)' \
    -d 'size of a block in bytes'
complete -c fsverity -n '__fsverity_takes salt' -l salt -x -d 'salt in hexadecimal digits'
complete -c fsverity -n '__fsverity_takes compact' -l compact -d 'print the digest alone'
complete -c fsverity -n '__fsverity_takes for-builtin-sig' -l for-builtin-sig -d 'print what a builtin signature signs'
complete -c fsverity -n '__fsverity_takes out-merkle-tree' -l out-merkle-tree -r -F -d 'write the tree to a file'
complete -c fsverity -n '__fsverity_takes out-descriptor' -l out-descriptor -r -F -d 'write the descriptor to a file'
