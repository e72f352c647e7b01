# Completes the words of veritysetup, for fish: commands, their options, the options' values, and names of files.

# Whether an option of these commands may be typed, or its value: each option is given once.
function __veritysetup_takes --argument-names option
    set -l words (commandline -opc)
    if not contains -- "$words[2]" $argv[2..]
        return 1
    end
    if test "$words[-1]" = --$option; and test $option != no-superblock
        set -e words[-1]
    end
    not string match -qr -- "^--$option(=|\$)" $words
end

set -l sizes '512 1024 2048 4096 8192 16384 32768 65536 131072 262144 524288'

complete -c veritysetup -n 'test (count (commandline -opc)) -eq 1' -f -a format -d 'make a hash device'
complete -c veritysetup -n 'test (count (commandline -opc)) -eq 1' -f -a dump -d 'print what a superblock says'
complete -c veritysetup -n 'test (count (commandline -opc)) -eq 1' -f -a verify -d 'compare data and tree'
complete -c veritysetup -n '__veritysetup_takes hash format verify' -l hash -x -k \
    -a 'sha256 sha512 sha384 sha224 sha1' -d 'hash function'
complete -c veritysetup -n '__veritysetup_takes format format verify' -l format -x -a '0 1' -d 'hash type'
complete -c veritysetup -n '__veritysetup_takes data-block-size format verify' -l data-block-size -x -k -a $sizes \
    -d 'size of a data block in bytes'
complete -c veritysetup -n '__veritysetup_takes hash-block-size format verify' -l hash-block-size -x -k -a $sizes \
    -d 'size of a hash block in bytes'
complete -c veritysetup -n '__veritysetup_takes data-blocks format verify' -l data-blocks -x \
    -d 'how many data blocks are covered'
complete -c veritysetup -n '__veritysetup_takes salt format verify' -l salt -x \
    -d 'salt in hexadecimal digits, or - for none'
complete -c veritysetup -n '__veritysetup_takes uuid format' -l uuid -x -d 'UUID of the superblock'
complete -c veritysetup -n '__veritysetup_takes hash-offset format dump verify' -l hash-offset -x \
    -d 'byte of HASH at which the superblock or the tree begins'
complete -c veritysetup -n '__veritysetup_takes no-superblock format verify' -l no-superblock \
    -d 'write or read no superblock'
