/*
 * boot_check.c - reads one block of a dm-verity image and checks it, as a boot loader does before it uses the block.
 *
 * Nothing is linked but checked_blocks.c and libverity.a: no C library, and no memory is asked for. The first part is
 * what a boot loader can take over, with checked_blocks.c: it begins an image, and then as many blocks as one likes are
 * read by checked_read. The second part, from "Linux" on, stands for the boot loader itself: its start, its reads of a
 * disk and its end, here by system calls, so that the program can be run. Every answer is 0, or below 0 for a fault.
 *
 * Build on x86-64, and for 64-bit ARM:
 *
 *     gcc -std=c11 -O2 -ffreestanding -fno-tree-loop-distribute-patterns -nostdlib -static -Iinclude \
 *         -o boot_check examples/boot_check.c examples/checked_blocks.c lib/libverity.a
 *     aarch64-linux-gnu-gcc -std=c11 -O2 -ffreestanding -fno-tree-loop-distribute-patterns -nostdlib -static \
 *         -Iinclude -o boot_check_arm examples/boot_check.c examples/checked_blocks.c lib/aarch64/libverity.a
 *
 * Run, with the image's root hash in hexadecimal and the number of a data block:
 *
 *     ./boot_check DATA HASH ROOT INDEX [HASH_OFFSET] > BLOCK
 *
 * Status 0 if the block is the image's, which is then written. Otherwise 1, nothing is written, and a line on standard
 * error gives the status of the check.
 *
 * The root hash doesn't cover the superblock. Who can change it can have a shorter image checked, or another block of
 * the tree handed out as data. So a boot loader that can keep the parameters beside the root hash fills
 * struct verity_params from there, and reads no superblock.
 */
#include <stddef.h>
#include <stdint.h>

#include "checked_blocks.h"
#include "verity.h"

/* ---------------------------------------------- The image ---------------------------------------------- */

/* The largest data block that fits, how many bytes of hash blocks are kept, and how many hash blocks at most. */
enum { BLOCK_ROOM = 65536, HASH_ROOM = 4 * 65536, PLACES = 16 };

static uint8_t superblock[512];
static uint8_t data_block[BLOCK_ROOM];
static uint8_t hash_blocks[HASH_ROOM];
static struct checked_place place[PLACES];

/*
 * Reads the superblock, and gives the image its parameters and the room that there is. Reader, devices and root hash
 * are there already. Answers 0, or why the image can't be read.
 */
static int begin_image(struct checked_image *image, uint64_t hash_offset) {
    int ret;

    if (image->read(image->hash_device, hash_offset, superblock, sizeof superblock) != 0)
        return CHECKED_NOT_READ;
    ret = verity_read_superblock(superblock, sizeof superblock, hash_offset, &image->params);
    if (ret < 0)
        return ret;
    if (image->params.data_block_size > BLOCK_ROOM)
        return CHECKED_NO_ROOM;
    image->places = HASH_ROOM / image->params.hash_block_size;
    if (image->places > PLACES)
        image->places = PLACES;
    image->place = place;
    image->hash_blocks = hash_blocks;
    return checked_begin(image);
}

/* What the library needs of its user. */

void *memcpy(void *restrict to, const void *restrict from, size_t length) {
    for (size_t i = 0; i < length; i++)
        ((uint8_t *)to)[i] = ((const uint8_t *)from)[i];
    return to;
}

void *memmove(void *to, const void *from, size_t length) {
    uint8_t *there = to;
    const uint8_t *here = from;
    if ((uintptr_t)to < (uintptr_t)from) {
        for (size_t i = 0; i < length; i++)
            there[i] = here[i];
    } else {
        for (size_t i = length; i > 0; i--)
            there[i - 1] = here[i - 1];
    }
    return to;
}

void *memset(void *to, int value, size_t length) {
    for (size_t i = 0; i < length; i++)
        ((uint8_t *)to)[i] = (uint8_t)value;
    return to;
}

/* ------------------------------------------------ Linux ------------------------------------------------ */

#if defined __x86_64__
enum { WRITE = 1, PREAD64 = 17, EXIT = 60, OPENAT = 257 };
__asm__(".text\n.globl _start\n_start: mov %rsp, %rdi\nand $-16, %rsp\ncall start\n");

static long system_call(long number, long a, long b, long c, long d) {
    register long fourth __asm__("r10") = d;
    __asm__ volatile("syscall"
                     : "+a"(number)
                     : "D"(a), "S"(b), "d"(c), "r"(fourth)
                     : "rcx", "r11", "memory");
    return number;
}
#elif defined __aarch64__
enum { WRITE = 64, PREAD64 = 67, EXIT = 93, OPENAT = 56 };
__asm__(".text\n.globl _start\n_start: mov x0, sp\nbl start\n");

static long system_call(long number, long a, long b, long c, long d) {
    register long which __asm__("x8") = number;
    register long first __asm__("x0") = a;
    register long second __asm__("x1") = b;
    register long third __asm__("x2") = c;
    register long fourth __asm__("x3") = d;
    __asm__ volatile("svc #0" : "+r"(first) : "r"(which), "r"(second), "r"(third), "r"(fourth) : "memory");
    return first;
}
#endif

static void write_all(int file, const void *bytes, size_t length) {
    while (length > 0) {
        long written = system_call(WRITE, file, (long)bytes, (long)length, 0);
        if (written <= 0)
            system_call(EXIT, 1, 0, 0, 0);
        bytes = (const uint8_t *)bytes + written;
        length -= (size_t)written;
    }
}

static void say(const char *text) {
    size_t length = 0;
    while (text[length] != 0)
        length++;
    write_all(2, text, length);
}

static void say_number(uint64_t number) {
    char digits[21];
    size_t first = sizeof digits - 1;
    digits[first] = 0;
    do {
        digits[--first] = (char)('0' + number % 10);
        number /= 10;
    } while (number > 0);
    say(digits + first);
}

static _Noreturn void refuse(const char *text) {
    say(text);
    say("\n");
    for (;;)
        system_call(EXIT, 1, 0, 0, 0);
}

/* Opens a file to read it. */
static int open_file(const char *name) {
    const long current_folder = -100;
    long file = system_call(OPENAT, current_folder, (long)name, 0, 0);
    if (file < 0)
        refuse("a file can't be opened");
    return (int)file;
}

static int read_file(void *device, uint64_t start, uint8_t *bytes, size_t length) {
    while (length > 0) {
        long found = system_call(PREAD64, *(const int *)device, (long)bytes, (long)length, (long)start);
        if (found <= 0)
            return -1;
        bytes += found;
        start += (uint64_t)found;
        length -= (size_t)found;
    }
    return 0;
}

static uint64_t number_of(const char *text) {
    uint64_t number = 0;
    if (*text == 0)
        refuse("a number is missing");
    for (; *text != 0; text++) {
        unsigned digit = (unsigned)(*text - '0');
        if (digit > 9 || number > (UINT64_MAX - digit) / 10)
            refuse("a number isn't decimal, or too large");
        number = number * 10 + digit;
    }
    return number;
}

static unsigned hexadecimal(char digit) {
    if (digit >= '0' && digit <= '9')
        return (unsigned)(digit - '0');
    if (digit >= 'a' && digit <= 'f')
        return (unsigned)(digit - 'a') + 10;
    refuse("the root hash isn't in hexadecimal");
}

static size_t read_hexadecimal(const char *text, uint8_t *bytes, size_t room) {
    size_t length = 0;
    for (; text[0] != 0; text += 2) {
        if (length == room)
            refuse("the root hash is too long");
        bytes[length++] = (uint8_t)(hexadecimal(text[0]) << 4 | hexadecimal(text[1]));
    }
    return length;
}

/* Where the program begins: the stack holds how many arguments there are, and then them. */
_Noreturn void start(long *stack) {
    char **arguments = (char **)(stack + 1);
    uint8_t root[VERITY_MAX_DIGEST_SIZE];
    size_t level = 0;
    int ret;

    if (stack[0] != 5 && stack[0] != 6)
        refuse("usage: boot_check DATA HASH ROOT INDEX [HASH_OFFSET]");
    int data = open_file(arguments[1]);
    int hash = open_file(arguments[2]);
    struct checked_image image = {.root = root, .read = read_file, .data_device = &data, .hash_device = &hash};
    image.root_length = read_hexadecimal(arguments[3], root, sizeof root);

    ret = begin_image(&image, stack[0] == 6 ? number_of(arguments[5]) : 0);
    if (ret == 0)
        ret = checked_read(&image, number_of(arguments[4]), data_block, image.params.data_block_size, &level);
    if (ret < 0) {
        say("status -");
        say_number((uint64_t)-(int64_t)ret);
        if (ret == VERITY_DIFFERS) {
            say(", level ");
            say_number(level);
        }
        refuse("");
    }
    write_all(1, data_block, image.params.data_block_size);
    for (;;)
        system_call(EXIT, 0, 0, 0, 0);
}
