/*
 * clang_with_instructions.c - stands in for the toolchain's clang while something is built with the processor's SHA
 * instructions. rattle gives clang the whole of it as one file of bitcode. There the bodies of functions are replaced
 * that a file of LLVM's language defines anew, and the real clang compiles the result.
 *
 * rattle starts clang by the loader in its folder, so this is a program and no script. TOOLCHAIN is the toolchain's own
 * folder, and FOLDER that of the files. FOR is `programs` or `library`: what decides whether the instructions are
 * wanted. For 64-bit ARM, WORDS are further words for clang, strings with a comma after each, and FEATURES what they
 * mean in LLVM's language. Where a function's head isn't the one that is defined anew, the build fails. If INSTRUCTIONS
 * is 0, nothing is replaced, and clang only gets the words.
 */
#include <stdio.h>
#include <stdlib.h>
#include <string.h>
#include <sys/wait.h>
#include <unistd.h>

/* Functions whose names begin so, and which take vectors or bytes, may use these features. */
struct users {
    const char *begin, *features;
};

/*
 * What is done for a target. Features are those of some functions alone, since otherwise all code would use them; on ARM
 * these lose what clang's words say, so that is said again. SHA1 and SHA2 of ARM are a word for all of the code: nothing
 * but the instructions uses them.
 */
struct target {
    const char *option, *file;
    struct users users[3];
    char *words[16];
};

#if INSTRUCTIONS
#define SHA2 "-Xclang", "-target-feature", "-Xclang", "+sha2",
#else
#define SHA2
#endif
#define ARM "+v8a,+fp-armv8,+neon,+outline-atomics" FEATURES ",+sha2,+sha3"
static const struct target targets[] = {
    {"--target=x86_64-", FOLDER "/instructions_of_x86.ll", {{"sha_instructions::", "+sha,+sse4.1,+ssse3"}}, {NULL}},
    {"--target=aarch64-",
     FOLDER "/instructions_of_arm.ll",
     {{"sha_instructions::sha_512::", ARM}, {"sha_instructions::instructions::sha512", ARM}},
     {WORDS SHA2 NULL}},
};

static void fails(const char *why, const char *what)
{
    fprintf(stderr, "clang_with_instructions: %s: %s\n", why, what);
    exit(1);
}

/* The real clang, with these words and some more after them. */
static void becomes_clang(char *const *words, char *const *more)
{
    char *all[256] = {TOOLCHAIN "/lib/ld-linux-x86-64.so.2", "--inhibit-cache", "--argv0", TOOLCHAIN "/bin/clang",
                      TOOLCHAIN "/bin/clang"};
    size_t count = 5;

    for (; *words != NULL && count < 255; words++)
        all[count++] = *words;
    for (; *more != NULL && count < 255; more++)
        all[count++] = *more;
    if (count == 255)
        fails("too many words", "clang");
    execv(all[0], all);
    fails("can't be started", all[0]);
}

/* Turns bitcode into text. */
static void to_text(char *option, char *bitcode, char *text)
{
    char *const words[] = {option, "--no-default-config", "-x", "ir", bitcode, "-S", "-emit-llvm", "-O0", "-Xclang",
                           "-disable-llvm-passes", "-o", text, NULL};
    static char *const none[] = {NULL};
    int status;
    pid_t child = fork();

    if (child == 0)
        becomes_clang(words, none);
    if (child < 0 || waitpid(child, &status, 0) != child || status != 0)
        fails("can't be turned into text", bitcode);
}

/* The whole text of a file. */
static char *text_of(const char *path)
{
    FILE *file = fopen(path, "r");
    char *text = NULL;
    size_t room = 0;

    if (file == NULL || getdelim(&text, &room, 0, file) <= 0)
        fails("can't be read", path);
    fclose(file);
    return text;
}

/* The name that stands in quotes in the line of a definition, and how long it is; an empty one if none does. */
static const char *name_in(const char *line, size_t *length)
{
    const char *name = strstr(line, " @\""), *end = name == NULL ? NULL : strstr(name, "\"(");

    *length = end == NULL ? 0 : (size_t)(end - name) - 3;
    return end == NULL ? "" : name + 3;
}

/* The definition of the same function in a text, or NULL. */
static const char *defined_anew(const char *text, const char *name, size_t length)
{
    const char *found = text;

    while ((found = strstr(found, "\ndefine ")) != NULL) {
        size_t other_length;
        const char *other = name_in(++found, &other_length);
        if (length != 0 && length == other_length && strncmp(name, other, length) == 0)
            return found;
    }
    return NULL;
}

/*
 * Writes the line that begins a definition, with the features that the function may use. It then has no red zone either:
 * it calls nothing, so it would be the first to use one.
 */
static void puts_head(const struct target *target, const char *line, FILE *out)
{
    const char *features = NULL, *name;
    size_t length;

    if (line[strlen(line) - 1] != '{')
        fails("not the head of a function", line);
    name = name_in(line, &length);
    for (const struct users *users = target->users; users->begin != NULL; users++) {
        if (strncmp(name, users->begin, strlen(users->begin)) == 0 && strncmp(name + length, "\"(ptr ", 6) == 0)
            features = users->features;
    }
    fprintf(out, "%.*s", (int)strlen(line) - 1, line);
    if (features != NULL)
        fprintf(out, "noredzone \"target-features\"=\"%s\" ", features);
    fprintf(out, "{\n");
}

/* Whether the attributes after a head say what a function does with memory, which its new body may not do. */
static int says_memory(const char *head, const char *text)
{
    const char *group = strchr(head, '#');
    char begin[32];

    if (group == NULL)
        return 0;
    snprintf(begin, sizeof begin, "\nattributes #%d = ", atoi(group + 1));
    text = strstr(text, begin);
    if (text == NULL)
        fails("there are no such attributes", head);
    text += strlen(begin);
    return memmem(text, strcspn(text, "\n"), "memory(", 7) != NULL;
}

/* Copies a text, with what is defined anew in its place. Answers how many functions were. */
static int replaces(const struct target *target, char *text, const char *anew, FILE *out)
{
    int replaced = 0;

    for (char *line = text, *end; *line != 0; line = end) {
        size_t length;
        const char *name = "", *other;
        end = strchrnul(line, '\n');
        if (*end == '\n')
            *end++ = 0;
        if (strncmp(line, "define ", 7) == 0)
            name = name_in(line, &length);
        if (strncmp(name, "sha_instructions::", 18) != 0) {
            fprintf(out, "%s\n", line);
            continue;
        }
        puts_head(target, line, out);
        other = defined_anew(anew, name, length);
        if (other != NULL) {
            const char *head_end = strchr(other, '{'), *body_end = strstr(other, "\n}\n");
            size_t head = (size_t)(head_end - other) - 1;
            if (body_end == NULL || strncmp(line, other, head) != 0 || line[head] != ' ' ||
                says_memory(line + head, end))
                fails("another head was expected", line);
            fprintf(out, "%.*s\n}\n", (int)(body_end - head_end) - 1, head_end + 2);
            replaced++;
            end = strstr(end, "\n}\n");
            if (end == NULL)
                fails("a definition has no end", line);
            end += 3;
        }
    }
    return replaced;
}

/* Writes what a text has beside definitions: declarations, variables and comments. */
static int puts_rest(const char *anew, FILE *out)
{
    int definitions = 0;

    for (const char *at = anew; at != NULL && *at != 0;) {
        const char *next = strstr(at, "\ndefine ");
        if (next == NULL) {
            fputs(at, out);
            break;
        }
        fprintf(out, "%.*s", (int)(next - at) + 1, at);
        at = strstr(next, "\n}\n");
        if (at == NULL)
            fails("a definition has no end", next);
        at += 3;
        definitions++;
    }
    return definitions;
}

int main(int argc, char **argv)
{
    static char *const none[] = {NULL};
    const struct target *target = NULL;
    char *option = NULL, *path, *anew;
    int bitcode = 0, replaced;
    FILE *out;

    for (int i = 1; i < argc; i++) {
        size_t length = strlen(argv[i]);
        for (size_t t = 0; t < sizeof targets / sizeof *targets; t++) {
            if (strncmp(argv[i], targets[t].option, strlen(targets[t].option)) == 0) {
                target = &targets[t];
                option = argv[i];
            }
        }
        if (length > 3 && strcmp(argv[i] + length - 3, ".bc") == 0) {
            if (bitcode != 0)
                fails("a second file of bitcode", argv[i]);
            bitcode = i;
        }
    }
    if (target == NULL && bitcode != 0)
        fails("its target isn't known", argv[bitcode]);
    if (bitcode == 0 || !INSTRUCTIONS)
        becomes_clang(argv + 1, target == NULL ? none : target->words);
    /* In the folder of the bitcode, which is rattle's own for this build. */
    path = malloc(strlen(argv[bitcode]) + 8);
    if (path == NULL)
        fails("no memory", argv[bitcode]);
    sprintf(path, "%s.ll", argv[bitcode]);
    to_text(option, argv[bitcode], path);
    anew = text_of(target->file);
    char *text = text_of(path);
    sprintf(path, "%s.new.ll", argv[bitcode]);
    out = fopen(path, "w");
    if (out == NULL)
        fails("can't be opened", path);
    replaced = replaces(target, text, anew, out);
    if (replaced != 0 && puts_rest(anew, out) != replaced)
        fails("not each function is there that is defined anew", target->file);
    fputs(text_of(FOLDER "/wanted_by_" FOR ".ll"), out);
    if (ferror(out) || fclose(out) != 0)
        fails("can't be written", path);
    if (replaced != 0)
        argv[bitcode] = path;
    becomes_clang(argv + 1, target->words);
}
