/*
 * any_processor.c - begins a program that has been compiled twice, for every x86-64 processor and for x86-64-v3. The
 * second is taken if the processor has all of that, and the system has switched it on.
 *
 * VERITY_PROCESSOR=x86-64 in the environment takes the first in any case. No other value changes which is taken.
 */
#include <stdlib.h>
#include <string.h>

int main_for_x86_64(int argc, char **argv);
int main_for_x86_64_v3(int argc, char **argv);

int main(int argc, char **argv)
{
    const char *chosen = getenv("VERITY_PROCESSOR");

    if ((chosen != NULL && strcmp(chosen, "x86-64") == 0) || !__builtin_cpu_supports("x86-64-v3"))
        return main_for_x86_64(argc, argv);
    return main_for_x86_64_v3(argc, argv);
}
