/* Starts the program for 64-bit ARM with the emulator. The emulator and this program are linked statically, so only the
 * emulated program loads a library that a test preloads. */
#include <stdlib.h>
#include <unistd.h>

int main(int argc, char **argv)
{
    char **words = calloc((size_t)argc + 6, sizeof *words), **next = words;
    if (!words || argc == 0)
        return 127;
    *next++ = EMULATOR;
    *next++ = "-L";
    *next++ = TOOLCHAIN;
    *next++ = "-0";
    *next++ = argv[0];
    *next++ = PROGRAM;
    for (int index = 1; index < argc; index++)
        *next++ = argv[index];
    execv(EMULATOR, words);
    return 127;
}
