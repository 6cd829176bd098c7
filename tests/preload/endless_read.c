/* Preloaded, it answers each read of standard input with one byte `x`, as often as READS says, and then with the end
   of the input. At the end it writes how many reads there were to the file that COUNT_READS names. */
#define _GNU_SOURCE
#include <dlfcn.h>
#include <fcntl.h>
#include <stdio.h>
#include <stdlib.h>
#include <unistd.h>

static long count;

ssize_t read(int file, void *buffer, size_t size)
{
    static ssize_t (*next_read)(int, void *, size_t);
    static long max_reads;
    if (!next_read) {
        char *text = getenv("READS");
        next_read = (ssize_t(*)(int, void *, size_t))dlsym(RTLD_NEXT, "read");
        max_reads = text ? atol(text) : 0;
    }
    if (file != 0)
        return next_read(file, buffer, size);
    if (++count > max_reads || size == 0)
        return 0;
    *(char *)buffer = 'x';
    return 1;
}

__attribute__((destructor)) static void write_count(void)
{
    char *path = getenv("COUNT_READS"), text[32];
    if (!path)
        return;
    int file = open(path, O_CREAT | O_TRUNC | O_WRONLY, 0600);
    int length = snprintf(text, sizeof text, "%ld\n", count);
    if (write(file, text, length) == length)
        close(file);
}
