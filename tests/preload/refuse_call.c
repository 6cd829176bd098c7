/* Preloaded, it makes a call of one kind fail, which REFUSE_KIND names: growth (an allocation), input (a read of
   standard input), or read, write, sync or truncation (of a file, at a place). It is the call whose number
   REFUSE_NUMBER gives, counted from 1; with REFUSE_ON set also each call of the kind after it. If one fails, it makes
   the empty file that REFUSE_MARK names. At the end it writes how many calls of the kind there were to the file that
   COUNT_CALLS names. */
#define _GNU_SOURCE
#include <errno.h>
#include <fcntl.h>
#include <stdio.h>
#include <stdlib.h>
#include <string.h>
#include <sys/syscall.h>
#include <unistd.h>

void *__libc_malloc(size_t);
void *__libc_realloc(void *, size_t);
void *__libc_memalign(size_t, size_t);

static const char *chosen_kind;
static long chosen_number, count;

static int is_call_refused(const char *kind, int error_number)
{
    if (!chosen_kind) {
        char *number_text = getenv("REFUSE_NUMBER");
        chosen_kind = getenv("REFUSE_KIND");
        if (!chosen_kind)
            chosen_kind = "none";
        chosen_number = number_text ? atol(number_text) : 0;
    }
    if (strcmp(kind, chosen_kind) != 0)
        return 0;
    count++;
    if (chosen_number == 0 || count < chosen_number || (count > chosen_number && !getenv("REFUSE_ON")))
        return 0;
    char *mark_path = getenv("REFUSE_MARK");
    if (mark_path)
        syscall(SYS_close, syscall(SYS_openat, AT_FDCWD, mark_path, O_CREAT | O_WRONLY, 0600));
    errno = error_number;
    return 1;
}

void *malloc(size_t size)
{
    return is_call_refused("growth", ENOMEM) ? NULL : __libc_malloc(size);
}

void *realloc(void *old_block, size_t size)
{
    return is_call_refused("growth", ENOMEM) ? NULL : __libc_realloc(old_block, size);
}

void *aligned_alloc(size_t alignment, size_t size)
{
    return is_call_refused("growth", ENOMEM) ? NULL : __libc_memalign(alignment, size);
}

int posix_memalign(void **result, size_t alignment, size_t size)
{
    if (is_call_refused("growth", ENOMEM))
        return ENOMEM;
    *result = __libc_memalign(alignment, size);
    return *result ? 0 : ENOMEM;
}

ssize_t read(int file, void *buffer, size_t size)
{
    return file == 0 && is_call_refused("input", EIO) ? -1 : syscall(SYS_read, file, buffer, size);
}

ssize_t pread(int file, void *buffer, size_t size, off_t offset)
{
    return is_call_refused("read", EIO) ? -1 : syscall(SYS_pread64, file, buffer, size, offset);
}

ssize_t pwrite(int file, const void *buffer, size_t size, off_t offset)
{
    return is_call_refused("write", ENOSPC) ? -1 : syscall(SYS_pwrite64, file, buffer, size, offset);
}

int fsync(int file)
{
    return is_call_refused("sync", EIO) ? -1 : syscall(SYS_fsync, file);
}

int fdatasync(int file)
{
    return is_call_refused("sync", EIO) ? -1 : syscall(SYS_fdatasync, file);
}

int ftruncate(int file, off_t length)
{
    return is_call_refused("truncation", EIO) ? -1 : syscall(SYS_ftruncate, file, length);
}

__attribute__((destructor)) static void write_count(void)
{
    char *path = getenv("COUNT_CALLS"), text[32];
    if (!path)
        return;
    int file = open(path, O_CREAT | O_TRUNC | O_WRONLY, 0600);
    int length = snprintf(text, sizeof text, "%ld\n", count);
    if (write(file, text, length) == length)
        close(file);
}
