/* Preloaded, it makes the program lose syncs of its files. LOSE_SYNC says which:

     all      every sync
     file     every sync of the database itself, so that its log is used again too early
     commit   the sync of the log after the last byte of a commit
     late     the same, but the log is synced when the program next reads its input: after the answer */
#define _GNU_SOURCE
#include <stdio.h>
#include <stdlib.h>
#include <string.h>
#include <sys/syscall.h>
#include <unistd.h>

/* The size of the last write to a log, and the log that has yet to be synced, or -1. */
static size_t last_size;
static int late_log = -1;

static int is_chosen_fault(const char *fault)
{
    const char *chosen_fault = getenv("LOSE_SYNC");
    return chosen_fault && strcmp(chosen_fault, fault) == 0;
}

static int has_path_ending(const char *end, int file)
{
    char link[32], path[4096];
    snprintf(link, sizeof link, "/proc/self/fd/%d", file);
    ssize_t length = readlink(link, path, sizeof path), size = strlen(end);
    return length > size && memcmp(path + length - size, end, size) == 0;
}

static int is_log(int file)
{
    return has_path_ending("-wal", file);
}

static int is_lost_sync(int file)
{
    if (is_chosen_fault("all") || (is_chosen_fault("file") && has_path_ending(".db", file)))
        return 1;
    if (!is_log(file))
        return 0;
    if (is_chosen_fault("late") && last_size == 1)
        late_log = file;
    return (is_chosen_fault("commit") || is_chosen_fault("late")) && last_size == 1;
}

ssize_t pwrite(int file, const void *buffer, size_t size, off_t offset)
{
    if (is_log(file))
        last_size = size;
    return syscall(SYS_pwrite64, file, buffer, size, offset);
}

int fsync(int file)
{
    return is_lost_sync(file) ? 0 : syscall(SYS_fsync, file);
}

int fdatasync(int file)
{
    return is_lost_sync(file) ? 0 : syscall(SYS_fdatasync, file);
}

ssize_t read(int file, void *buffer, size_t size)
{
    if (file == 0 && late_log >= 0) {
        syscall(SYS_fdatasync, late_log);
        late_log = -1;
    }
    return syscall(SYS_read, file, buffer, size);
}
