/* The C functions that the program calls and that the kit provides only for x86-64, in libos_c.a and liblibc_c.a. They
 * are trusted: nothing proves them. tests/arm64/shim compares them with the kit's.
 *
 * The comment on a function names the file of the kit that declares it. A slice in that declaration is passed as a
 * pointer and a length, and a parameter of the type core::rt::Memory is not passed at all. */
#define _GNU_SOURCE
#include <errno.h>
#include <fcntl.h>
#include <stdbool.h>
#include <stddef.h>
#include <stdint.h>
#include <stdlib.h>
#include <string.h>
#include <sys/types.h>
#include <unistd.h>

_Static_assert(sizeof(size_t) == 8 && sizeof(off_t) == 8 && sizeof(int) == 4 && sizeof(short) == 2,
               "os/src/c.rt declares these types with 64, 64, 32 and 16 bits");
_Static_assert(_Alignof(max_align_t) >= 16, "libc/src/heap.rt allows alignments up to 16");
_Static_assert(F_RDLCK == 0 && F_WRLCK == 1 && F_UNLCK == 2, "os/src/lib.rt passes these kinds of locks");

/* libc/src/types.rt, Tried: p is never null. If ok is false, it points to a byte that nobody owns. */
struct tried {
    bool ok;
    void *p;
};

static struct tried tried(void *block) {
    static unsigned char none;
    struct tried it = {block != NULL, block != NULL ? block : &none};
    return it;
}

/* libc/src/heap.rt. malloc may return NULL for 0 bytes, so one byte is requested. Its blocks have every alignment that
 * can be requested. */
struct tried rattle_alloc(size_t n, size_t alignment) {
    (void)alignment;
    return tried(malloc(n != 0 ? n : 1));
}

/* libc/src/heap.rt. realloc keeps more than the first `kept` bytes, and leaves the block as it is if it fails. */
struct tried rattle_realloc(void *p, size_t kept, size_t n, size_t alignment) {
    (void)kept;
    (void)alignment;
    return tried(realloc(p, n != 0 ? n : 1));
}

/* libc/src/heap.rt */
void rattle_dealloc(void *p) { free(p); }

/* os/src/c.rt */
int32_t rattle_errno(void) { return errno; }

/* os/src/c.rt */
void rattle_set_errno(int32_t error) { errno = error; }

/* The arguments of main. glibc passes them to each function of .init_array, before main. */
static size_t count;
static char **arguments;

static void keep(int argc, char **argv, char **environment) {
    (void)environment;
    count = (size_t)argc;
    arguments = argv;
}

__attribute__((section(".init_array"), used)) static void (*const keeps)(int, char **, char **) = keep;

/* os/src/c.rt: copies argument i to the start of buf and returns its length, or -1 if there is no such argument. If it
 * does not fit, its first bytes fill buf, and the result is -2. */
ssize_t rattle_arg(size_t i, unsigned char *buf, size_t size) {
    if (i >= count) return -1;
    size_t length = strlen(arguments[i]);
    bool fits = length <= size;
    memcpy(buf, arguments[i], fits ? length : size);
    return fits ? (ssize_t)length : -2;
}

/* os/src/c.rt: fcntl with F_OFD_SETLK. The range is counted from the start of the file. */
int32_t rattle_lock_range(int32_t fd, int16_t kind, int64_t start, int64_t len) {
    struct flock range = {.l_type = kind, .l_whence = SEEK_SET, .l_start = start, .l_len = len, .l_pid = 0};
    return fcntl(fd, F_OFD_SETLK, &range);
}
