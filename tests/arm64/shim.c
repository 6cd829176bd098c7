/* Calls the functions of packaging/arm64/rattle_c.c in every way that the kit's declarations allow, and prints what
 * they do. With the kit's own functions it prints the same lines. Run it as
 *
 *     PROGRAM one '' three ..    in a folder in which files may be created
 *
 * It ends with status 1 if a line ends in WRONG. */
#define _GNU_SOURCE
#include <errno.h>
#include <fcntl.h>
#include <stdbool.h>
#include <stdint.h>
#include <stdio.h>
#include <string.h>
#include <sys/types.h>
#include <sys/wait.h>
#include <unistd.h>

struct allocation_result {
    bool ok;
    void *block;
};
struct allocation_result rattle_alloc(size_t size, size_t alignment);
struct allocation_result rattle_realloc(void *pointer, size_t kept_size, size_t size, size_t alignment);
void rattle_dealloc(void *pointer);
int32_t rattle_errno(void);
void rattle_set_errno(int32_t error);
ssize_t rattle_arg(size_t index, unsigned char *buffer, size_t size);
int32_t rattle_lock_range(int32_t fd, int16_t kind, int64_t start, int64_t len);

static int is_wrong;

static void check(const char *description, bool is_right) {
    printf("%s: %s\n", description, is_right ? "ok" : "WRONG");
    is_wrong |= !is_right;
}

/* The heap that the functions use: glibc's, but as strict as C allows. It has no block of 0 bytes, and no memory at all
 * while it is full. It counts its blocks, and records how many bytes were last requested. */
extern void *__libc_malloc(size_t size);
extern void *__libc_realloc(void *pointer, size_t size);
extern void __libc_free(void *pointer);
static long block_count;
static size_t requested_size;
static bool is_full;

void *malloc(size_t size) {
    requested_size = size;
    void *allocated = is_full || size == 0 ? NULL : __libc_malloc(size);
    block_count += allocated != NULL;
    return allocated;
}

void free(void *allocated) {
    block_count -= allocated != NULL;
    __libc_free(allocated);
}

void *realloc(void *allocated, size_t size) {
    requested_size = size;
    if (size == 0) free(allocated);
    return is_full || size == 0 ? NULL : __libc_realloc(allocated, size);
}

enum { BLOCK_COUNT = 3000 };
static unsigned char *allocated_blocks[BLOCK_COUNT];

/* has_block_bytes: the first bytes of the block are those that write_block_bytes() puts into the block of this
 * number. */
static bool has_block_bytes(const unsigned char *bytes, size_t size, size_t block_number) {
    for (size_t offset = 0; offset < size; offset++)
        if (bytes[offset] != (block_number + offset) % 251) return false;
    return true;
}

static void write_block_bytes(unsigned char *bytes, size_t size, size_t block_number) {
    for (size_t offset = 0; offset < size; offset++) bytes[offset] = (unsigned char)((block_number + offset) % 251);
}

/* is_allocated_block: this is a block, and exactly this many bytes of the heap were requested for it, or some if size
 * is 0. */
static bool is_allocated_block(struct allocation_result allocation, size_t size) {
    return allocation.ok && allocation.block != NULL && (uintptr_t)allocation.block % 16 == 0
        && (size != 0 ? requested_size == size : requested_size != 0);
}

static void test_blocks_of_each_size(void) {
    bool are_allocated = true, are_apart = true, are_kept = true;
    long blocks_before = block_count;
    for (size_t index = 0; index < BLOCK_COUNT; index++) {
        struct allocation_result allocation = rattle_alloc(index, (size_t)1 << index % 5);
        are_allocated &= is_allocated_block(allocation, index);
        allocated_blocks[index] = allocation.block;
        write_block_bytes(allocation.block, index, index);
    }
    check("blocks of 0 to 2999 bytes", are_allocated && block_count == blocks_before + BLOCK_COUNT);
    for (size_t index = 0; index < BLOCK_COUNT; index++)
        are_apart &= has_block_bytes(allocated_blocks[index], index, index);
    check("they are apart", are_apart);
    for (size_t index = 0; index < BLOCK_COUNT; index++) {
        size_t size = index * 7919 % 5003, smaller_size = index < size ? index : size;
        struct allocation_result allocation = rattle_realloc(allocated_blocks[index], smaller_size / 2, size,
                                                             (size_t)1 << index % 5);
        are_allocated &= is_allocated_block(allocation, size);
        are_kept &= has_block_bytes(allocation.block, smaller_size / 2, index);
        allocated_blocks[index] = allocation.block;
        write_block_bytes(allocation.block, size, index);
    }
    check("blocks that are made larger or smaller", are_allocated && block_count == blocks_before + BLOCK_COUNT);
    check("they keep their first bytes", are_kept);
    for (size_t index = 0; index < BLOCK_COUNT; index++) rattle_dealloc(allocated_blocks[index]);
    check("all are freed", block_count == blocks_before);
}

static void test_blocks_of_no_bytes(void) {
    long blocks_before = block_count;
    struct allocation_result first = rattle_alloc(0, 1), second = rattle_alloc(0, 16);
    check("two blocks of 0 bytes", is_allocated_block(first, 0) && is_allocated_block(second, 0)
          && first.block != second.block);
    first = rattle_realloc(first.block, 0, 0, 1);
    check("one is made one of 0 bytes", is_allocated_block(first, 0) && block_count == blocks_before + 2);
    first = rattle_realloc(first.block, 0, 100, 1);
    check("and one of 100", is_allocated_block(first, 100) && block_count == blocks_before + 2);
    first = rattle_realloc(first.block, 0, 0, 16);
    check("and one of 0 again", is_allocated_block(first, 0) && first.block != second.block
          && block_count == blocks_before + 2);
    rattle_dealloc(first.block);
    rattle_dealloc(second.block);
    check("both are freed", block_count == blocks_before);
}

/* is_failed_alloc: there is no memory. The block points to a byte that can be read and belongs to no block. */
static bool is_failed_alloc(struct allocation_result allocation, const void *other_block) {
    return !allocation.ok && allocation.block != NULL && allocation.block != other_block
        && (*(volatile unsigned char *)allocation.block, true);
}

static void test_out_of_memory(void) {
    long blocks_before = block_count;
    struct allocation_result allocation = rattle_alloc(4000, 8);
    write_block_bytes(allocation.block, 4000, 7);
    is_full = true;
    check("no memory for a block", is_failed_alloc(rattle_alloc(24, 8), allocation.block));
    check("nor for one of 0 bytes", is_failed_alloc(rattle_alloc(0, 1), allocation.block));
    check("nor for a larger one", is_failed_alloc(rattle_realloc(allocation.block, 4000, 8000, 8), allocation.block)
          && requested_size == 8000);
    check("nor for a smaller one", is_failed_alloc(rattle_realloc(allocation.block, 16, 16, 8), allocation.block)
          && requested_size == 16);
    check("nor for one of 0 bytes in its place",
          is_failed_alloc(rattle_realloc(allocation.block, 0, 0, 8), allocation.block));
    is_full = false;
    check("nor for one of 2^63 - 1 bytes", is_failed_alloc(rattle_alloc(INT64_MAX, 1), allocation.block)
          && requested_size == INT64_MAX);
    check("nor for a larger one of 2^62",
          is_failed_alloc(rattle_realloc(allocation.block, 4000, (size_t)1 << 62, 16), allocation.block));
    check("the block is as it was", has_block_bytes(allocation.block, 4000, 7) && block_count == blocks_before + 1);
    rattle_dealloc(allocation.block);
    check("and is freed", block_count == blocks_before);
}

/* print_argument: prints the result for argument i in a buffer of this size, whose last byte is at most the 22nd of
 * 24. */
static void print_argument(size_t index, size_t size) {
    unsigned char bytes[24];
    memset(bytes, '.', sizeof bytes);
    printf("argument %zu in %zu bytes: %zd ", index, size, rattle_arg(index, bytes + 1, size));
    for (size_t offset = 0; offset < sizeof bytes; offset++)
        printf(bytes[offset] > ' ' && bytes[offset] < 127 ? "%c" : "<%02x>", bytes[offset]);
    printf("\n");
}

static void test_arguments(size_t count, char **argv) {
    static unsigned char large_buffer[100000];
    unsigned char *address_of_nothing = (unsigned char *)1; /* where a slice of no bytes may be */
    for (size_t index = 1; index < count + 2; index++)
        for (size_t size = 0; size < 22; size++) print_argument(index, size);
    for (size_t index = 1; index < count + 2; index++)
        printf("argument %zu in no bytes: %zd\n", index, rattle_arg(index, address_of_nothing, 0));
    ssize_t length = rattle_arg(0, large_buffer, sizeof large_buffer);
    check("argument 0 is the program", length == (ssize_t)strlen(argv[0])
          && memcmp(large_buffer, argv[0], (size_t)length) == 0);
    bool are_equal = true;
    for (size_t index = 1; index < count; index++)
        are_equal &= rattle_arg(index, large_buffer, sizeof large_buffer) == (ssize_t)strlen(argv[index]);
    check("the others have their lengths", are_equal);
    size_t high_indices[] = {INT32_MAX, UINT32_MAX, (size_t)UINT32_MAX + 2, INT64_MAX, (size_t)INT64_MAX + 2, SIZE_MAX};
    for (size_t index = 0; index < sizeof high_indices / sizeof *high_indices; index++)
        printf("argument %zu: %zd\n", high_indices[index],
               rattle_arg(high_indices[index], large_buffer, sizeof large_buffer));
}

static void test_errno(void) {
    int32_t error_numbers[] = {0, 1, ERANGE, 255, 256, 65536, -1, INT32_MAX, INT32_MIN};
    for (size_t index = 0; index < sizeof error_numbers / sizeof *error_numbers; index++) {
        errno = ENOENT;
        rattle_set_errno(error_numbers[index]);
        int first_error = errno;
        printf("the error %d: %d %d", error_numbers[index], first_error, rattle_errno());
        printf(" %d\n", rattle_errno());
    }
    close(-1);
    check("a failed call is reported", errno == EBADF && rattle_errno() == EBADF);
}

/* print_lock_result: prints the result of a lock. POSIX allows two errors if another lock is in the way. */
static void print_lock_result(const char *description, int fd, int16_t kind, int64_t start, int64_t length) {
    errno = 0;
    int32_t result = rattle_lock_range(fd, kind, start, length);
    int32_t error = rattle_errno();
    printf("%s: %d %d\n", description, result, error == EACCES ? EAGAIN : error);
}

enum { SHARED, EXCLUSIVE, NONE };
static const int64_t far_offset = (int64_t)1 << 40;
static int locked_file, other_file, read_only_file;

static void test_exclusive_locks(void) {
    print_lock_result("exclusive", locked_file, EXCLUSIVE, 1 << 30, 512);
    print_lock_result("again", locked_file, EXCLUSIVE, 1 << 30, 512);
    print_lock_result("held", other_file, EXCLUSIVE, 1 << 30, 512);
    print_lock_result("held against a reader", read_only_file, SHARED, 1 << 30, 512);
    print_lock_result("its first byte", other_file, EXCLUSIVE, 1 << 30, 1);
    print_lock_result("its last byte", other_file, EXCLUSIVE, (1 << 30) + 511, 1);
    print_lock_result("the byte before it", other_file, EXCLUSIVE, (1 << 30) - 1, 1);
    print_lock_result("the byte after it", other_file, EXCLUSIVE, (1 << 30) + 512, 1);
    print_lock_result("a part is released", locked_file, NONE, 1 << 30, 256);
    print_lock_result("that part", other_file, EXCLUSIVE, 1 << 30, 256);
    print_lock_result("and not the next byte", other_file, EXCLUSIVE, (1 << 30) + 256, 1);
    print_lock_result("all is released", other_file, NONE, 0, 0);
    print_lock_result("by both", locked_file, NONE, 0, 0);
}

static void test_shared_locks(void) {
    print_lock_result("shared", other_file, SHARED, 100, 50);
    print_lock_result("shared by two", read_only_file, SHARED, 100, 50);
    print_lock_result("exclusive over both", locked_file, EXCLUSIVE, 100, 50);
    print_lock_result("exclusive beside another", other_file, EXCLUSIVE, 100, 50);
    print_lock_result("released by one", read_only_file, NONE, 100, 50);
    print_lock_result("then exclusive by the other", other_file, EXCLUSIVE, 100, 50);
    print_lock_result("and shared again", other_file, SHARED, 100, 50);
    print_lock_result("shared by two again", locked_file, SHARED, 100, 50);
    print_lock_result("released", locked_file, NONE, 0, 0);
    print_lock_result("released by the other", other_file, NONE, 0, 0);
}

static void test_lock_ranges(void) {
    print_lock_result("a far range", locked_file, EXCLUSIVE, far_offset, far_offset);
    print_lock_result("its last byte", other_file, SHARED, 2 * far_offset - 1, 1);
    print_lock_result("the byte after it", other_file, SHARED, 2 * far_offset, 1);
    print_lock_result("the byte before it", other_file, SHARED, far_offset - 1, 1);
    print_lock_result("the first byte of the file", other_file, EXCLUSIVE, 0, 1);
    print_lock_result("up to the last byte", locked_file, EXCLUSIVE, INT64_MAX, 1);
    print_lock_result("past it", locked_file, EXCLUSIVE, INT64_MAX, 2);
    print_lock_result("before the file", locked_file, EXCLUSIVE, -1, 1);
    print_lock_result("bytes before the start", locked_file, EXCLUSIVE, 500, -100);
    print_lock_result("the first of them", other_file, EXCLUSIVE, 400, 1);
    print_lock_result("the byte before them", other_file, EXCLUSIVE, 399, 1);
    print_lock_result("the start", other_file, EXCLUSIVE, 500, 1);
    print_lock_result("no length is up to the end", locked_file, EXCLUSIVE, 3 * far_offset, 0);
    print_lock_result("the last byte", other_file, EXCLUSIVE, INT64_MAX, 1);
}

static void test_refused_locks(void) {
    print_lock_result("exclusive by a reader", read_only_file, EXCLUSIVE, 7, 1);
    print_lock_result("no file", -1, EXCLUSIVE, 7, 1);
    int16_t lock_kinds[] = {3, 7, -1, 256, INT16_MAX, INT16_MIN};
    for (size_t index = 0; index < sizeof lock_kinds / sizeof *lock_kinds; index++)
        print_lock_result("no kind of lock", locked_file, lock_kinds[index], 7, 1);
}

/* test_lock_owner: a lock belongs to the open file, not to the process. */
static void test_lock_owner(void) {
    print_lock_result("one more", locked_file, EXCLUSIVE, 1000, 10);
    close(open("locked", O_RDWR | O_CLOEXEC));
    print_lock_result("it stays when another descriptor is closed", other_file, EXCLUSIVE, 1000, 10);
    pid_t child = fork();
    if (child == 0) {
        print_lock_result("a child has it too", locked_file, EXCLUSIVE, 1000, 10);
        print_lock_result("held in the child", open("locked", O_RDWR), EXCLUSIVE, 1000, 10);
        _exit(0);
    }
    waitpid(child, NULL, 0);
    print_lock_result("and when the child has ended", other_file, EXCLUSIVE, 1000, 10);
    close(locked_file);
    print_lock_result("released by the close", other_file, EXCLUSIVE, 1000, 10);
}

static void test_locks(void) {
    locked_file = open("locked", O_RDWR | O_CREAT | O_CLOEXEC, 0600);
    other_file = open("locked", O_RDWR | O_CLOEXEC);
    read_only_file = open("locked", O_RDONLY | O_CLOEXEC);
    /* a range that counts from the position or from the end is another one */
    if (write(locked_file, "a file of some bytes", 20) != 20 || lseek(other_file, 5, SEEK_SET) != 5) is_wrong = 1;
    test_exclusive_locks();
    test_shared_locks();
    test_lock_ranges();
    test_refused_locks();
    test_lock_owner();
}

int main(int argc, char **argv) {
    alarm(30); /* no call may wait for a lock */
    setvbuf(stdout, NULL, _IONBF, 0);
    test_blocks_of_each_size();
    test_blocks_of_no_bytes();
    test_out_of_memory();
    test_arguments((size_t)argc, argv);
    test_errno();
    test_locks();
    return is_wrong;
}
