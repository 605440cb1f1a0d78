/*
 * Preloaded into vector_replay, searches the memory that its calls allocate for the bytes that SECRET has, also behind the end of what a
 * buffer holds, and ends with status 9 where they are there.
 *
 * Searched is what is allocated between the lines "begin" and "end" that the program writes to standard error: each block when it is freed
 * or moved, and all others at "end". All memory is zeroed before it is handed out, so that nothing of a freed block is found in another.
 */
#define _GNU_SOURCE
#include <malloc.h>
#include <stdlib.h>
#include <string.h>
#include <sys/syscall.h>
#include <unistd.h>

extern void *__libc_calloc(size_t count, size_t size);
extern void __libc_free(void *memory);

static void *blocks[256];
static int count, is_marked;

static void search(void *memory)
{
    const char *secret = getenv("SECRET");
    if (memmem(memory, malloc_usable_size(memory), secret, strlen(secret)) != NULL)
        _exit(9);
}

void *malloc(size_t size)
{
    void *memory = __libc_calloc(1, size);
    if (is_marked && count == sizeof blocks / sizeof *blocks)
        _exit(8);
    if (is_marked)
        blocks[count++] = memory;
    return memory;
}

void free(void *memory)
{
    for (int i = 0; i < count; i++)
        if (blocks[i] == memory) {
            search(memory);
            blocks[i--] = blocks[--count];
        }
    __libc_free(memory);
}

void *realloc(void *memory, size_t size)
{
    size_t old = memory == NULL ? 0 : malloc_usable_size(memory);
    void *moved = malloc(size);
    if (old > 0)
        memcpy(moved, memory, old < size ? old : size);
    free(memory);
    return moved;
}

ssize_t write(int descriptor, const void *bytes, size_t size)
{
    int is_begin = size == 6 && memcmp(bytes, "begin\n", 6) == 0;
    if (descriptor == STDERR_FILENO && (is_begin || (size == 4 && memcmp(bytes, "end\n", 4) == 0))) {
        for (int i = 0; i < count; i++)
            search(blocks[i]);
        count = 0;
        is_marked = is_begin;
    }
    return syscall(SYS_write, descriptor, bytes, size);
}
