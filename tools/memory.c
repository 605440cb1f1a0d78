/*
 * The three functions that compiled code of the toolchain calls for memory, over the program's malloc.
 * tools/generated puts them into the assembly text, where nothing outside can call them.
 */
typedef __SIZE_TYPE__ size;

void *malloc(size);
void *realloc(void *, size);
void free(void *);

/* Whether there is memory, and its address: where there is none, one that isn't null. */
struct memory {
    unsigned there;
    void *address;
};

static char none;

static struct memory memory_at(void *address)
{
    return (struct memory){address != 0, address != 0 ? address : &none};
}

/* At most malloc's own alignment is asked for. No memory still needs an address of its own. */
struct memory rattle_alloc(size bytes, size alignment)
{
    return memory_at(malloc(bytes != 0 ? bytes : alignment));
}

struct memory rattle_realloc(void *old, size old_bytes, size bytes, size alignment)
{
    (void)old_bytes;
    return memory_at(realloc(old, bytes != 0 ? bytes : alignment));
}

void rattle_dealloc(void *old)
{
    free(old);
}
