/* The allocator of libmold: three functions over malloc, realloc and free. A program that has its own allocator defines
 * these three functions itself.
 *
 * An allocation returns two registers: whether it succeeded, and the address. If it fails, the library's call returns
 * MOLD_E_MEMORY, and the process continues.
 *
 * This file includes nothing, because the toolchain's clang has no headers. So it declares what it uses of the C
 * library. */
typedef __SIZE_TYPE__ size_t;
typedef __UINT64_TYPE__ uint64_t;

#define NULL ((void *)0)

void *malloc(size_t size);
void *realloc(void *old, size_t size);
void free(void *old);

/* The alignment of malloc's memory on this system. */
#define ALIGNED 16

typedef struct memory {
    uint64_t had;
    void *at;
} memory;

memory rattle_alloc(size_t size, size_t align);
memory rattle_realloc(void *old, size_t used, size_t size, size_t align);
void rattle_dealloc(void *old);

/* The result of an allocation. If it failed, the address is not used, but must not be NULL. */
static memory answer(void *at) {
    static char nothing;
    memory made = {at != NULL, at != NULL ? at : &nothing};
    return made;
}

/* The size to pass to malloc, which is never 0. */
static size_t asked(size_t size, size_t align) {
    return size != 0 ? size : align;
}

/* The library never asks for a greater alignment than malloc gives. Such an allocation would fail. */
memory rattle_alloc(size_t size, size_t align) {
    return answer(align <= ALIGNED ? malloc(asked(size, align)) : NULL);
}

/* Keeps the first `used` bytes of the old memory. If the allocation fails, the old memory stays as it was. */
memory rattle_realloc(void *old, size_t used, size_t size, size_t align) {
    (void)used;
    return answer(align <= ALIGNED ? realloc(old, asked(size, align)) : NULL);
}

void rattle_dealloc(void *old) {
    free(old);
}
