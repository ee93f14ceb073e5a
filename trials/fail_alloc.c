/* Preloaded before the C library: the allocation whose number stands in
   FAIL_ALLOC fails, counting from 1, and all later ones too where FAIL_ALL is
   set. At the end the count of allocations is written to descriptor 3. */
#define _GNU_SOURCE
#include <dlfcn.h>
#include <errno.h>
#include <stddef.h>
#include <stdio.h>
#include <stdlib.h>
#include <sys/syscall.h>
#include <unistd.h>

extern void *__libc_malloc(size_t);
extern void *__libc_calloc(size_t, size_t);
extern void *__libc_realloc(void *, size_t);
extern void *__libc_memalign(size_t, size_t);

static unsigned long seen;

static int fails(void)
{
    static unsigned long chosen, all, read_words;
    if (!read_words) {
        const char *word = getenv("FAIL_ALLOC");
        chosen = word ? strtoul(word, NULL, 10) : 0;
        all = getenv("FAIL_ALL") != NULL;
        read_words = 1;
    }
    unsigned long now = __atomic_add_fetch(&seen, 1, __ATOMIC_RELAXED);
    if (chosen == 0 || (now != chosen && !(all && now > chosen)))
        return 0;
    errno = ENOMEM; /* the C library asserts it where a thread's stack can't be had */
    return 1;
}

void *malloc(size_t size) { return fails() ? NULL : __libc_malloc(size); }
void *calloc(size_t count, size_t size) { return fails() ? NULL : __libc_calloc(count, size); }
void *realloc(void *old, size_t size) { return fails() ? NULL : __libc_realloc(old, size); }
void *aligned_alloc(size_t align, size_t size) { return fails() ? NULL : __libc_memalign(align, size); }
void *memalign(size_t align, size_t size) { return fails() ? NULL : __libc_memalign(align, size); }

int posix_memalign(void **out, size_t align, size_t size)
{
    void *made = fails() ? NULL : __libc_memalign(align, size);
    if (!made)
        return ENOMEM;
    *out = made;
    return 0;
}

/* a program with threads ends by _exit, which calls no destructor */
static void tell(void);

void _exit(int status)
{
    tell();
    syscall(SYS_exit_group, status);
    __builtin_unreachable();
}

__attribute__((destructor)) static void tell(void)
{
    char text[32];
    int length = snprintf(text, sizeof text, "%lu\n", seen);
    if (write(3, text, (size_t)length) < 0)
        return;
}
