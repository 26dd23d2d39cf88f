/* Preloaded before a program: the allocation numbered REFUSE_AT, from 1, is refused, and file descriptor 9 is told so. With REFUSE_ALL set,
   all from that one on are refused. With REFUSE_AT=0 none is refused, and the file of descriptor 9 has how many there were, as a number of
   eight bytes. */
#include <stddef.h>
#include <errno.h>
#include <stdlib.h>
#include <sys/mman.h>
#include <unistd.h>

extern void *__libc_malloc(size_t);
extern void *__libc_calloc(size_t, size_t);
extern void *__libc_realloc(void *, size_t);
extern void *__libc_memalign(size_t, size_t);

static unsigned long at, own, *seen = &own;
static int lasts;

__attribute__((constructor)) static void begin(void)
{
    const char *text = getenv("REFUSE_AT");
    at = text ? strtoul(text, NULL, 10) : (unsigned long)-1;
    lasts = getenv("REFUSE_ALL") != NULL;
    if (at == 0 && ftruncate(9, sizeof own) == 0) {
        void *shared = mmap(NULL, sizeof own, PROT_READ | PROT_WRITE, MAP_SHARED, 9, 0);
        if (shared != MAP_FAILED) {
            *(unsigned long *)shared = own;
            seen = shared;
        }
    }
}

static int refused(void)
{
    unsigned long number = __atomic_add_fetch(seen, 1, __ATOMIC_RELAXED);
    if (at == 0 || number < at || (number > at && !lasts))
        return 0;
    if (number == at && write(9, "refused\n", 8) < 0)
        _exit(99);
    errno = ENOMEM;
    return 1;
}

void *malloc(size_t size) { return refused() ? NULL : __libc_malloc(size); }
void *calloc(size_t count, size_t size) { return refused() ? NULL : __libc_calloc(count, size); }
void *realloc(void *old, size_t size) { return refused() ? NULL : __libc_realloc(old, size); }
void *aligned_alloc(size_t align, size_t size) { return refused() ? NULL : __libc_memalign(align, size); }
void *memalign(size_t align, size_t size) { return refused() ? NULL : __libc_memalign(align, size); }
int posix_memalign(void **to, size_t align, size_t size)
{
    *to = refused() ? NULL : __libc_memalign(align, size);
    return *to ? 0 : ENOMEM;
}
