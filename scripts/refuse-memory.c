/* Preloaded beside a program, it refuses one of its allocations: the one whose number, from 1 on, the variable REFUSED_ALLOCATION tells,
   and with REFUSED_FROM_THERE each later one, too. At the end it writes the number of all that were asked for into the file that
   ALLOCATIONS_FILE names. What the C library asks of itself isn't counted. */
#include <fcntl.h>
#include <stdatomic.h>
#include <stdio.h>
#include <stdlib.h>
#include <sys/syscall.h>
#include <unistd.h>

extern void *__libc_malloc(size_t size);
extern void *__libc_realloc(void *old, size_t size);
extern void *__libc_memalign(size_t alignment, size_t size);

static atomic_ulong asked;
static unsigned long refused;
static int from_there;

__attribute__((constructor)) static void begin(void)
{
    const char *number = getenv("REFUSED_ALLOCATION");
    refused = number ? strtoul(number, NULL, 10) : 0;
    from_there = getenv("REFUSED_FROM_THERE") != NULL;
    atomic_store(&asked, 0);
}

/* Programs that are built before any proof end by their return. */
__attribute__((destructor)) static void tell(void)
{
    const char *name = getenv("ALLOCATIONS_FILE");
    int file = name ? open(name, O_WRONLY | O_CREAT | O_TRUNC, 0600) : -1;
    if (file >= 0) {
        dprintf(file, "%lu\n", atomic_load(&asked));
        close(file);
    }
}

/* Proved ones end by this call, after which no destructor runs. */
void _exit(int status)
{
    tell();
    for (;;)
        syscall(SYS_exit_group, status);
}

static int is_refused(void)
{
    unsigned long number = atomic_fetch_add(&asked, 1) + 1;
    return refused && (from_there ? number >= refused : number == refused);
}

void *malloc(size_t size)
{
    return is_refused() ? NULL : __libc_malloc(size);
}

void *realloc(void *old, size_t size)
{
    return is_refused() ? NULL : __libc_realloc(old, size);
}

void *aligned_alloc(size_t alignment, size_t size)
{
    return is_refused() ? NULL : __libc_memalign(alignment, size);
}

int posix_memalign(void **place, size_t alignment, size_t size)
{
    if (is_refused())
        return 12; /* ENOMEM */
    *place = __libc_memalign(alignment, size);
    return *place ? 0 : 12;
}
