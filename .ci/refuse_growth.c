// If this library is preloaded into a program, it refuses one growth of memory: of the calls by which the program's own code asks for memory, the one
// whose number is in REFUSED_GROWTH, counted from 1, returns NULL, and the line "growth N is refused" goes to standard error. All other calls are
// passed on, also those that the C library makes for itself. A program that runs for more than a minute is ended.
#define _GNU_SOURCE
#include <dlfcn.h>
#include <errno.h>
#include <link.h>
#include <stdatomic.h>
#include <stdbool.h>
#include <stdint.h>
#include <stdio.h>
#include <stdlib.h>
#include <unistd.h>

static uintptr_t code_start;
static uintptr_t code_end;
static unsigned long refused;
static atomic_ulong asked;

// The program itself is listed first; its libraries aren't needed.
static int note_code(struct dl_phdr_info *program, size_t size, void *nothing)
{
    (void)size;
    (void)nothing;
    for (int place = 0; place < program->dlpi_phnum; place++) {
        const ElfW(Phdr) *part = &program->dlpi_phdr[place];
        if (part->p_type == PT_LOAD && (part->p_flags & PF_X)) {
            code_start = program->dlpi_addr + part->p_vaddr;
            code_end = code_start + part->p_memsz;
        }
    }
    return 1;
}

__attribute__((constructor)) static void begin(void)
{
    const char *growth = getenv("REFUSED_GROWTH");
    refused = growth ? strtoul(growth, NULL, 10) : 0;
    dl_iterate_phdr(note_code, NULL);
    alarm(60);
}

// Counts a call that returns to the program's code, and returns whether it is the one to be refused.
static bool is_refused(const void *caller)
{
    uintptr_t place = (uintptr_t)caller;
    if (place < code_start || place >= code_end || atomic_fetch_add(&asked, 1) + 1 != refused) {
        return false;
    }
    dprintf(STDERR_FILENO, "\ngrowth %lu is refused\n", refused);
    errno = ENOMEM;
    return true;
}

#define REFUSING(name, parameters, arguments)                                      \
    void *name parameters                                                          \
    {                                                                              \
        static void *(*next) parameters;                                           \
        if (!next) {                                                               \
            next = dlsym(RTLD_NEXT, #name);                                        \
        }                                                                          \
        return is_refused(__builtin_return_address(0)) ? NULL : next arguments;    \
    }

// Programs in Rattle use only the first two.
REFUSING(malloc, (size_t size), (size))
REFUSING(realloc, (void *block, size_t size), (block, size))
REFUSING(calloc, (size_t count, size_t size), (count, size))
REFUSING(aligned_alloc, (size_t alignment, size_t size), (alignment, size))

int posix_memalign(void **block, size_t alignment, size_t size)
{
    static int (*next)(void **, size_t, size_t);
    if (!next) {
        next = dlsym(RTLD_NEXT, "posix_memalign");
    }
    return is_refused(__builtin_return_address(0)) ? ENOMEM : next(block, alignment, size);
}
