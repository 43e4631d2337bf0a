// Loaded before the C library: counts the allocations that the program itself asks for, and lets one of them fail.
// REFUSE_GROWTH names it, counted from 1. A test of a crate (`refusing.rt` of `row_texts`) names it by asking for 2^50 bytes and that
// many more, of which it gets one; it is then counted from there on.
// When the program ends, how many were asked for and how many failed is written to the file that COUNT_GROWTHS names.
#define _GNU_SOURCE
#include <dlfcn.h>
#include <errno.h>
#include <link.h>
#include <stddef.h>
#include <stdio.h>
#include <stdlib.h>

static unsigned long asked, refused, refusals;
static char *program_start, *program_end;

// The first object of a process is the program.
static int find_program(struct dl_phdr_info *info, size_t size, void *data) {
    (void)size;
    (void)data;
    for (int at = 0; at < info->dlpi_phnum; at++) {
        const ElfW(Phdr) *part = &info->dlpi_phdr[at];
        if (part->p_type == PT_LOAD && (part->p_flags & PF_X)) {
            program_start = (char *)info->dlpi_addr + part->p_vaddr;
            program_end = program_start + part->p_memsz;
        }
    }
    return 1;
}

__attribute__((constructor)) static void begin(void) {
    const char *number = getenv("REFUSE_GROWTH");
    refused = number ? strtoul(number, NULL, 10) : 0;
    dl_iterate_phdr(find_program, NULL);
}

__attribute__((destructor)) static void end(void) {
    const char *name = getenv("COUNT_GROWTHS");
    FILE *file = name ? fopen(name, "w") : NULL;
    if (file) {
        fprintf(file, "%lu %lu\n", asked, refusals);
        fclose(file);
    }
}

#define MESSAGE (1UL << 50)
#define MOST_NUMBER (1UL << 20)

static int is_message(size_t *size) {
    if (*size < MESSAGE || *size - MESSAGE >= MOST_NUMBER)
        return 0;
    refused = *size - MESSAGE;
    asked = 0;
    *size = 1;
    return 1;
}

static int is_refused(char *caller, size_t *size) {
    if (caller < program_start || caller >= program_end || is_message(size) || ++asked != refused)
        return 0;
    refusals++;
    return 1;
}

#define CALLER ((char *)__builtin_return_address(0))
#define REAL(name) real_##name = real_##name ? real_##name : dlsym(RTLD_NEXT, #name)

void *malloc(size_t size) {
    static void *(*real_malloc)(size_t);
    REAL(malloc);
    return is_refused(CALLER, &size) ? NULL : real_malloc(size);
}

void *realloc(void *old, size_t size) {
    static void *(*real_realloc)(void *, size_t);
    REAL(realloc);
    return is_refused(CALLER, &size) ? NULL : real_realloc(old, size);
}

void *aligned_alloc(size_t to, size_t size) {
    static void *(*real_aligned_alloc)(size_t, size_t);
    REAL(aligned_alloc);
    return is_refused(CALLER, &size) ? NULL : real_aligned_alloc(to, size);
}

int posix_memalign(void **found, size_t to, size_t size) {
    static int (*real_posix_memalign)(void **, size_t, size_t);
    REAL(posix_memalign);
    return is_refused(CALLER, &size) ? ENOMEM : real_posix_memalign(found, to, size);
}
