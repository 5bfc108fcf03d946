// Preloaded by bench/memory: refuses the allocation whose number REFUSE names, from 1, and writes
// into the file COUNT how many were asked for.
#include <stdio.h>
#include <stdlib.h>

void *__libc_malloc(size_t size);
void *__libc_realloc(void *old, size_t size);

static unsigned long asked, refused;

__attribute__((constructor)) static void begin(void)
{
    const char *number = getenv("REFUSE");
    asked = 0;
    refused = number ? strtoul(number, NULL, 10) : 0;
}

__attribute__((destructor)) static void end(void)
{
    const char *name = getenv("COUNT");
    unsigned long count = asked;
    FILE *file = name ? fopen(name, "w") : NULL;
    if (file) {
        fprintf(file, "%lu\n", count);
        fclose(file);
    }
}

void *malloc(size_t size)
{
    return ++asked == refused ? NULL : __libc_malloc(size);
}

void *realloc(void *old, size_t size)
{
    return ++asked == refused ? NULL : __libc_realloc(old, size);
}
