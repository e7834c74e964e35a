/* Counts the program's requests for memory, and refuses one of them. Loaded in front of the C library by tests/memory/run.
 *
 * REFUSED is the number of the request that is refused, counted from 0; without it none is. At the end the number of
 * requests is written to the file COUNTED, where that is set.
 */
#include <stdio.h>
#include <stdlib.h>
#include <string.h>
#include <fcntl.h>
#include <unistd.h>

extern void *__libc_malloc(size_t size);
extern void *__libc_realloc(void *block, size_t size);

static unsigned long requests;

static int refused(void)
{
    static int known;
    static long number = -1;

    if (!known) {
        const char *text = getenv("REFUSED");

        known = 1;
        if (text != NULL)
            number = strtol(text, NULL, 10);
    }
    return (long)requests++ == number;
}

void *malloc(size_t size)
{
    return refused() ? NULL : __libc_malloc(size);
}

void *realloc(void *block, size_t size)
{
    return refused() ? NULL : __libc_realloc(block, size);
}

__attribute__((destructor)) static void tell(void)
{
    const char *name = getenv("COUNTED");
    char text[32];
    int file;

    if (name == NULL)
        return;
    file = open(name, O_WRONLY | O_CREAT | O_TRUNC, 0600);
    if (file < 0)
        return;
    snprintf(text, sizeof text, "%lu\n", requests);
    if (write(file, text, strlen(text)) < 0)
        _exit(9);
    close(file);
}
