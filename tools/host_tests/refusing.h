/* Refuses requests for memory, and counts what lives, where a test is linked with --wrap for malloc,
 * realloc and free.
 */
#ifndef REFUSING_H
#define REFUSING_H

#include <stddef.h>

static long left = -1; /* requests that are still served; below 0: all are */
static long live;

void *__real_malloc(size_t size);
void *__real_realloc(void *old, size_t size);
void __real_free(void *old);
void *__wrap_malloc(size_t size);
void *__wrap_realloc(void *old, size_t size);
void __wrap_free(void *old);

static int is_refused(void) { return left == 0 || (left > 0 && left-- == 0); }

void *__wrap_malloc(size_t size)
{
    void *given = is_refused() ? NULL : __real_malloc(size);
    live += given != NULL;
    return given;
}

void *__wrap_realloc(void *old, size_t size)
{
    void *given = is_refused() ? NULL : __real_realloc(old, size);
    live += old == NULL && given != NULL;
    return given;
}

void __wrap_free(void *old)
{
    live -= old != NULL;
    __real_free(old);
}

#endif
