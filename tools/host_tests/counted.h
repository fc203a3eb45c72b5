/* Counts requests for memory and what is given back, where a test is linked with --wrap for malloc,
 * realloc and free. Only hg_open, hg_bank_open and hg_bank_grow may ask, and of what stays then only
 * hg_close and hg_bank_close may give back.
 */
#ifndef COUNTED_H
#define COUNTED_H

#include <stddef.h>

static unsigned long asked;

void *__real_malloc(size_t size);
void *__real_realloc(void *old, size_t size);
void __real_free(void *old);
void *__wrap_malloc(size_t size);
void *__wrap_realloc(void *old, size_t size);
void __wrap_free(void *old);

void *__wrap_malloc(size_t size)
{
    asked++;
    return __real_malloc(size);
}

void *__wrap_realloc(void *old, size_t size)
{
    asked++;
    return __real_realloc(old, size);
}

void __wrap_free(void *old)
{
    asked++;
    __real_free(old);
}

#endif
