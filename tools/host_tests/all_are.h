/* Whether so many bytes are all of one value, as where nothing was to be written. */
#ifndef ALL_ARE_H
#define ALL_ARE_H

#include <string.h>

static int all_are(const unsigned char *bytes, size_t count, unsigned char value)
{
    return count == 0 || (bytes[0] == value && memcmp(bytes, bytes + 1, count - 1) == 0);
}

#endif
