#include "common/memory.h"

#include <stdint.h>
#include <stdio.h>
#include <stdlib.h>

static void *sure(void *memory)
{
    if (memory == NULL) {
        fprintf(stderr, "chaffdancer-host: not enough memory\n");
        exit(2);
    }
    return memory;
}

/* The room is doubled when count reaches a power of two, so none need be noted. */
void *memory_for_one_more(void *array, size_t count, size_t element_size)
{
    if ((count & (count - 1)) != 0)
        return array;
    if (count > SIZE_MAX / 2 / element_size)
        return sure(NULL);
    return sure(realloc(array, (count == 0 ? 1 : 2 * count) * element_size));
}

void *memory_for(size_t count, size_t element_size)
{
    return sure(calloc(count == 0 ? 1 : count, element_size));
}
