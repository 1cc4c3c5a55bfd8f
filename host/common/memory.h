/* Memory that is there, or the program ends with status 2. */
#ifndef CHAFFDANCER_HOST_MEMORY_H
#define CHAFFDANCER_HOST_MEMORY_H

#include <stddef.h>

/* Room for one more element in an array that holds count of them. */
void *memory_for_one_more(void *array, size_t count, size_t element_size);

/* Room for count elements, all bytes zero; never null. */
void *memory_for(size_t count, size_t element_size);

#endif
