/* Memory for the proved part, and for other large blocks: malloc and realloc with a hint that pages may be large. */
#ifndef MEMORY_H
#define MEMORY_H

#include <stddef.h>

void *kobdzila_malloc(size_t len);
void *kobdzila_realloc(void *block, size_t len);

#endif
