#ifndef MEMORY_H
#define MEMORY_H

#include <stddef.h>

void *memset(void *to, int with, size_t many);
void *memmove(void *to, const void *from, size_t many);
void *memcpy(void *to, const void *from, size_t many);
int memcmp(const void *one, const void *other, size_t many);

#endif
