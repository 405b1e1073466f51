#ifndef STRING_H
#define STRING_H

#include "memory.h"

int strcmp(const char *one, const char *other);

#endif
