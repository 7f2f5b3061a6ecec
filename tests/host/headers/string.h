#pragma once
#include <stddef.h>
void *memchr(const void *in, int byte, size_t count);
int memcmp(const void *one, const void *two, size_t count);
void *memcpy(void *to, const void *from, size_t count);
void *memmove(void *to, const void *from, size_t count);
void *memset(void *to, int byte, size_t count);
size_t strlen(const char *text);
int strncmp(const char *one, const char *two, size_t count);
