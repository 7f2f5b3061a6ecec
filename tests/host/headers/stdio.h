#pragma once
#include <stddef.h>
typedef struct _IO_FILE FILE;
extern FILE *stdin;
extern FILE *stdout;
extern FILE *stderr;
int fclose(FILE *of);
int ferror(FILE *of);
int fflush(FILE *to);
FILE *fopen(const char *name, const char *mode);
int fprintf(FILE *to, const char *format, ...);
int printf(const char *format, ...);
size_t fread(void *to, size_t size, size_t count, FILE *from);
size_t fwrite(const void *from, size_t size, size_t count, FILE *to);
