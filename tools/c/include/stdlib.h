#ifndef _STDLIB
#define _STDLIB
#include <stddef.h>
void exit(int status);
void *malloc(size_t size);
void *calloc(size_t count, size_t size);
void *realloc(void *old, size_t size);
void free(void *old);
int atoi(const char *text);
long atol(const char *text);
int abs(int number);
int rand(void);
void srand(unsigned seed);
void qsort(void *base, size_t count, size_t size, int (*compare)(const void *, const void *));
#endif
