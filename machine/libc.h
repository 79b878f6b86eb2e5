/* What the C files of compare/ and examples/ use of the C library, for a build with the kit's own tools, which come with no headers (see x86). */
#ifndef ILVORESTA_LIBC_H
#define ILVORESTA_LIBC_H

#define NULL ((void *)0)
#define PRIu64 "lu"

typedef __SIZE_TYPE__ size_t;
typedef __UINT8_TYPE__ uint8_t;
typedef __UINT16_TYPE__ uint16_t;
typedef __UINT32_TYPE__ uint32_t;
typedef __UINT64_TYPE__ uint64_t;
typedef __INT32_TYPE__ int32_t;

typedef struct ilvoresta_file FILE;
extern FILE *stdin, *stdout, *stderr;

size_t fread(void *to, size_t size, size_t count, FILE *file);
size_t fwrite(const void *from, size_t size, size_t count, FILE *file);
int printf(const char *form, ...);
int fprintf(FILE *file, const char *form, ...);

void *malloc(size_t size);
void free(void *block);
void exit(int status) __attribute__((noreturn));

double sqrt(double x);

#endif
