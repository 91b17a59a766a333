#ifndef STDIO_H
#define STDIO_H

/* Knows %s, %d of a number that is not negative, %u, %lu, %zu and %lx; at any other the program ends with status 2. */
__attribute__((format(printf, 1, 2))) int printf(const char *format, ...);

#endif
