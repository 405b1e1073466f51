/* For a board with no C library: what goes wrong is told, without its numbers. */
#ifndef STDIO_H
#define STDIO_H

#define stderr 2

int fprintf(int to, const char *text, ...);

#endif
