/* What the example needs of stdio.h, for a compiler that comes without its headers. */
#ifndef FREESTANDING_STDIO_H
#define FREESTANDING_STDIO_H
int printf(const char *format, ...);
#endif
