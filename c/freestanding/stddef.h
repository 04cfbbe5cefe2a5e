/* What stamps.h needs of stddef.h, for a compiler that comes without its headers. */
#ifndef FREESTANDING_STDDEF_H
#define FREESTANDING_STDDEF_H
typedef __SIZE_TYPE__ size_t;
typedef __PTRDIFF_TYPE__ ptrdiff_t;
#define NULL ((void *)0)
#endif
