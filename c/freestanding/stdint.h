/* What stamps.h and the tests need of stdint.h, for a compiler that comes without its headers. */
#ifndef FREESTANDING_STDINT_H
#define FREESTANDING_STDINT_H
typedef __UINT8_TYPE__ uint8_t;
typedef __UINT32_TYPE__ uint32_t;
typedef __UINT64_TYPE__ uint64_t;
#endif
