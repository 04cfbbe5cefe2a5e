/* The calls that the figures compare, as plain C: the same signatures, answers and refusals as in stamps.h. */
#ifndef PLAIN_H
#define PLAIN_H

#include <stddef.h>
#include <stdint.h>

uint8_t plain_check(const uint8_t *t, size_t length);
uint8_t plain_update(uint8_t *t, size_t length, size_t p);
uint8_t plain_meet(uint8_t *t, size_t length, size_t a, size_t b);
uint8_t plain_compare(const uint8_t *t, size_t length, size_t a, size_t b, uint8_t *order);
uint8_t plain_superfluous(const uint8_t *t, size_t length, uint8_t *mask, uint8_t *count);

#endif
