/* The bench loop as a program in C calls it. The library is target/staticlib/liblent.a. */
#ifndef LENT_H
#define LENT_H

#include <stdint.h>

/*
 * Two telegrams, each after a gap and with `count` Ticks behind it, on the state unpacked once and packed at the end.
 * It leaves the memory that the exported calls for the same gaps, octets and Ticks leave. 1, or 0 if the memory holds
 * no state. Pointers must be valid for their length and not null; the telegrams must not lie in the memory.
 */
int64_t lent_exchange(uint8_t *memory, uint64_t memory_len, const uint8_t *first, uint64_t first_len,
                      const uint8_t *second, uint64_t second_len, uint32_t count);

#endif
