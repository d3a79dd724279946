/* The bytes of a descriptor in a TX buffer (FF-A 1.1, "Memory transaction descriptor"). */
#ifndef DESCRIPTOR_H
#define DESCRIPTOR_H
#include <stddef.h>
#include <stdint.h>

/* Writes a number of so many bytes, the low ones first. */
static inline void put(uint8_t *tx, size_t at, size_t bytes, uint64_t number)
{
    for (size_t i = 0; i < bytes; i++)
        tx[at + i] = (uint8_t)(number >> 8 * i);
}

/* Writes the header in zeroed bytes, with its access descriptors of 16 bytes right behind it, from 48 on. */
static inline void put_header(uint8_t *tx, uint16_t sender, uint16_t attributes, uint32_t flags, uint64_t handle,
                              uint32_t receivers)
{
    put(tx, 0, 2, sender);
    put(tx, 2, 2, attributes);
    put(tx, 4, 4, flags);
    put(tx, 8, 8, handle);
    put(tx, 24, 4, 16);
    put(tx, 28, 4, receivers);
    put(tx, 32, 4, 48);
}
#endif
