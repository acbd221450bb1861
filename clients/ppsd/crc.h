/* CRC-32 as zlib has it. */
#ifndef CRC_H
#define CRC_H

#include <stddef.h>
#include <stdint.h>

/* The checksum of bytes that follow others whose checksum is `before`; 0 before the first. */
uint32_t crc32_of(uint32_t before, const void *bytes, size_t length);

#endif
