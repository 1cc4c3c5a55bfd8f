/* CRC-32C, the checksum of all that stands in a store. */
#ifndef CHAFFDANCER_HOST_CHECKSUM_H
#define CHAFFDANCER_HOST_CHECKSUM_H

#include <stddef.h>
#include <stdint.h>

uint32_t checksum(const uint8_t *bytes, size_t length);

#endif
