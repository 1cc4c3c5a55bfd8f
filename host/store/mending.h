/* One flipped bit found and set right by its checksum. */
#ifndef CHAFFDANCER_HOST_MENDING_H
#define CHAFFDANCER_HOST_MENDING_H

#include "store/frame.h"

/*
 * Makes the frame at the start of these bytes right by turning one bit of its
 * header or of what is behind it: 1; or 0, and the bytes stay. CRC-32C tells any
 * two bits apart from one in all lengths that a frame has.
 */
int mend_frame(uint8_t bytes[FRAME_BYTES_MOST], size_t length, struct frame *frame);

int mend_signature(uint8_t bytes[SLOT_BYTES], struct signature *signature);

#endif
