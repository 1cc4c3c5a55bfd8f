#include "store/mending.h"

static void turn(uint8_t *bytes, size_t bit)
{
    bytes[bit / 8] ^= (uint8_t)(1U << bit % 8);
}

static int frame_is_right(const uint8_t *bytes, size_t length, struct frame *frame)
{
    return frame_get_header(bytes, frame) && frame_bytes(frame->length) <= length &&
           frame_body_is_right(bytes, frame);
}

/* Turns each bit behind the header; a checksum of the body that is itself wrong is the header's. */
static int mend_body(uint8_t *bytes, size_t length, struct frame *frame)
{
    size_t bit;
    if (!frame_get_header(bytes, frame) || frame_bytes(frame->length) > length)
        return 0;
    for (bit = 8 * FRAME_HEADER_BYTES; bit < 8 * frame_bytes(frame->length); bit++) {
        turn(bytes, bit);
        if (frame_body_is_right(bytes, frame))
            return 1;
        turn(bytes, bit);
    }
    return 0;
}

int mend_frame(uint8_t bytes[FRAME_BYTES_MOST], size_t length, struct frame *frame)
{
    size_t bit;
    if (length < SLOT_BYTES)
        return 0;
    for (bit = 0; bit < 8 * FRAME_HEADER_BYTES; bit++) {
        turn(bytes, bit);
        if (frame_is_right(bytes, length, frame))
            return 1;
        turn(bytes, bit);
    }
    return mend_body(bytes, length, frame);
}

int mend_signature(uint8_t bytes[SLOT_BYTES], struct signature *signature)
{
    size_t bit;
    for (bit = 0; bit < 8 * SLOT_BYTES; bit++) {
        turn(bytes, bit);
        if (signature_get(bytes, signature))
            return 1;
        turn(bytes, bit);
    }
    return 0;
}
