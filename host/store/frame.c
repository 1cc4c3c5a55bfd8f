#include "store/frame.h"

#include <string.h>

#include "store/checksum.h"

/* The version is part of it: another version has another signature. */
static const char signature_text[16] = {'c', 'h', 'a', 'f', 'f', 'd',  'a',  'n',
                                        'c', 'e', 'r', ' ', '1', '\r', '\n', '\x1a'};
#define SIGNATURE_NAME_BYTES 12 /* without the version */
#define SIGNATURE_SUM_PLACE (SLOT_BYTES - 4)

void put_number(uint8_t *bytes, size_t count, uint64_t number)
{
    size_t place;
    for (place = 0; place < count; place++)
        bytes[place] = (uint8_t)(number >> 8 * place & 255U);
}

uint64_t get_number(const uint8_t *bytes, size_t count)
{
    uint64_t number = 0;
    while (count > 0)
        number = number << 8 | bytes[--count];
    return number;
}

int all_zero(const uint8_t *bytes, size_t length)
{
    while (length > 0 && bytes[length - 1] == 0)
        length--;
    return length == 0;
}

size_t frame_bytes(size_t length)
{
    size_t bytes = FRAME_HEADER_BYTES + length + 1;
    return (bytes + SLOT_BYTES - 1) / SLOT_BYTES * SLOT_BYTES;
}

void frame_put(uint8_t bytes[FRAME_BYTES_MOST], struct frame *frame)
{
    size_t total = frame_bytes(frame->length);
    memset(bytes, 0, total);
    memcpy(bytes + FRAME_HEADER_BYTES, frame->body, frame->length);
    bytes[total - 1] = FRAME_END_MARK;
    frame->body_sum = checksum(bytes + FRAME_HEADER_BYTES, total - FRAME_HEADER_BYTES);
    bytes[0] = frame->kind;
    bytes[1] = frame->detail;
    put_number(bytes + 2, 2, frame->length);
    put_number(bytes + 4, 4, frame->slot);
    put_number(bytes + 8, 4, frame->segment);
    put_number(bytes + 12, 8, frame->time);
    put_number(bytes + 20, 4, frame->mark);
    put_number(bytes + 24, 4, frame->previous);
    put_number(bytes + 28, 4, frame->body_sum);
    frame->sum = checksum(bytes, FRAME_HEADER_BYTES - 4);
    put_number(bytes + FRAME_HEADER_BYTES - 4, 4, frame->sum);
}

int frame_get_header(const uint8_t bytes[FRAME_HEADER_BYTES], struct frame *frame)
{
    frame->kind = bytes[0];
    frame->detail = bytes[1];
    frame->length = (size_t)get_number(bytes + 2, 2);
    frame->slot = (uint32_t)get_number(bytes + 4, 4);
    frame->segment = (uint32_t)get_number(bytes + 8, 4);
    frame->time = get_number(bytes + 12, 8);
    frame->mark = (uint32_t)get_number(bytes + 20, 4);
    frame->previous = (uint32_t)get_number(bytes + 24, 4);
    frame->body_sum = (uint32_t)get_number(bytes + 28, 4);
    frame->sum = (uint32_t)get_number(bytes + 32, 4);
    frame->body = bytes + FRAME_HEADER_BYTES;
    return frame->length <= FRAME_BODY_MOST &&
           frame->sum == checksum(bytes, FRAME_HEADER_BYTES - 4);
}

int frame_body_is_right(const uint8_t *bytes, const struct frame *frame)
{
    size_t total = frame_bytes(frame->length);
    return bytes[total - 1] == FRAME_END_MARK &&
           frame->body_sum == checksum(bytes + FRAME_HEADER_BYTES, total - FRAME_HEADER_BYTES);
}

void signature_put(uint8_t bytes[SLOT_BYTES], struct signature *signature)
{
    memset(bytes, 0, SLOT_BYTES);
    memcpy(bytes, signature_text, sizeof signature_text);
    put_number(bytes + 16, 4, signature->mark);
    put_number(bytes + 20, 8, signature->time);
    signature->sum = checksum(bytes, SIGNATURE_SUM_PLACE);
    put_number(bytes + SIGNATURE_SUM_PLACE, 4, signature->sum);
}

int signature_get(const uint8_t bytes[SLOT_BYTES], struct signature *signature)
{
    signature->mark = (uint32_t)get_number(bytes + 16, 4);
    signature->time = get_number(bytes + 20, 8);
    signature->sum = (uint32_t)get_number(bytes + SIGNATURE_SUM_PLACE, 4);
    return memcmp(bytes, signature_text, sizeof signature_text) == 0 &&
           signature->sum == checksum(bytes, SIGNATURE_SUM_PLACE);
}

int signature_is_like(const uint8_t bytes[SLOT_BYTES])
{
    return memcmp(bytes, signature_text, SIGNATURE_NAME_BYTES) == 0;
}
