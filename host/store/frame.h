/*
 * The form of a store's file: a signature of one slot, then frames of whole
 * slots, then zeros, an empty slot at least. chaffdancer-store(5) says it byte
 * by byte.
 */
#ifndef CHAFFDANCER_HOST_FRAME_H
#define CHAFFDANCER_HOST_FRAME_H

#include <stddef.h>
#include <stdint.h>

#define SLOT_BYTES 64
#define FRAME_HEADER_BYTES 36
#define FRAME_BYTES_MOST 4096
#define FRAME_BODY_MOST (FRAME_BYTES_MOST - FRAME_HEADER_BYTES - 1) /* the end mark is one */
#define FRAME_END_MARK 0xA5U /* the last byte of a frame: not zero, whichever bit flips */

enum frame_kind { FRAME_SEGMENT = 1, FRAME_COMMIT = 2, FRAME_CLOSED = 3, FRAME_UNFINISHED = 4 };

/* Why a segment was begun. */
enum cause { CAUSE_NEW = 1, CAUSE_RESTART = 2, CAUSE_TURNOVER = 3, CAUSE_SALVAGE = 4 };

struct frame {
    uint8_t kind;
    uint8_t detail;    /* of a commit the desk, of a segment its cause, else zero */
    uint32_t slot;     /* where it stands */
    uint32_t segment;  /* which segment it belongs to */
    uint64_t time;     /* milliseconds since 1970, UTC */
    uint32_t mark;     /* of its store */
    uint32_t previous; /* checksum of the header before it, or of the signature */
    uint32_t body_sum;
    uint32_t sum; /* of its own header */
    const uint8_t *body;
    size_t length; /* of the body */
};

struct signature {
    uint32_t mark; /* drawn by lot: tells the frames of this store from those of others */
    uint64_t time;
    uint32_t sum;
};

/* How many bytes a frame with such a body takes. */
size_t frame_bytes(size_t length);

/* Fills bytes, frame_bytes(length) of them, and the two checksums of the frame. */
void frame_put(uint8_t bytes[FRAME_BYTES_MOST], struct frame *frame);

/* Takes a header apart: 1 if its checksum is right and its length can be. */
int frame_get_header(const uint8_t bytes[FRAME_HEADER_BYTES], struct frame *frame);

/* Whether all behind the header is as its checksum says. */
int frame_body_is_right(const uint8_t *bytes, const struct frame *frame);

void signature_put(uint8_t bytes[SLOT_BYTES], struct signature *signature);
int signature_get(const uint8_t bytes[SLOT_BYTES], struct signature *signature);

/* Whether the bytes begin like a store of some version, whole or not. */
int signature_is_like(const uint8_t bytes[SLOT_BYTES]);

int all_zero(const uint8_t *bytes, size_t length);

void put_number(uint8_t *bytes, size_t count, uint64_t number);
uint64_t get_number(const uint8_t *bytes, size_t count);

#endif
