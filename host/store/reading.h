/* A store's file read frame by frame, and what is found at its end or at damage. */
#ifndef CHAFFDANCER_HOST_READING_H
#define CHAFFDANCER_HOST_READING_H

#include "common/complaint.h"
#include "store/frame.h"

#define WINDOW_BYTES (16 * FRAME_BYTES_MOST)

struct reading {
    int file;
    uint64_t size;
    struct signature signature;
    uint32_t slot;     /* where the next frame is due */
    uint32_t previous; /* the checksum that it has to name */
    size_t tail;       /* bytes behind the last frame, of one that never came whole */
    struct complaint complaint;
    uint64_t window_place;
    size_t window_length;
    uint8_t window[WINDOW_BYTES];
};

enum found {
    FOUND_FRAME,
    FOUND_END,        /* zeros to the end of the file */
    FOUND_UNFINISHED, /* a frame that was being written when the host died: never told */
    FOUND_DAMAGE,     /* the complaint says what */
    FOUND_NO_STORE,   /* the file is something else */
    FOUND_FAILURE     /* the file could not be read */
};

/* Reads the signature: FOUND_FRAME if it is right, and the frames can follow. */
enum found reading_begin(struct reading *reading, int file);

/* The next frame, if there is one; its body lies in the window until the next call. */
enum found reading_next(struct reading *reading, struct frame *frame);

/* So many bytes of the file from a place on, fewer at its end; null if it cannot be read. */
const uint8_t *reading_bytes(struct reading *reading, uint64_t place, size_t wanted,
                             size_t *length);

#endif
