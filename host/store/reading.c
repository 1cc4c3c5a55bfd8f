#include "store/reading.h"

#include <string.h>

#include "store/disk.h"

/* What a disk writes whole or not at all. */
#define SECTOR_BYTES 512

static size_t smaller(uint64_t one, size_t other)
{
    return one < other ? (size_t)one : other;
}

static int window_has(const struct reading *reading, uint64_t place, size_t wanted)
{
    return reading->window_place <= place &&
           place + wanted <= reading->window_place + reading->window_length;
}

const uint8_t *reading_bytes(struct reading *reading, uint64_t place, size_t wanted, size_t *length)
{
    ssize_t count;
    *length = place < reading->size ? smaller(reading->size - place, wanted) : 0;
    if (window_has(reading, place, *length))
        return reading->window + (place - reading->window_place);
    count = disk_read(reading->file, place, reading->window, WINDOW_BYTES);
    reading->window_place = place;
    reading->window_length = count < 0 ? 0 : (size_t)count;
    if (count < 0) {
        complain_of_system(&reading->complaint, "byte %llu cannot be read",
                           (unsigned long long)place);
        return NULL;
    }
    *length = smaller(reading->window_length, *length);
    return reading->window;
}

static enum found damage(struct reading *reading, const char *what)
{
    complain(&reading->complaint, "%s at byte %llu of %llu", what,
             (unsigned long long)reading->slot * SLOT_BYTES, (unsigned long long)reading->size);
    return FOUND_DAMAGE;
}

enum found reading_begin(struct reading *reading, int file)
{
    size_t length;
    const uint8_t *bytes;
    memset(reading, 0, sizeof *reading);
    reading->file = file;
    if (!disk_size(file, &reading->size)) {
        complain_of_system(&reading->complaint, "its size cannot be had");
        return FOUND_FAILURE;
    }
    bytes = reading_bytes(reading, 0, SLOT_BYTES, &length);
    if (bytes == NULL)
        return FOUND_FAILURE;
    if (length < SLOT_BYTES || !signature_get(bytes, &reading->signature)) {
        if (length == SLOT_BYTES && signature_is_like(bytes))
            return damage(reading, "its signature is damaged, or of another version,");
        complain(&reading->complaint, "it is no store of Chaffdancer");
        return FOUND_NO_STORE;
    }
    reading->slot = 1;
    reading->previous = reading->signature.sum;
    return FOUND_FRAME;
}

/* How many bytes there are up to the last that is not zero. */
static size_t filled(const uint8_t *bytes, size_t length)
{
    while (length > 0 && bytes[length - 1] == 0)
        length--;
    return length;
}

/*
 * Whether a frame that was being written can have left these bytes, up to the last
 * that is not zero: some of its sectors came and others did not. The last sector
 * of a whole frame ends with a mark that no flipped bit makes zero, so a frame
 * that was told is not taken for this.
 */
static int is_unfinished(uint64_t place, const uint8_t *bytes, size_t last)
{
    struct frame frame;
    size_t start = 0, end = SECTOR_BYTES - (size_t)(place % SECTOR_BYTES), total;
    if (all_zero(bytes, smaller(end, last)))
        return 1;
    if (!frame_get_header(bytes, &frame))
        return 0;
    total = frame_bytes(frame.length);
    for (; start < total; start = end, end += SECTOR_BYTES)
        if (all_zero(bytes + start, smaller(end, total) - start))
            return last <= total;
    return 0;
}

static int zeros_to_the_end(struct reading *reading, uint64_t place, int *failed)
{
    size_t length;
    const uint8_t *bytes;
    *failed = 0;
    while (place < reading->size) {
        bytes = reading_bytes(reading, place, WINDOW_BYTES, &length);
        *failed = bytes == NULL;
        if (bytes == NULL || !all_zero(bytes, length))
            return 0;
        if (length == 0)
            return 1;
        place += length;
    }
    return 1;
}

/* No frame is right here: the end, a frame that was being written, or damage. */
static enum found at_the_end(struct reading *reading)
{
    uint64_t place = (uint64_t)reading->slot * SLOT_BYTES;
    uint8_t bytes[FRAME_BYTES_MOST];
    size_t length;
    int failed;
    const uint8_t *there = reading_bytes(reading, place, FRAME_BYTES_MOST, &length);
    if (there == NULL)
        return FOUND_FAILURE;
    if (length < SLOT_BYTES)
        return damage(reading, "the file is cut: an empty slot is missing");
    memcpy(bytes, there, length);
    if (!zeros_to_the_end(reading, place + length, &failed))
        return failed ? FOUND_FAILURE : damage(reading, "a frame does not fit its checksum");
    reading->tail = filled(bytes, length);
    if (reading->tail == 0)
        return FOUND_END;
    if (is_unfinished(place, bytes, reading->tail))
        return FOUND_UNFINISHED;
    return damage(reading, "a frame does not fit its checksum");
}

static int belongs_here(const struct reading *reading, const struct frame *frame)
{
    return frame->slot == reading->slot && frame->mark == reading->signature.mark &&
           frame->previous == reading->previous;
}

enum found reading_next(struct reading *reading, struct frame *frame)
{
    uint64_t place = (uint64_t)reading->slot * SLOT_BYTES;
    size_t length, total;
    const uint8_t *bytes = reading_bytes(reading, place, FRAME_BYTES_MOST, &length);
    if (bytes == NULL)
        return FOUND_FAILURE;
    if (length < SLOT_BYTES || !frame_get_header(bytes, frame))
        return at_the_end(reading);
    total = frame_bytes(frame->length);
    if (total > length)
        return damage(reading, "the file is cut: the rest of a frame is missing");
    if (!frame_body_is_right(bytes, frame))
        return at_the_end(reading);
    if (!belongs_here(reading, frame))
        return damage(reading, "a frame of another place, time or store stands");
    reading->slot += (uint32_t)(total / SLOT_BYTES);
    reading->previous = frame->sum;
    return FOUND_FRAME;
}
