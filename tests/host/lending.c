#define _DEFAULT_SOURCE /* for MAP_ANONYMOUS */
#include "lending.h"

#include <stdlib.h>
#include <sys/mman.h>
#include <unistd.h>

static size_t page_length(void)
{
    return (size_t)sysconf(_SC_PAGESIZE);
}

static size_t whole_pages(size_t length)
{
    return (length + page_length() - 1) / page_length() * page_length();
}

/* Pages for the buffer, with one forbidden page before and one behind. */
static uint8_t *fenced_pages(size_t length)
{
    size_t inside = whole_pages(length);
    uint8_t *pages =
        mmap(NULL, inside + 2 * page_length(), PROT_NONE, MAP_PRIVATE | MAP_ANONYMOUS, -1, 0);
    if (pages == MAP_FAILED)
        abort();
    if (inside > 0 && mprotect(pages + page_length(), inside, PROT_READ | PROT_WRITE) != 0)
        abort();
    return pages + page_length();
}

static void drop_pages(uint8_t *inside, size_t length)
{
    munmap(inside - page_length(), whole_pages(length) + 2 * page_length());
}

static void *lend_allocated(size_t length)
{
    void *buffer = malloc(length);
    if (buffer == NULL && length > 0)
        abort();
    return buffer;
}

static void take_back_allocated(void *buffer, size_t length)
{
    (void)length;
    free(buffer);
}

static void *lend_fenced_before(size_t length)
{
    return fenced_pages(length);
}

static void take_back_fenced_before(void *buffer, size_t length)
{
    drop_pages(buffer, length);
}

static void *lend_fenced_behind(size_t length)
{
    return fenced_pages(length) + whole_pages(length) - length;
}

static void take_back_fenced_behind(void *buffer, size_t length)
{
    drop_pages((uint8_t *)buffer + length - whole_pages(length), length);
}

const struct lender lenders[LENDERS] = {
    {"allocated", lend_allocated, take_back_allocated},
    {"fenced before", lend_fenced_before, take_back_fenced_before},
    {"fenced behind", lend_fenced_behind, take_back_fenced_behind},
};
