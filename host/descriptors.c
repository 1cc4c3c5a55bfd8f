#define _POSIX_C_SOURCE 200809L
#include "descriptors.h"

#include <fcntl.h>
#include <unistd.h>

static int is_open(int file)
{
    return fcntl(file, F_GETFD) >= 0;
}

int descriptors_fill(int *output_was_open)
{
    int file;
    *output_was_open = is_open(STDOUT_FILENO);
    for (file = STDIN_FILENO; file <= STDERR_FILENO; file++)
        if (!is_open(file) && open("/dev/null", O_RDWR) != file)
            return 0;
    return 1;
}
