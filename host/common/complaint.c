#define _POSIX_C_SOURCE 200809L
#include "common/complaint.h"

#include <errno.h>
#include <stdarg.h>
#include <stdio.h>
#include <string.h>

int complain(struct complaint *complaint, const char *form, ...)
{
    va_list values;
    va_start(values, form);
    vsnprintf(complaint->text, sizeof complaint->text, form, values);
    va_end(values);
    return 0;
}

int complain_of_system(struct complaint *complaint, const char *form, ...)
{
    int number = errno;
    size_t length;
    va_list values;
    va_start(values, form);
    vsnprintf(complaint->text, sizeof complaint->text, form, values);
    va_end(values);
    length = strlen(complaint->text);
    snprintf(complaint->text + length, sizeof complaint->text - length, ": %s", strerror(number));
    return 0;
}
