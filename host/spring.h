/* The text of examples/spring-session.txt; host/build puts it into the program. */
#ifndef CHAFFDANCER_HOST_SPRING_H
#define CHAFFDANCER_HOST_SPRING_H

#include <stddef.h>

extern const char spring_session[];
extern const size_t spring_session_length;

#endif
