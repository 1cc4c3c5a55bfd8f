/* What chaffdancer-host --help prints. */
#ifndef CHAFFDANCER_HOST_HELP_H
#define CHAFFDANCER_HOST_HELP_H

extern const char help[];

#endif
