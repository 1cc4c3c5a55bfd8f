/* Exit statuses of the host. */
#ifndef CHAFFDANCER_HOST_STATUSES_H
#define CHAFFDANCER_HOST_STATUSES_H

#define STATUS_SERVED 0
#define STATUS_REFUSED 1     /* the run, or the script's table, was refused */
#define STATUS_STOPPED 2     /* a wrong argument or line, a file that cannot be had, no output */
#define STATUS_NOT_WRITTEN 3 /* the store failed: a commit was not written, and not told */
#define STATUS_DAMAGED 4     /* the store is damaged or is none; it was left as it is */
#define STATUS_HELD 5        /* another host serves the store */

#endif
