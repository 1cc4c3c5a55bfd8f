/* Journal files of hosts before version 1: a table and records, with no checksum. */
#ifndef CHAFFDANCER_HOST_IMPORTING_H
#define CHAFFDANCER_HOST_IMPORTING_H

/* Makes a store of the values that such a file comes to, and tells them: the exit status. */
int import_journal(const char *from, const char *to);

#endif
