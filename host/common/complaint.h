/* What went wrong, in words, kept for whoever is to tell it. */
#ifndef CHAFFDANCER_HOST_COMPLAINT_H
#define CHAFFDANCER_HOST_COMPLAINT_H

struct complaint {
    char text[512];
};

/* Always 0, for the caller to return. */
int complain(struct complaint *complaint, const char *form, ...);

/* The same, with what the system says of its last error behind it. */
int complain_of_system(struct complaint *complaint, const char *form, ...);

#endif
