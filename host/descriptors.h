/* Standard input, output and error, as they were given to the program. */
#ifndef CHAFFDANCER_HOST_DESCRIPTORS_H
#define CHAFFDANCER_HOST_DESCRIPTORS_H

/*
 * Makes sure that 0, 1 and 2 are open, so that no file that is opened later can
 * get their place: 1; or 0 if that cannot be. Of standard output it is told
 * whether it was open: nobody is served whom nothing can be told.
 */
int descriptors_fill(int *output_was_open);

#endif
