/* What is left of a damaged figure, as a new file. */
#ifndef STICK_RESCUE_H
#define STICK_RESCUE_H

/*
 * Mends a figure into a new file, never over an existing one, and says what was cut. Answers the
 * exit status: 0 nothing was cut, 1 something was, or nothing mends it, 2 it could not be read or
 * written.
 */
int rescue(const char *damaged, const char *mended);

#endif
