/* Stopping by hand. */
#ifndef STICK_STOP_H
#define STICK_STOP_H

#include <stdbool.h>

/* From now on an interrupt asks the readers to end; a second one ends the program at once. */
void stop_on_signals(void);

/* Leaves signals to the other threads, which are at work. */
void stop_not_here(void);

/* Whether the work is to end. */
bool stopped(void);

#endif
