/* Threads with room for every call of the library. */
#ifndef STICK_ROOMY_H
#define STICK_ROOMY_H

#include <pthread.h>
#include <stdbool.h>

/* Starts a thread whose stack is large enough, whatever the limit of this shell is. */
bool roomy_start(pthread_t *thread, void *(*work)(void *), void *argument);

#endif
