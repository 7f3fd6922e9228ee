/* Threads with room for every call of the library: those on .cob files need 850 kilobytes. */
#include "roomy.h"

enum { STACK_BYTES = 2 * 1024 * 1024 };

bool roomy_start(pthread_t *thread, void *(*work)(void *), void *argument) {
    pthread_attr_t attributes;
    bool started;
    if (pthread_attr_init(&attributes) != 0) {
        return false;
    }
    started = pthread_attr_setstacksize(&attributes, STACK_BYTES) == 0 &&
              pthread_create(thread, &attributes, work, argument) == 0;
    pthread_attr_destroy(&attributes);
    return started;
}
