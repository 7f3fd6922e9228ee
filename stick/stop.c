/* Stopping by hand: the file at hand is finished or given up, and the last line says "not
 * finished". */
#include "stop.h"

#include <signal.h>
#include <stdatomic.h>
#include <stddef.h>
#include <time.h>
#include <unistd.h>

/* When it was asked for first, in milliseconds; 0 until then. */
static atomic_llong asked;

/* Some send it twice at once, to the program and to all of its group, as timeout(1) does. */
enum { AT_ONCE = 50 };

static long long milliseconds(void) {
    struct timespec now;
    clock_gettime(CLOCK_MONOTONIC, &now);
    return 1 + now.tv_sec * 1000LL + now.tv_nsec / 1000000;
}

/* A stick that has stopped answering can hold a reader for minutes: then the second time ends it.
 */
static void on_signal(int number) {
    static const char words[] = "\nDO NOT SEAL: not finished\n";
    long long now = milliseconds(), first = 0;
    (void)number;
    if (!atomic_compare_exchange_strong(&asked, &first, now) && now - first > AT_ONCE) {
        ssize_t written = write(STDERR_FILENO, words, sizeof words - 1);
        (void)written; /* there is no one left to tell */
        _exit(2);
    }
}

/* One that is ignored already, as under nohup, stays so. */
static void listen_to(int number) {
    struct sigaction old, new = {.sa_handler = on_signal};
    sigemptyset(&new.sa_mask);
    if (sigaction(number, NULL, &old) == 0 && old.sa_handler != SIG_IGN) {
        sigaction(number, &new, NULL);
    }
}

void stop_on_signals(void) {
    struct sigaction ignored = {.sa_handler = SIG_IGN};
    listen_to(SIGINT);
    listen_to(SIGTERM);
    listen_to(SIGHUP);
    /* Neither a reader of our lines that goes away nor a limit on the length of files may end a
     * copy half way: the writing fails instead. */
    sigemptyset(&ignored.sa_mask);
    sigaction(SIGPIPE, &ignored, NULL);
    sigaction(SIGXFSZ, &ignored, NULL);
}

void stop_not_here(void) {
    sigset_t all;
    sigfillset(&all);
    pthread_sigmask(SIG_BLOCK, &all, NULL);
}

bool stopped(void) {
    return atomic_load(&asked) != 0;
}
