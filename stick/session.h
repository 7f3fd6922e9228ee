/* One round of work: the folders that were named, at once. */
#ifndef STICK_SESSION_H
#define STICK_SESSION_H

#include "check.h"
#include "options.h"

struct session {
    const struct options *options;
    struct manifest manifest; /* of the master or the edition */
    struct against against;
    bool unread; /* that could not be read whole: nothing is compared with it, or copied */
};

/*
 * Makes ready what all rounds share: the master's or the edition's names. Answers 0, or the exit
 * status where it cannot go on; then that was said.
 */
int session_start(struct session *session, const struct options *options);

/*
 * Works on the folders, several at once, and says the last lines. Answers the verdict on all of
 * them and the exit status. The lines go to the log too, if it is not NULL.
 */
struct result session_work(struct session *session, char **folders, size_t count, struct text *log);

void session_end(struct session *session);

#endif
