/* A batch: one stick after another at the same place. */
#ifndef STICK_BATCH_H
#define STICK_BATCH_H

#include "session.h"

/* Waits for each next stick, works on it, and keeps a dated log. Answers the exit status. */
int batch_run(struct session *session);

#endif
