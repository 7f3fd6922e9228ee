/* stick - checks every figure on a memory stick before it is sealed. */
#include <errno.h>
#include <fcntl.h>
#include <stdio.h>
#include <string.h>
#include <unistd.h>

#include "batch.h"
#include "options.h"
#include "refusals.h"
#include "rescue.h"
#include "roomy.h"
#include "stop.h"

#define VERSION "3.0"

static int work(const struct options *options) {
    struct session session;
    int status = session_start(&session, options);
    if (status == 0) {
        status = options->batch > 0
                     ? batch_run(&session)
                     : session_work(&session, options->arguments, options->count, NULL).status;
    }
    session_end(&session);
    return status;
}

/* The options, and what comes of them. */
struct job {
    const struct options *options;
    int status;
};

static void *work_on_job(void *argument) {
    struct job *job = argument;
    job->status = work(job->options);
    return NULL;
}

/* Works in a thread that has room, and signals are for that one; where none is to be had, in this
 * one. */
static int work_with_room(const struct options *options) {
    struct job job = {options, 2};
    pthread_t thread;
    if (roomy_start(&thread, work_on_job, &job)) {
        stop_not_here();
        pthread_join(thread, NULL);
    } else {
        work_on_job(&job);
    }
    return job.status;
}

/* Ends a task that only prints something. */
static int printed(void) {
    if (fflush(stdout) != 0 || ferror(stdout)) {
        fprintf(stderr, "stick: cannot write: see that there is room where these lines go (%s)\n",
                strerror(errno));
        return 2;
    }
    return 0;
}

/*
 * The next file that is opened would take the place of a standard stream that is closed, and lines
 * would be written into a figure. Like this, writing them fails.
 */
static void fill_closed_streams(void) {
    int file;
    do {
        file = open("/dev/null", O_RDONLY);
    } while (file >= 0 && file <= STDERR_FILENO);
    if (file >= 0) {
        close(file);
    }
}

int main(int argc, char **argv) {
    struct options options;
    fill_closed_streams();
    options = options_read(argc, argv);
    switch (options.task) {
    case TASK_WORK:
        setvbuf(stdout, NULL, _IOLBF, BUFSIZ); /* each line is there as soon as it is known, */
        setvbuf(stderr, NULL, _IOLBF, BUFSIZ); /* and is whole */
        stop_on_signals();
        return work_with_room(&options);
    case TASK_RESCUE: {
        int status;
        stop_on_signals();
        status = rescue(options.rescue, options.arguments[0]);
        return printed() == 0 ? status : 2;
    }
    case TASK_HELP:
        print_help();
        return printed();
    case TASK_VERSION:
        printf("stick " VERSION "\n");
        return printed();
    case TASK_EXPLAIN:
        refusal_explain(stdout, options.explain);
        return printed();
    default:
        return 2;
    }
}
