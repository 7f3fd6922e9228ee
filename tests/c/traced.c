/*
 * Runs a command and watches how it reads one file, through ptrace(2).
 *
 *     traced count RESULT FILE COMMAND...    writes to RESULT how many bytes were read from FILE
 *     traced calls RESULT FILE COMMAND...    writes to RESULT what was done with FILE, in order
 *     traced do SHELL FILE COMMAND...        runs SHELL just before FILE's first byte is read
 *
 * So a file can be made to shrink or vanish while it is read, at a moment that no luck is needed
 * for, and the program that reads it knows nothing of the test. SHELL finds the program's number in
 * $PROCESS. The exit status is the command's; 125 means that this system lets no program be traced.
 */
#include <errno.h>
#include <limits.h>
#include <signal.h>
#include <stdio.h>
#include <stdlib.h>
#include <string.h>
#include <sys/ptrace.h>
#include <sys/syscall.h>
#include <sys/wait.h>
#include <unistd.h>

enum { MOST_THREADS = 64 };

struct watch {
    char *file;       /* its full path */
    const char *what; /* count, calls or do */
    const char *argument;
    FILE *result;
    pid_t command;
    pid_t reading[MOST_THREADS]; /* threads between the start and the end of a call that reads it */
    unsigned long long bytes;
};

static _Noreturn void give_up(const char *what) {
    fprintf(stderr, "traced: %s: %s\n", what, strerror(errno));
    exit(125);
}

/* What a call does, as far as it matters here; NULL for all others. */
static const char *name_of(unsigned long long call) {
    switch (call) {
    case SYS_read:
    case SYS_pread64:
    case SYS_readv:
    case SYS_preadv:
        return "read";
    case SYS_fsync:
    case SYS_fdatasync:
        return "write out";
    case SYS_fadvise64:
        return "drop";
    default:
        return NULL;
    }
}

/* Whether a descriptor of the process is the file that is watched. */
static int is_watched(const struct watch *watch, pid_t process, unsigned long long descriptor) {
    char link[64], target[PATH_MAX];
    ssize_t length;
    snprintf(link, sizeof link, "/proc/%d/fd/%llu", (int)process, descriptor);
    length = readlink(link, target, sizeof target - 1);
    if (length < 0) {
        return 0;
    }
    target[length] = '\0';
    return strcmp(target, watch->file) == 0;
}

/* Where it is kept that a thread is reading; an empty place for one that is not. */
static pid_t *place_of(struct watch *watch, pid_t thread) {
    pid_t *empty = NULL;
    for (int i = 0; i < MOST_THREADS; i++) {
        if (watch->reading[i] == thread) {
            return &watch->reading[i];
        }
        empty = watch->reading[i] == 0 && empty == NULL ? &watch->reading[i] : empty;
    }
    if (empty == NULL) {
        give_up("too many threads");
    }
    return empty;
}

/* Does once what is to be done before the first byte is read. */
static void do_once(struct watch *watch) {
    char number[20];
    if (strcmp(watch->what, "do") != 0 || watch->argument == NULL) {
        return;
    }
    snprintf(number, sizeof number, "%d", (int)watch->command);
    setenv("PROCESS", number, 1);
    if (system(watch->argument) != 0) {
        give_up(watch->argument);
    }
    watch->argument = NULL;
}

/* A thread has stopped at the start or the end of a call to the system. */
static void look(struct watch *watch, pid_t thread) {
    struct __ptrace_syscall_info info;
    const char *name;
    pid_t *place = place_of(watch, thread);
    if (ptrace(PTRACE_GET_SYSCALL_INFO, thread, sizeof info, &info) <= 0) {
        give_up("a call cannot be looked at");
    }
    if (info.op == PTRACE_SYSCALL_INFO_EXIT && *place == thread) {
        *place = 0;
        watch->bytes += info.exit.is_error ? 0 : (unsigned long long)info.exit.rval;
    }
    name = info.op == PTRACE_SYSCALL_INFO_ENTRY ? name_of(info.entry.nr) : NULL;
    if (name == NULL || !is_watched(watch, thread, info.entry.args[0])) {
        return;
    }
    if (strcmp(watch->what, "calls") == 0) {
        fprintf(watch->result, "%s\n", name);
    }
    if (strcmp(name, "read") == 0) {
        *place = thread;
        do_once(watch);
    }
}

/* Lets a thread go on; one that has ended meanwhile is no trouble. */
static void go_on(pid_t thread, int signal_number) {
    if (ptrace(PTRACE_SYSCALL, thread, NULL, signal_number) != 0 && errno != ESRCH) {
        give_up("the command cannot be followed");
    }
}

/* Lets the process run to its end; answers its exit status. */
static int follow(struct watch *watch) {
    int status, signal_number;
    go_on(watch->command, 0);
    for (;;) {
        pid_t thread = waitpid(-1, &status, __WALL);
        if (thread < 0) {
            give_up("waitpid");
        }
        if (!WIFSTOPPED(status)) {
            if (thread == watch->command) {
                return WIFEXITED(status) ? WEXITSTATUS(status) : 126;
            }
            continue;
        }
        signal_number = WSTOPSIG(status);
        if (signal_number == (SIGTRAP | 0x80)) {
            look(watch, thread);
        }
        /* New threads begin with a stop of their own. */
        go_on(thread, signal_number == (SIGTRAP | 0x80) || signal_number == SIGTRAP ||
                              signal_number == SIGSTOP
                          ? 0
                          : signal_number);
    }
}

static pid_t start(char **command) {
    const long options = PTRACE_O_TRACESYSGOOD | PTRACE_O_EXITKILL | PTRACE_O_TRACECLONE;
    int status;
    pid_t process = fork();
    if (process == 0) {
        if (ptrace(PTRACE_TRACEME, 0, NULL, NULL) != 0) {
            give_up("no program may be traced here");
        }
        raise(SIGSTOP);
        execvp(command[0], command);
        give_up(command[0]);
    }
    if (process < 0 || waitpid(process, &status, 0) != process || !WIFSTOPPED(status) ||
        ptrace(PTRACE_SETOPTIONS, process, NULL, options) != 0) {
        give_up("the command cannot be traced");
    }
    return process;
}

int main(int argc, char **argv) {
    struct watch watch = {0};
    int status;
    if (argc < 5) {
        fprintf(stderr, "usage: traced count|calls RESULT FILE COMMAND...\n"
                        "       traced do SHELL FILE COMMAND...\n");
        return 125;
    }
    watch.what = argv[1];
    watch.argument = argv[2];
    watch.file = realpath(argv[3], NULL);
    watch.result = strcmp(watch.what, "do") == 0 ? NULL : fopen(argv[2], "w");
    if (watch.file == NULL || (watch.result == NULL && strcmp(watch.what, "do") != 0)) {
        give_up(argv[3]);
    }
    watch.command = start(argv + 4);
    status = follow(&watch);
    if (strcmp(watch.what, "count") == 0) {
        fprintf(watch.result, "%llu\n", watch.bytes);
    }
    if (watch.result != NULL && fclose(watch.result) != 0) {
        give_up(argv[2]);
    }
    free(watch.file);
    return status;
}
