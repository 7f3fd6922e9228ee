/* A batch: waits for each next stick at a place, has it worked on, and counts each stick once. */
#define _XOPEN_SOURCE 700 /* realpath */
#include "batch.h"

#include <stdio.h>
#include <stdlib.h>
#include <time.h>
#include <unistd.h>

#include "escape.h"
#include "fold.h"
#include "json.h"
#include "log.h"
#include "place.h"
#include "recall.h"
#include "stop.h"
#include "verdict.h"

struct batch {
    struct session *session;
    const struct options *options;
    struct place place;
    struct tally tally;
    struct log log;
    bool warned; /* that there is a folder, and no stick */
};

/* A fifth of a second is soon enough for a hand. */
static void wait_a_little(void) {
    const struct timespec pause = {.tv_nsec = 200 * 1000 * 1000};
    nanosleep(&pause, NULL);
}

/* For someone who looks elsewhere meanwhile. */
static void ring(const struct batch *batch) {
    FILE *terminal = isatty(STDERR_FILENO) ? stderr : isatty(STDOUT_FILENO) ? stdout : NULL;
    if (terminal != NULL && !batch->options->no_bell) {
        fputc('\a', terminal);
        fflush(terminal);
    }
}

/* What a line speaks of: one stick, with its name where one is in. */
static void add_stick(const struct batch *batch, struct text *text, size_t number, bool named) {
    text_format(text, "stick %zu of %lu", number, batch->options->batch);
    if (named) {
        text_add(text, " (");
        text_add(text, batch->place.name.length == 0 ? NO_NAME : batch->place.name.bytes);
        text_add(text, ")");
    }
}

static void say(const struct batch *batch, size_t number, bool named, const char *words) {
    struct text line = {0};
    if (!batch->options->style.json) {
        add_stick(batch, &line, number, named);
        printf("%s: %s\n", line.bytes, words);
        text_free(&line);
    }
}

/* For programs: a line for each stick. */
static void say_as_json(const struct batch *batch, size_t number, const char *verdict) {
    struct text line = {0};
    if (!batch->options->style.json) {
        return;
    }
    json_begin(&line);
    json_number(&line, "stick", number);
    json_number(&line, "sticks", batch->options->batch);
    json_string(&line, "name", batch->place.name.bytes);
    json_string(&line, "verdict", verdict);
    json_end(&line);
    fputs(line.bytes, stdout);
    text_free(&line);
}

static void log_verdict(struct batch *batch, size_t number, struct result result) {
    struct text about = {0}, words = {0};
    add_stick(batch, &about, number, true);
    text_add(&about, STICK_ENDS);
    text_format(&words, "%s, %d", verdict_word(result.verdict), result.status);
    log_add(&batch->log, about.bytes, words.bytes);
    text_free(&about);
    text_free(&words);
}

/* The verdict is on the stick that was looked at when it came in, and no other. */
static struct result judge_stick(const struct batch *batch, size_t number, struct text *lines) {
    const struct result bad = {DO_NOT_SEAL, 2};
    char *folder = batch->options->arguments[0];
    struct result result = session_work(batch->session, &folder, 1, lines);
    if (!place_holds(&batch->place)) {
        say(batch, number, true, "DO NOT SEAL: it was taken out or exchanged meanwhile");
        result = bad;
    }
    return result;
}

static void work_on_stick(struct batch *batch, size_t number) {
    struct text lines = {0}, about = {0};
    struct result result = judge_stick(batch, number, &lines);
    add_stick(batch, &about, number, true);
    text_add(&about, ": ");
    log_add(&batch->log, about.bytes, lines.length == 0 ? "" : lines.bytes);
    log_verdict(batch, number, result);
    if (!stopped()) { /* else it is the one to go on with */
        tally_set(&batch->tally, number, batch->place.name.bytes, result);
    }
    say_as_json(batch, number, verdict_word(result.verdict));
    text_free(&about);
    text_free(&lines);
}

/* A folder that is no stick would else be waited at for ever, and nobody know why. */
static void warn_once(struct batch *batch) {
    struct text folder = {0};
    if (batch->warned || batch->options->any_folder || !place_misleads(&batch->place)) {
        return;
    }
    text_escaped(&folder, batch->place.folder);
    fprintf(stderr, "stick: %s is on no stick: put one in (--any-folder takes any folder)\n",
            folder.bytes);
    text_free(&folder);
    batch->warned = true;
}

static void wait_for_stick(struct batch *batch) {
    say(batch, batch->tally.count + 1, false, "put it in");
    while (!stopped() && !place_look(&batch->place)) {
        warn_once(batch);
        wait_a_little();
    }
}

static void wait_until_out(const struct batch *batch) {
    while (!stopped() && place_holds(&batch->place)) {
        wait_a_little();
    }
}

/* Whether the stick that is in is not to be worked on, and it is said why. */
static bool is_passed_over(struct batch *batch, size_t before) {
    size_t next = batch->tally.count + 1;
    if (batch->place.name.length == 0 && !batch->options->any_folder) {
        say(batch, next, true,
            "this computer cannot tell it from others, so it is not counted: take it out "
            "(--any-folder counts it)");
        say_as_json(batch, next, "not counted");
        return true;
    }
    if (before > 0 && batch->tally.sticks[before - 1].result.verdict == PASS) {
        say(batch, before, true, "it has passed already, and is not counted again: take it out");
        say_as_json(batch, before, "not counted again");
        return true;
    }
    return false;
}

static bool is_finished(const struct batch *batch) {
    return batch->tally.count == batch->options->batch;
}

/*
 * The next stick comes in, is worked on, and goes out again; the last may stay. One that did not
 * pass and comes again keeps its number: that is what to do where it had stopped answering.
 */
static void next_stick(struct batch *batch) {
    size_t before, number;
    wait_for_stick(batch);
    if (stopped()) {
        return;
    }
    before = tally_find(&batch->tally, batch->place.name.bytes);
    number = before > 0 ? before : batch->tally.count + 1;
    if (!is_passed_over(batch, before)) {
        work_on_stick(batch, number);
        if (!is_finished(batch)) {
            say(batch, number, true, "take it out");
        }
    }
    ring(batch);
    if (!is_finished(batch)) {
        wait_until_out(batch);
    }
}

static struct result result_of(const struct batch *batch) {
    const struct result bad = {DO_NOT_SEAL, 2};
    return is_finished(batch) && !batch->log.failed ? tally_result(&batch->tally) : bad;
}

static void add_plain_end(const struct batch *batch, struct text *lines) {
    size_t passed = tally_passed(&batch->tally);
    struct text words = {0};
    text_format(&words, ": %s%zu of %lu sticks passed",
                is_finished(batch) ? "" : "not finished: ", passed, batch->options->batch);
    if (!is_finished(batch) && !batch->log.failed) {
        text_format(&words, "; go on with --from %zu", batch->tally.count + 1);
    }
    text_add(&words, batch->log.failed ? "; the log is not whole" : "");
    if (passed < batch->tally.count) {
        text_add(&words, "; not these: ");
        add_not_passed(&words, &batch->tally, true);
    }
    add_folded(lines, add_verdict_word(lines, result_of(batch).verdict), words.bytes);
    text_free(&words);
}

static void add_json_end(const struct batch *batch, struct text *line) {
    struct text failed = {0};
    add_not_passed(&failed, &batch->tally, false);
    json_begin(line);
    json_string(line, "verdict", verdict_word(result_of(batch).verdict));
    json_number(line, "sticks", batch->options->batch);
    json_number(line, "passed", tally_passed(&batch->tally));
    json_string(line, "not_these", failed.bytes);
    json_string(line, "log", batch->log.failed ? "not whole" : NULL);
    json_number(line, "not_finished", !is_finished(batch));
    json_end(line);
    text_free(&failed);
}

static void set_end(const struct batch *batch, struct text *lines) {
    text_cut(lines, 0);
    if (batch->options->style.json) {
        add_json_end(batch, lines);
    } else {
        add_plain_end(batch, lines);
    }
}

/* The last lines go to the log first: should that fail, they say so too. Answers the status. */
static int say_end(struct batch *batch) {
    struct text lines = {0}, about = {0};
    text_format(&about, "batch of %lu ends: ", batch->options->batch);
    set_end(batch, &lines);
    log_add(&batch->log, about.bytes, lines.bytes);
    log_close(&batch->log);
    set_end(batch, &lines);
    if (!batch->options->style.quiet || result_of(batch).verdict != PASS) {
        fputs(lines.bytes, stdout);
    }
    text_free(&about);
    text_free(&lines);
    return output_is_whole() ? result_of(batch).status : 2;
}

/* What the batch is for, with the whole path of the edition or the master. */
static void add_kind(const struct options *options, struct text *kind) {
    const char *folder = options->edition != NULL ? options->edition : options->against;
    char *whole = folder == NULL ? NULL : realpath(folder, NULL);
    text_add(kind, options->edition != NULL   ? "copies of "
                   : options->against != NULL ? "to be as "
                                              : "to be checked");
    if (folder != NULL) {
        text_escaped(kind, whole == NULL ? folder : whole);
    }
    free(whole);
}

/* All sticks before the one that it goes on with must have their verdict in the log. */
static bool remember(struct batch *batch, const char *kind) {
    struct text log = {0};
    recall(&batch->tally, batch->log.name.bytes, batch->options->batch, kind);
    tally_cut(&batch->tally, batch->options->from);
    if (batch->tally.count + 1 == batch->options->from) {
        return true;
    }
    text_escaped(&log, batch->log.name.bytes);
    fprintf(stderr,
            "stick: the log %s does not tell of stick %zu of such a batch: give its log with "
            "--log, or begin a new one\n",
            log.bytes, batch->tally.count + 1);
    text_free(&log);
    return false;
}

/* Answers whether the batch can begin, or go on; else it was said why not. */
static bool begin(struct batch *batch) {
    struct text kind = {0}, about = {0};
    bool good = true;
    add_kind(batch->options, &kind);
    text_format(&about, "batch of %lu ", batch->options->batch);
    if (batch->options->from > 1) {
        good = remember(batch, kind.bytes);
        text_format(&about, BATCH_GOES_ON "%lu: ", batch->options->from);
    } else {
        text_add(&about, BATCH_BEGINS);
    }
    good = good && log_open(&batch->log);
    if (good) {
        log_add(&batch->log, about.bytes, kind.bytes);
    }
    text_free(&about);
    text_free(&kind);
    return good;
}

int batch_run(struct session *session) {
    const struct options *options = session->options;
    struct batch batch = {.session = session,
                          .options = options,
                          .place = {.folder = options->arguments[0],
                                    .edition = options->edition,
                                    .any_folder = options->any_folder}};
    int status = 2;
    log_start(&batch.log, options->log);
    if (begin(&batch)) {
        while (!stopped() && !is_finished(&batch)) {
            next_stick(&batch);
        }
        status = say_end(&batch);
    } else {
        log_close(&batch.log);
    }
    tally_free(&batch.tally);
    place_free(&batch.place);
    return status;
}
