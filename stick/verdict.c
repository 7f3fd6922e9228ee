/*
 * The last lines: PASS, STRUCTURE ONLY or DO NOT SEAL stands first, so that it can be read from two
 * metres; then how many, and what was not covered.
 */
#include "verdict.h"

#include <errno.h>
#include <stdio.h>
#include <string.h>
#include <unistd.h>

#include "colour.h"
#include "escape.h"
#include "fold.h"
#include "json.h"

const char *verdict_word(enum verdict verdict) {
    return verdict == PASS ? "PASS" : verdict == STRUCTURE_ONLY ? "STRUCTURE ONLY" : "DO NOT SEAL";
}

size_t add_verdict_word(struct text *line, enum verdict verdict) {
    const char *word = verdict_word(verdict);
    if (!in_colour(STDOUT_FILENO)) {
        text_add(line, word);
        return strlen(word);
    }
    text_format(line, "%s  %s  %s", colour_of(verdict), word, COLOUR_ENDS);
    return strlen(word) + 4;
}

static void add_word(struct text *line, const struct report *report) {
    add_verdict_word(line, report->result.verdict);
    text_add(line, report->unfinished ? ": not finished: " : ": ");
}

static void add_counts(struct text *line, const struct report *report) {
    static const char *const words[OUTCOMES] = {
        [FOUND_DIFFERENT] = "differ",        [FOUND_MISSING] = "missing",
        [FOUND_EXTRA] = "not expected here", [FOUND_LEFT_BEHIND] = "left by another computer",
        [FOUND_BROKEN_SLIP] = "broken slip",
    };
    const unsigned long *count = report->grounds.count;
    unsigned long unchecked = report_unchecked(report);
    text_format(line, "%lu figure%s checked, %lu refused", report->figures,
                report->figures == 1 ? "" : "s", count[FOUND_REFUSED]);
    for (int i = 0; i < OUTCOMES; i++) {
        if (words[i] != NULL && count[i] > 0) {
            text_format(line, ", %lu %s", count[i], words[i]);
        }
    }
    if (unchecked > 0) {
        text_format(line, ", %lu could not be checked", unchecked);
    }
}

/* Why there was nothing to compare with. */
static const char *bare_words(const struct report *report) {
    if (report->files > 0) {
        return report->files == 1 ? "one file alone is not compared with a slip"
                                  : "files named one by one are not compared with a slip";
    }
    return report->folders > 1 ? "no slip on these sticks" : "no slip on this stick";
}

/* That there was nothing to compare with, where the verdict does not say so itself. */
static void add_bare(struct text *line, const struct report *report) {
    bool all = report->bare == report->folders;
    if (report->files > 0 && report->bare < report->files && report->figures > 0) {
        text_add(line, "; files named one by one: what is missing or more is not seen");
    }
    if (report->bare == 0 || report->figures == 0) {
        return;
    }
    if (all && (report->files == 0 || report->files == report->folders)) {
        text_format(
            line, "; %s%s",
            report->result.verdict == STRUCTURE_ONLY ? "" : "structure only: ", bare_words(report));
    } else {
        text_format(line, "; structure only on %lu of %lu: no slip there", report->bare,
                    report->folders);
    }
}

/* What the verdict does not speak of. */
static void add_uncovered(struct text *line, const struct report *report) {
    add_bare(line, report);
    if (report->uncompared > 0) {
        text_add(line, "; not compared with the master, which could not be read");
    }
    if (report->copied + report->there > 0) {
        text_format(line, "; %lu copied, %lu there before", report->copied, report->there);
    }
    if (report->slips == 1) {
        text_format(line, "; a slip was written, with %lu file%s", report->slip_files,
                    report->slip_files == 1 ? "" : "s");
    } else if (report->slips > 1) {
        text_format(line, "; %lu slips were written, with %lu files", report->slips,
                    report->slip_files);
    }
    if (report->kept > 0) {
        text_format(line, "; %s left alone",
                    report->kept == 1 ? "the slip that is there is good, and was"
                                      : "the slips that are there are good, and were");
    }
    if (report->unknown.count > 0) {
        text_format(line, "; %lu of no known kind not looked at", report->unknown.count);
    }
    if (report->by_program > 0) {
        text_add(line, "; this file system is a program and holds what it wrote: mount the stick "
                       "read-only, check again");
    } else if (report->grounds.unread > 0) {
        text_add(line, "; read from this computer's memory, not from the stick: take the stick "
                       "out, put it in again, check again");
    }
}

void verdict_of_folder(struct report *report, const char *folder) {
    struct text line = {0};
    if (report->style->quiet || report->style->json) {
        return;
    }
    text_escaped(&line, folder);
    text_add(&line, ": ");
    add_word(&line, report);
    add_counts(&line, report);
    add_uncovered(&line, report);
    text_add(&line, "\n");
    screen_line(report->screen, report->job, TO_OUTPUT, line.bytes);
    text_free(&line);
}

/* The files that nothing was said about, by name. Those that may be figures are a problem. */
static void add_names(struct text *lines, const struct report *sum) {
    if (sum->near.count > 0) {
        text_format(lines, "not checked: %lu file%s almost named as a figure: ", sum->near.count,
                    sum->near.count == 1 ? "" : "s");
        names_say(&sum->near, lines);
        text_add(lines, ": " NEAR_REMEDY "\n");
    }
    if (sum->unknown.count > 0 && !sum->style->quiet) {
        text_format(lines, "not looked at: %lu file%s of no known kind: ", sum->unknown.count,
                    sum->unknown.count == 1 ? "" : "s");
        names_say(&sum->unknown, lines);
        text_add(lines, "\n");
    }
}

/* All that is not PASS is said, also where only the problems are wanted. */
static bool is_said(const struct report *sum) {
    return !sum->style->quiet || sum->result.verdict != PASS;
}

/* The verdict first, then how many, and below it what it does not speak of. */
static void add_plain(struct text *lines, const struct report *sum, double seconds) {
    bool bad = sum->result.verdict == DO_NOT_SEAL;
    struct text words = {0};
    add_names(lines, sum);
    if (!is_said(sum)) {
        return;
    }
    text_add(&words, sum->unfinished ? ": not finished: " : ": ");
    if (sum->folders > 1 && bad) {
        text_format(&words, "%lu of ", sum->unwell);
    }
    if (sum->folders > 1) {
        text_format(&words, "%lu %s, ", sum->folders,
                    sum->files == sum->folders ? "files" : "folders");
    }
    add_counts(&words, sum);
    text_format(&words, ", in %.1f seconds%s", seconds, bad ? ": see above" : "");
    add_uncovered(&words, sum);
    add_folded(lines, add_verdict_word(lines, sum->result.verdict), words.bytes);
    text_free(&words);
}

static void add_json(struct text *lines, const struct report *sum, double seconds) {
    const unsigned long *count = sum->grounds.count;
    if (!is_said(sum)) {
        return;
    }
    json_begin(lines);
    json_string(lines, "verdict", verdict_word(sum->result.verdict));
    json_number(lines, "status", (unsigned long)sum->result.status);
    json_number(lines, "folders", sum->folders);
    json_number(lines, "unwell", sum->unwell);
    json_number(lines, "figures", sum->figures);
    json_number(lines, "refused", count[FOUND_REFUSED]);
    json_number(lines, "differ", count[FOUND_DIFFERENT]);
    json_number(lines, "missing", count[FOUND_MISSING]);
    json_number(lines, "not_expected", count[FOUND_EXTRA]);
    json_number(lines, "left_behind", count[FOUND_LEFT_BEHIND]);
    json_number(lines, "broken_slips", count[FOUND_BROKEN_SLIP]);
    json_number(lines, "not_checked", report_unchecked(sum));
    json_number(lines, "of_no_known_kind", sum->unknown.count);
    json_number(lines, "structure_only", sum->bare);
    json_number(lines, "not_compared", sum->uncompared);
    json_number(lines, "slips_written", sum->slips);
    json_number(lines, "copied", sum->copied);
    json_number(lines, "there_before", sum->there);
    json_number(lines, "from_memory", sum->grounds.unread);
    json_number(lines, "not_finished", sum->unfinished);
    json_number(lines, "milliseconds", (unsigned long)(seconds * 1000));
    json_end(lines);
}

bool output_is_whole(void) {
    bool whole = fflush(stdout) == 0 && !ferror(stdout);
    int error = errno; /* of the line that was lost, or of none */
    if (!whole) {
        fprintf(stderr, "stick: what was found could not be written: %s: check again\n",
                error == 0 ? "some lines were lost" : strerror(error));
    }
    return whole;
}

struct result verdict_of_all(struct report *sum, double seconds) {
    const struct result lost = {DO_NOT_SEAL, 2};
    struct text lines = {0};
    if (sum->style->json) {
        add_json(&lines, sum, seconds);
    } else {
        add_plain(&lines, sum, seconds);
    }
    if (lines.length > 0) {
        screen_line(sum->screen, 0, TO_OUTPUT, lines.bytes);
    }
    text_free(&lines);
    return output_is_whole() ? sum->result : lost;
}
