/*
 * What is found on one stick. What was found goes to standard output; what could not be checked
 * goes to standard error (in JSON, all of it to standard output).
 */
#include "report.h"

#include <stdlib.h>

#include "escape.h"
#include "json.h"
#include "kinds.h"
#include "tds_words.h"

/* What each outcome is called in a line. */
static const char *const labels[OUTCOMES] = {
    [FOUND_NOTHING] = "not checked",
    [FOUND_OK] = "OK",
    [FOUND_REFUSED] = "refused",
    [FOUND_DIFFERENT] = "differs",
    [FOUND_MISSING] = "missing",
    [FOUND_EXTRA] = "not expected",
    [FOUND_LEFT_BEHIND] = "left by another computer",
    [FOUND_BROKEN_SLIP] = "broken slip",
    [FOUND_NEAR] = "not checked",
    [FOUND_UNCHECKED] = "not checked",
};

void report_start(struct report *report, const struct style *style, struct screen *screen,
                  size_t job) {
    *report = (struct report){.style = style, .screen = screen, .job = job, .folders = 1};
}

void report_free(struct report *report) {
    names_free(&report->near);
    names_free(&report->unknown);
}

static const char *label_of(const struct finding *finding) {
    return finding->label == NULL ? labels[finding->outcome] : finding->label;
}

static void add_totals(struct text *line, const struct totals *totals) {
    text_add(line, ": accepted");
    for (size_t i = 0; i < totals->kinds; i++) {
        const struct thing *thing = &totals->things[i];
        text_format(line, "%s%lu %s", i == 0 ? ": " : ", ", thing->count,
                    thing->count == 1 ? thing->one : thing->many);
    }
}

static void add_refusal(struct text *line, uint64_t answer) {
    int refusal = TDS_REFUSAL(answer);
    text_format(line, ": refused: %s (%d): %s, at byte %lu", tds_refusal_name(refusal), refusal,
                tds_refusal_words(refusal), (unsigned long)TDS_PLACE(answer));
}

static void add_words(struct text *line, const struct finding *finding) {
    if (finding->totals != NULL) {
        add_totals(line, finding->totals);
    } else if (finding->answer != 0) {
        add_refusal(line, finding->answer);
    } else {
        text_format(line, ": %s", finding->words == NULL ? label_of(finding) : finding->words);
    }
    if (finding->remedy != NULL) {
        text_format(line, ": %s", finding->remedy);
    }
    if (finding->detail != NULL && finding->detail[0] != '\0') {
        text_format(line, " (%s)", finding->detail);
    }
    text_add(line, "\n");
}

static void say_plainly(struct report *report, const struct finding *finding) {
    bool unchecked = finding->outcome == FOUND_UNCHECKED;
    struct text line = {0};
    text_add(&line, unchecked ? "stick: " : "");
    text_escaped(&line, finding->path);
    if (unchecked) {
        text_format(&line, ": %s", label_of(finding));
    }
    add_words(&line, finding);
    screen_line(report->screen, report->job, unchecked ? TO_ERROR : TO_OUTPUT, line.bytes);
    text_free(&line);
}

static void say_as_json(struct report *report, const struct finding *finding) {
    int refusal = TDS_REFUSAL(finding->answer);
    struct text line = {0};
    json_begin(&line);
    json_path(&line, "path", finding->path);
    json_string(&line, "result", label_of(finding));
    if (finding->answer != 0) {
        json_number(&line, "refusal", (unsigned long)refusal);
        json_string(&line, "name", tds_refusal_name(refusal));
        json_number(&line, "place", TDS_PLACE(finding->answer));
    }
    json_string(&line, "words", refusal == 0 ? finding->words : tds_refusal_words(refusal));
    json_string(&line, "remedy", finding->remedy);
    json_string(&line, "detail", finding->detail);
    for (size_t i = 0; finding->totals != NULL && i < finding->totals->kinds; i++) {
        json_number(&line, finding->totals->things[i].many, finding->totals->things[i].count);
    }
    json_end(&line);
    screen_line(report->screen, report->job, TO_OUTPUT, line.bytes);
    text_free(&line);
}

/* Good files have a line only where one is asked for. */
static bool is_said(const struct report *report, const struct finding *finding) {
    const struct style *style = report->style;
    return finding->outcome != FOUND_OK || finding->totals != NULL || style->verbose ||
           (style->json && !style->quiet);
}

void report_add(struct report *report, const struct finding *finding) {
    report->grounds.count[finding->outcome]++;
    if (!is_said(report, finding)) {
        return;
    }
    if (report->style->json) {
        say_as_json(report, finding);
    } else {
        say_plainly(report, finding);
    }
}

void report_found(struct report *report, enum outcome outcome, const char *path, const char *words,
                  const char *remedy) {
    struct finding finding = {.outcome = outcome, .path = path, .words = words, .remedy = remedy};
    report_add(report, &finding);
}

void report_trouble(struct report *report, const char *path, const char *label,
                    const struct trouble *trouble) {
    struct finding finding = {.outcome = FOUND_UNCHECKED,
                              .path = path,
                              .label = label,
                              .words = trouble->words,
                              .remedy = trouble->remedy,
                              .detail = trouble->detail};
    report_add(report, &finding);
}

void report_near(struct report *report, const char *path) {
    struct finding finding = {.outcome = FOUND_NEAR,
                              .path = path,
                              .words = "it is almost named as a figure",
                              .remedy = NEAR_REMEDY};
    if (is_half_slip(path)) {
        report_found(report, FOUND_UNCHECKED, path,
                     "it is half a slip, whose writing was broken off", "delete it");
        return;
    }
    report->grounds.count[FOUND_NEAR]++;
    names_add(&report->near, path, report->style->verbose);
    if (report->style->json) {
        say_as_json(report, &finding);
    }
}

void report_unknown(struct report *report, const char *path) {
    struct finding finding = {.outcome = FOUND_NOTHING,
                              .path = path,
                              .label = "not looked at",
                              .words = "of no known kind"};
    names_add(&report->unknown, path, report->style->verbose);
    if (report->style->json && !report->style->quiet) {
        say_as_json(report, &finding);
    }
}

void report_medium(struct report *report, enum medium medium) {
    report->grounds.unread += medium != MEDIUM_STICK;
    report->by_program += medium == MEDIUM_PROGRAM;
}

void report_end(struct report *report) {
    report->files = report->grounds.alone;
    report->result = decide(&report->grounds);
}

void report_join(struct report *sum, const struct report *report) {
    for (int i = 0; i < OUTCOMES; i++) {
        sum->grounds.count[i] += report->grounds.count[i];
    }
    sum->result = sum->folders == 0 ? report->result : worse(sum->result, report->result);
    sum->grounds.unread += report->grounds.unread;
    sum->figures += report->figures;
    sum->folders += report->folders;
    sum->files += report->files;
    sum->unwell += report->result.verdict == DO_NOT_SEAL;
    sum->bare += report->bare;
    sum->uncompared += report->uncompared;
    sum->slips += report->slips;
    sum->slip_files += report->slip_files;
    sum->copied += report->copied;
    sum->there += report->there;
    sum->kept += report->kept;
    sum->by_program += report->by_program;
    sum->unfinished = sum->unfinished || report->unfinished;
    names_join(&sum->near, &report->near);
    names_join(&sum->unknown, &report->unknown);
}

unsigned long report_unchecked(const struct report *report) {
    const unsigned long *count = report->grounds.count;
    return count[FOUND_NOTHING] + count[FOUND_NEAR] + count[FOUND_UNCHECKED];
}
