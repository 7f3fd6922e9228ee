/* What is said about a file that was read, and what to do about it. */
#include "tell.h"

#include "refusals.h"
#include "slip.h"

/* Where the file is just what it should be, copying it again is no remedy. */
static const char *remedy_of(const struct subject *subject, const struct remedies *remedies) {
    const struct refusal *refusal =
        refusal_of(TDS_REFUSAL(subject_number(subject, TDS_ITEM_ANSWER)));
    if (subject->comparison.wanted && !subject->comparison.different) {
        return "the master is damaged in the same way: tell whoever made the figure";
    }
    if (subject->comparison.wanted) {
        return remedies->differs;
    }
    if (subject->entry != NULL && subject->as_entry == 0) {
        return "the slip has it so too: tell whoever made the figure";
    }
    if (format_of(last_name(subject->path)) == NULL) { /* it was named alone */
        return "it is not named as a figure: give a figure (.3ds, .cob, .c4d), or the whole folder";
    }
    return refusal == NULL ? NULL : refusal->remedy;
}

static void tell_refused(struct report *report, const struct subject *subject,
                         const struct remedies *remedies) {
    struct finding finding = {.outcome = FOUND_REFUSED,
                              .path = subject->path,
                              .answer = subject_number(subject, TDS_ITEM_ANSWER),
                              .remedy = remedy_of(subject, remedies)};
    report_add(report, &finding);
}

static void tell_different(struct report *report, const struct subject *subject,
                           const struct remedies *remedies) {
    struct text words = {0};
    text_format(&words, "differs from the master, at byte %llu", subject->comparison.at);
    report_found(report, FOUND_DIFFERENT, subject->path, words.bytes, remedies->differs);
    text_free(&words);
}

/* What is as in the master is not the file's fault. */
static void tell_not_as_entry(struct misfits *misfits, const struct subject *subject,
                              const struct remedies *remedies) {
    bool length = TDS_PLACE(subject->as_entry) == 0;
    const char *remedy = remedies->differs_from_slip;
    const char *words = length ? "differs from the slip (another length)"
                               : "differs from the slip (other contents)";
    if (is_slip(subject->below)) {
        words = "this slip is not as it was when the check began";
        remedy = "check again";
    } else if (subject->comparison.wanted) {
        remedy = "it is as in the master, so the slip is wrong: copy the slip again";
    }
    misfits_add(misfits, FOUND_DIFFERENT, subject->path, words, remedy);
}

static void tell_good(struct report *report, const struct subject *subject) {
    bool listed = subject->kind == KIND_FIGURE && subject->list;
    struct finding finding = {
        .outcome = FOUND_OK, .path = subject->path, .totals = listed ? &subject->totals : NULL};
    report_add(report, &finding);
}

void tell_of(struct report *report, struct misfits *misfits, const struct subject *subject,
             const struct remedies *remedies) {
    report->figures += subject->kind == KIND_FIGURE;
    if (TDS_REFUSED(subject_number(subject, TDS_ITEM_ANSWER))) {
        tell_refused(report, subject, remedies);
    } else if (subject->comparison.different) {
        tell_different(report, subject, remedies);
    } else if (subject->as_entry != 0) {
        tell_not_as_entry(misfits, subject, remedies);
    } else {
        tell_good(report, subject);
    }
}
