/* One file on a stick: read once, block by block, for all that is to be known of it. */
#include "subject.h"

#include <string.h>

#include "evidence.h"
#include "stop.h"

uint64_t subject_number(const struct subject *subject, enum tds_item number) {
    return tds_get_item(subject->item, 0, number);
}

/* The first block holds a whole figure, or more than one may have. */
static bool take_block(struct subject *subject, struct checker *checker, bool first, size_t length,
                       const struct reading *reading, struct trouble *trouble) {
    if (first) {
        tds_stick_file((const uint8_t *)subject->read_as, strlen(subject->read_as), reading->size,
                       checker->block, length, subject->item, sizeof subject->item);
    } else {
        tds_stick_more(checker->block, length, subject->item, sizeof subject->item);
    }
    if (first && subject->list && item_is_accepted(subject->item)) {
        count_figure(checker, subject->format, length, subject_number(subject, TDS_ITEM_ANSWER),
                     &subject->totals);
    }
    return comparison_add(&subject->comparison, checker->block, length, trouble);
}

/* Whether there may be something behind the blocks so far that anyone wants to know. */
static bool wants_more(const struct subject *subject, const struct reading *reading) {
    bool compared = subject->comparison.wanted && !subject->comparison.different;
    return !reading->ended && !stopped() && (subject->summed || compared);
}

static bool read_blocks(struct subject *subject, struct checker *checker, struct reading *reading,
                        struct trouble *trouble) {
    bool first = true;
    size_t length;
    do {
        if (!reading_block(reading, checker->block, MOST_READ, &length, trouble) ||
            !take_block(subject, checker, first, length, reading, trouble)) {
            return false;
        }
        first = false;
        screen_share(checker->report->screen, checker->report->job,
                     (struct share){reading->read, reading->size});
    } while (wants_more(subject, reading));
    return true;
}

/* Where the length alone decides there is nothing to add up, however long the file is. Answers
 * false where it is too long for an entry of its own. */
static bool weigh(struct subject *subject, const struct reading *reading, struct trouble *trouble) {
    if (subject->entry != NULL && reading->size != subject->entry->length) {
        subject->summed = false;
    } else if (subject->summed && reading->size > UINT32_MAX) {
        trouble_of_words(trouble, "it is too big for a slip", "leave it off");
        return false;
    }
    return true;
}

/* How it agrees with what the slip says: in length, and then in its sums. */
static uint64_t hold_against(const struct subject *subject) {
    const struct expected *entry = subject->entry;
    if (entry == NULL) {
        return 0;
    }
    if (subject_number(subject, TDS_ITEM_SIZE) != entry->length) {
        return (uint64_t)TDS_DIFFERS << 32;
    }
    return tds_sum_matches(subject_number(subject, TDS_ITEM_SUM), entry->length, entry->sums);
}

bool subject_read(struct subject *subject, struct checker *checker, struct trouble *trouble) {
    struct trouble later;
    struct reading reading;
    bool good;
    if (!reading_open(&reading, subject->path, FROM_STICK, trouble)) {
        return false;
    }
    subject->medium = reading.medium;
    good = weigh(subject, &reading, trouble);
    if (good && subject->master != NULL) {
        good = comparison_start(&subject->comparison, subject->master, trouble);
    }
    good = good && read_blocks(subject, checker, &reading, trouble);
    if (!comparison_end(&subject->comparison, &later) && good) {
        *trouble = later;
        good = false;
    }
    if (!reading_close(&reading, &later) && good) {
        *trouble = later;
        good = false;
    }
    subject->as_entry = hold_against(subject);
    if (!good) {
        memset(subject->item, 0, sizeof subject->item);
    }
    return good;
}
