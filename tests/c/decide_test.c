/* The verdict's function, case by case: PASS comes of one record alone, and never of one that is
 * empty. */
#include <stdio.h>
#include <string.h>

#include "../../stick/decide.h"

static unsigned passed, failed;

static void expect(const char *what, const struct grounds *grounds, enum verdict verdict,
                   int status) {
    struct result result = decide(grounds);
    if (result.verdict == verdict && result.status == status) {
        passed++;
    } else {
        failed++;
        printf("FAILED: %s: verdict %d and status %d instead of %d and %d\n", what, result.verdict,
               result.status, verdict, status);
    }
}

/* The record of a stick that passes. */
static struct grounds good(void) {
    return (struct grounds){.count[FOUND_OK] = 3,
                            .figures = 2,
                            .accepted = 2,
                            .whole = true,
                            .manifests = 1,
                            .agreed = 1};
}

/* Every outcome alone, beside a record that is good otherwise. */
static void outcomes(void) {
    static const int status[OUTCOMES] = {
        [FOUND_NOTHING] = 2,     [FOUND_REFUSED] = 1, [FOUND_DIFFERENT] = 1,
        [FOUND_MISSING] = 1,     [FOUND_EXTRA] = 1,   [FOUND_LEFT_BEHIND] = 1,
        [FOUND_BROKEN_SLIP] = 1, [FOUND_NEAR] = 2,    [FOUND_UNCHECKED] = 2,
    };
    for (int i = 0; i < OUTCOMES; i++) {
        struct grounds one = good(), alone = {0};
        one.count[i]++;
        expect("an outcome beside good ones", &one, i == FOUND_OK ? PASS : DO_NOT_SEAL, status[i]);
        alone.count[i] = 1;
        expect("an outcome and nothing else", &alone, DO_NOT_SEAL, 2);
        for (int j = 0; j < OUTCOMES; j++) {
            struct grounds two = one;
            two.count[j]++;
            expect("two outcomes: the worse decides", &two,
                   status[i] + status[j] == 0 ? PASS : DO_NOT_SEAL,
                   status[i] > status[j] ? status[i] : status[j]);
        }
    }
}

/* Everything that a PASS rests on, taken away. */
static void without(void) {
    struct grounds zero = {0}, one = good();
    expect("nothing was looked at", &zero, DO_NOT_SEAL, 2);
    expect("all is there", &one, PASS, 0);
    one.whole = false;
    expect("the walk did not end", &one, DO_NOT_SEAL, 2);
    one = good();
    one.accepted = 0;
    expect("no figure was accepted", &one, DO_NOT_SEAL, 2);
    one.accepted = 1;
    expect("not all figures were accepted", &one, DO_NOT_SEAL, 2);
    one.accepted = 3;
    expect("more than there are", &one, DO_NOT_SEAL, 2);
    one.accepted = one.figures = 0;
    expect("there is no figure", &one, DO_NOT_SEAL, 2);
    one = good();
    one.unread = 1;
    expect("a file was read from memory", &one, DO_NOT_SEAL, 2);
    one = good();
    one.agreed = 0;
    expect("the library does not agree", &one, DO_NOT_SEAL, 2);
    one.asked = true;
    expect("nor where structure was asked for", &one, DO_NOT_SEAL, 2);
    one = good();
    one.manifests = 2;
    expect("the library agrees by the slip, and not by the master", &one, DO_NOT_SEAL, 2);
    one.agreed = 2;
    expect("and by both", &one, PASS, 0);
    one.manifests = 0;
    expect("by more than there are", &one, STRUCTURE_ONLY, 2);
    one = good();
    one.agreed = one.manifests = 0;
    expect("there was nothing to compare with", &one, STRUCTURE_ONLY, 2);
    one.asked = true;
    expect("and that was asked for", &one, STRUCTURE_ONLY, 0);
    one = good();
    one.alone = true;
    expect("a file that was named alone", &one, STRUCTURE_ONLY, 0);
    one.accepted = 0;
    expect("one that is no figure", &one, STRUCTURE_ONLY, 0);
    one.count[FOUND_OK] = 0;
    expect("one that was not looked at", &one, DO_NOT_SEAL, 2);
    one = good();
    one.asked = true;
    expect("structure was asked for, and there was a slip", &one, PASS, 0);
}

/* All records of these flags: few are good. */
static void all_flags(void) {
    for (unsigned bits = 0; bits < 128; bits++) {
        bool whole = bits & 1, read = bits & 2, accepted = bits & 4, alone = bits & 8;
        bool slip = bits & 16, agreed = bits & 32, asked = bits & 64;
        struct grounds one = {.count[FOUND_OK] = 3,
                              .whole = whole,
                              .unread = !read,
                              .figures = 1,
                              .accepted = accepted,
                              .alone = alone,
                              .manifests = slip,
                              .agreed = agreed,
                              .asked = asked};
        bool sound = whole && read && (accepted || alone);
        bool structure = sound && (alone || !slip), pass = sound && !alone && slip && agreed;
        expect("some flags", &one,
               pass        ? PASS
               : structure ? STRUCTURE_ONLY
                           : DO_NOT_SEAL,
               pass || (structure && (alone || asked)) ? 0 : 2);
    }
}

/* Of two results the worse counts, each way round. */
static void worst(void) {
    static const struct result results[] = {
        {DO_NOT_SEAL, 2}, {DO_NOT_SEAL, 1}, {STRUCTURE_ONLY, 2}, {STRUCTURE_ONLY, 0}, {PASS, 0}};
    for (int i = 0; i < 25; i++) {
        struct result one = results[i / 5], other = results[i % 5], both = worse(one, other);
        bool verdict = both.verdict <= one.verdict && both.verdict <= other.verdict &&
                       (both.verdict == one.verdict || both.verdict == other.verdict);
        bool status = both.status >= one.status && both.status >= other.status &&
                      (both.status == one.status || both.status == other.status);
        passed += verdict && status;
        failed += !(verdict && status);
    }
}

int main(void) {
    outcomes();
    without();
    all_flags();
    worst();
    printf("decide_test: %u passed, %u failed\n", passed, failed);
    return failed != 0;
}
