/* Why something could not be checked: plain words for what happens to sticks, and the remedy. */
#include "trouble.h"

#include <errno.h>
#include <stddef.h>
#include <stdio.h>
#include <string.h>

#define STOPPED "the stick stopped answering"
#define WARM "warm it in the hand, plug it in again"

/* The errors that happen; each is said in words of its own. */
static const struct row {
    int error;
    bool gone;
    const char *words;
    const char *remedy;
} rows[] = {
    {EIO, true, STOPPED, WARM},
    {ENODEV, true, STOPPED, WARM},
    {ENXIO, true, STOPPED, WARM},
    {ENOMEDIUM, true, STOPPED, WARM},
    {ENOTCONN, true, STOPPED, WARM},
    {ESTALE, true, STOPPED, WARM},
    {ENOENT, false, "there is no such file or folder",
     "see that the stick is in, and the name right"},
    {ENOTDIR, false, "there is a file where a folder should be", "see that the name is right"},
    {ELOOP, false, "it is a link, and links are not followed", "put the file itself there"},
    {EACCES, false, "this is not permitted", "ask whoever looks after this computer"},
    {EPERM, false, "this is not permitted", "ask whoever looks after this computer"},
    {ENAMETOOLONG, false, "its name is too long", "give it a shorter name"},
    {EINVAL, false, "the stick cannot do this, or have this name", "give it a plainer name"},
    {EILSEQ, false, "its name has characters that the stick cannot have",
     "give it a plainer name in the edition"},
    {ENOSPC, false, "the stick is full", "take a larger stick, or make room on it"},
    {EDQUOT, false, "the stick is full", "take a larger stick, or make room on it"},
    {EFBIG, false, "the file is too big for the stick", "take another stick"},
    {EEXIST, false, "something of this name is there already, and is left alone",
     "delete it there"},
    {EROFS, false, "the stick does not let itself be written", "see whether it has a lock"},
    {EMFILE, false, "too many files are open", "check fewer sticks at once"},
    {ENFILE, false, "too many files are open", "check fewer sticks at once"},
};

void trouble_of_words(struct trouble *trouble, const char *words, const char *remedy) {
    snprintf(trouble->words, sizeof trouble->words, "%s", words);
    trouble->remedy = remedy;
    trouble->detail[0] = '\0';
    trouble->gone = false;
}

void trouble_of_system(struct trouble *trouble, int error) {
    const struct row *row = NULL;
    for (size_t i = 0; i < sizeof rows / sizeof rows[0] && row == NULL; i++) {
        row = rows[i].error == error ? &rows[i] : NULL;
    }
    trouble_of_words(trouble, row == NULL ? "this computer cannot do it" : row->words,
                     row == NULL ? "try again, then with another stick" : row->remedy);
    trouble->gone = row != NULL && row->gone;
    if (strerror_r(error, trouble->detail, sizeof trouble->detail) != 0) {
        snprintf(trouble->detail, sizeof trouble->detail, "error %d", error);
    }
}

void trouble_elsewhere(struct trouble *trouble, const char *words, const char *remedy) {
    char detail[sizeof trouble->detail];
    memcpy(detail, trouble->detail, sizeof detail);
    trouble_of_words(trouble, words, remedy);
    memcpy(trouble->detail, detail, sizeof detail);
}

void trouble_of_stick(struct trouble *trouble) {
    trouble_of_words(trouble, STOPPED, WARM);
    trouble->gone = true;
}

void trouble_of_size(struct trouble *trouble, unsigned long long before, unsigned long long after) {
    trouble_of_words(trouble, "", "wait until copying has ended, and check again");
    snprintf(trouble->words, sizeof trouble->words,
             "it became %s while it was read (%llu bytes, then %llu)",
             after < before ? "shorter" : "longer", before, after);
}
