/* Comparing a file, as it is read, with the master's, byte for byte. */
#include "compare.h"

#include <stdlib.h>
#include <string.h>
#include <unistd.h>

#include "text.h"

/* It is not the stick that does not answer. */
static bool blame_master(struct trouble *trouble) {
    trouble_elsewhere(trouble, "the master's file of this name cannot be read", "check the master");
    return false;
}

bool comparison_start(struct comparison *comparison, const char *path, struct trouble *trouble) {
    *comparison = (struct comparison){.wanted = true};
    if (!reading_open(&comparison->master, path, FROM_ANYWHERE, trouble)) {
        comparison->wanted = false;
        return blame_master(trouble);
    }
    comparison->block = need_memory(NULL, MOST_READ);
    return true;
}

/* The first place where two rows of bytes differ, or the length of the shorter. */
static size_t first_difference(const uint8_t *left, size_t left_length, const uint8_t *right,
                               size_t right_length) {
    size_t most = left_length < right_length ? left_length : right_length, at = 0;
    while (at < most && left[at] == right[at]) {
        at++;
    }
    return at;
}

bool comparison_add(struct comparison *comparison, const uint8_t *bytes, size_t length,
                    struct trouble *trouble) {
    unsigned long long before = comparison->master.read;
    size_t other;
    if (!comparison->wanted || comparison->different) {
        return true;
    }
    if (!reading_block(&comparison->master, comparison->block, length, &other, trouble)) {
        return blame_master(trouble);
    }
    comparison->sum = tds_sum_add(comparison->sum, comparison->block, other);
    if (other != length || memcmp(bytes, comparison->block, length) != 0) {
        comparison->different = true;
        comparison->at = before + first_difference(bytes, length, comparison->block, other);
    }
    return true;
}

bool comparison_end(struct comparison *comparison, struct trouble *trouble) {
    bool good = true;
    size_t more = 0;
    if (!comparison->wanted) {
        return true;
    }
    if (!comparison->different) {
        comparison->at = comparison->master.read;
        good = reading_block(&comparison->master, comparison->block, 1, &more, trouble);
        comparison->different = more > 0;
    }
    close(comparison->master.file);
    free(comparison->block);
    return good || blame_master(trouble);
}
