/* Going on with a batch that was broken off: its log tells which sticks have their verdict. */
#include "recall.h"

#include <stdio.h>
#include <stdlib.h>
#include <string.h>

#include "log.h"
#include "verdict.h"

struct recalling {
    struct tally *tally;
    unsigned long of;
    const char *kind;
    bool ours; /* the lines are of the batch that goes on */
};

static bool starts(const char *line, const char *words) {
    return strncmp(line, words, strlen(words)) == 0;
}

/* A line about a whole batch: where one begins, and where it went on before. */
static void take_batch(struct recalling *recalling, const char *words) {
    const char *kind = words + sizeof BATCH_BEGINS - 1;
    if (starts(words, BATCH_BEGINS)) {
        recalling->ours = strcmp(kind, recalling->kind) == 0;
        tally_cut(recalling->tally, 1);
    } else if (starts(words, BATCH_GOES_ON)) {
        tally_cut(recalling->tally, strtoul(words + sizeof BATCH_GOES_ON - 1, NULL, 10));
    }
}

/* What is written behind " ends: ", as PASS, 0. Answers whether it is a verdict. */
static bool read_result(const char *words, struct result *result) {
    for (int i = DO_NOT_SEAL; i <= PASS; i++) {
        const char *word = verdict_word((enum verdict)i);
        int status;
        if (starts(words, word) && sscanf(words + strlen(word), ", %d", &status) == 1) {
            *result = (struct result){(enum verdict)i, status};
            return true;
        }
    }
    return false;
}

/* A line about one stick, from its number on; only that of its verdict counts. */
static void take_stick(struct recalling *recalling, char *line) {
    char *name = strchr(line, '('), *ends = strstr(line, ")" STICK_ENDS);
    struct result result;
    unsigned long number = strtoul(line, NULL, 10);
    if (!recalling->ours || name == NULL || ends == NULL || ends < name || number == 0 ||
        number > recalling->tally->count + 1 ||
        !read_result(ends + sizeof ")" STICK_ENDS - 1, &result)) {
        return;
    }
    *ends = '\0';
    name++;
    tally_set(recalling->tally, number, strcmp(name, NO_NAME) == 0 ? "" : name, result);
}

static void take_line(struct recalling *recalling, char *line) {
    char *words = strlen(line) > DATE_LENGTH ? line + DATE_LENGTH : line;
    struct text batch = {0};
    words[strcspn(words, "\n")] = '\0';
    text_format(&batch, "batch of %lu ", recalling->of);
    if (starts(words, batch.bytes)) {
        take_batch(recalling, words + batch.length);
    } else if (starts(words, "batch of ")) {
        recalling->ours = false;
    } else if (starts(words, "stick ")) {
        take_stick(recalling, words + sizeof "stick " - 1);
    }
    text_free(&batch);
}

void recall(struct tally *tally, const char *log, unsigned long of, const char *kind) {
    struct recalling recalling = {tally, of, kind, false};
    FILE *file = fopen(log, "re");
    char *line = NULL;
    size_t room = 0;
    while (file != NULL && getline(&line, &room, file) > 0) {
        take_line(&recalling, line);
    }
    if (!recalling.ours) {
        tally_cut(tally, 1);
    }
    free(line);
    if (file != NULL) {
        fclose(file);
    }
}
