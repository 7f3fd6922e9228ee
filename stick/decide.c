/*
 * The one place that decides. Nothing is good because nobody spoke against it: each step asks for
 * what must be there.
 */
#include "decide.h"

/* What is known to be wrong; every other outcome but OK is something that was not checked. */
static const bool wrong[OUTCOMES] = {
    [FOUND_REFUSED] = true, [FOUND_DIFFERENT] = true,   [FOUND_MISSING] = true,
    [FOUND_EXTRA] = true,   [FOUND_LEFT_BEHIND] = true, [FOUND_BROKEN_SLIP] = true,
};

/* Whether there are figures and all of them were accepted; of a file that was named alone, whether
 * it was found well. */
static bool has_figures(const struct grounds *grounds) {
    return grounds->alone ? grounds->count[FOUND_OK] > 0
                          : grounds->accepted > 0 && grounds->accepted == grounds->figures;
}

/* The worst of all that was met. */
static int status_of(const struct grounds *grounds) {
    int worst = 0;
    for (int i = 0; i < OUTCOMES; i++) {
        int status = i == FOUND_OK || grounds->count[i] == 0 ? 0 : wrong[i] ? 1 : 2;
        worst = status > worst ? status : worst;
    }
    if (!grounds->whole || grounds->unread > 0) {
        return 2;
    }
    return worst == 0 && !has_figures(grounds) ? 2 : worst;
}

struct result decide(const struct grounds *grounds) {
    int status = status_of(grounds);
    if (status != 0) {
        return (struct result){DO_NOT_SEAL, status};
    }
    if (grounds->alone || grounds->manifests == 0) {
        return (struct result){STRUCTURE_ONLY, grounds->alone || grounds->asked ? 0 : 2};
    }
    if (grounds->agreed != grounds->manifests) {
        return (struct result){DO_NOT_SEAL, 2};
    }
    return (struct result){PASS, 0};
}

struct result worse(struct result one, struct result other) {
    return (struct result){one.verdict < other.verdict ? one.verdict : other.verdict,
                           one.status > other.status ? one.status : other.status};
}
