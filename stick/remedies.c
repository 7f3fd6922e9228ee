/* What to do about a file that is not as it should be. */
#include "remedies.h"

#define MISSING_OR_SLIP "copy it again, or the slip if the edition has no such file"
#define MORE_OR_SLIP "see that slip and edition belong together, and copy the slip again"
#define WRITE_AGAIN "or delete the slip and write it again (--write-slip)"

const struct remedies stick_remedies = {
    .differs = "copy it again",
    .differs_from_slip = "copy it again",
    .missing = "copy it again",
    .not_on_slip = "delete it, unless it belongs there and the slip is an old one",
    .missing_beside_more = MISSING_OR_SLIP,
    .more_beside_missing = MORE_OR_SLIP,
};

const struct remedies copy_remedies = {
    .differs = "delete it there, then copy again",
    .differs_from_slip = "delete it there, then copy again",
    .missing = "copy again",
    .not_on_slip = "delete it, unless it belongs there and the slip is an old one",
    .missing_beside_more = MISSING_OR_SLIP,
    .more_beside_missing = MORE_OR_SLIP,
};

const struct remedies edition_remedies = {
    .differs = "copy it again",
    .differs_from_slip = "put the right file there, " WRITE_AGAIN,
    .missing = "put it back, " WRITE_AGAIN,
    .not_on_slip = "take it out, " WRITE_AGAIN,
    .missing_beside_more = "put it back, " WRITE_AGAIN,
    .more_beside_missing = "take it out, " WRITE_AGAIN,
};
