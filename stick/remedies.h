/* What to do about a file that is not as it should be: another thing for a stick than for an
 * edition. */
#ifndef STICK_REMEDIES_H
#define STICK_REMEDIES_H

struct remedies {
    const char *differs; /* from the master */
    const char *differs_from_slip;
    const char *missing;
    const char *not_on_slip;
    /* where some are missing and others more: a slip of which a name was damaged looks so */
    const char *missing_beside_more;
    const char *more_beside_missing;
};

/* For a stick that is only checked; for one that was just copied to, where nothing is ever written
 * over; and for an edition, which may have been changed since its slip was written. */
extern const struct remedies stick_remedies, copy_remedies, edition_remedies;

#endif
