/* What is said about a file that was read. */
#ifndef STICK_TELL_H
#define STICK_TELL_H

#include "misfits.h"
#include "remedies.h"
#include "subject.h"

/* One finding: the first that holds of refused, not as the master, not as the slip says (which is
 * kept with the others of its kind), and good. */
void tell_of(struct report *report, struct misfits *misfits, const struct subject *subject,
             const struct remedies *remedies);

#endif
