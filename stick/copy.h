/* Copying an edition to a stick. */
#ifndef STICK_COPY_H
#define STICK_COPY_H

#include "manifest.h"

struct edition {
    const char *folder;
    const struct manifest *manifest; /* all files in it */
    bool any_folder;                 /* it may be copied to what is no stick */
};

/*
 * Copies every file of the edition that is not on the stick yet, the slip first: so a copy that is
 * broken off is told by any later check. Nothing on the stick is deleted or changed: a file that is
 * there already is left as it is, for the check to judge. Each file is written whole under a name
 * of its own first, or not at all. Answers whether all went well; else the first trouble was
 * reported, and nothing more was tried.
 */
bool copy_edition(const struct edition *edition, const char *stick, struct report *report);

#endif
