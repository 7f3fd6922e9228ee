/* The part of the boundary test that is about the rescue of a damaged figure. */
#ifndef TESTS_RESCUE_CASES_H
#define TESTS_RESCUE_CASES_H

void try_rescue(void);

#endif
