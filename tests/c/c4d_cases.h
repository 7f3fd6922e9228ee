/* The part of the boundary test that is about Cinema 4D figures. */
#ifndef TESTS_C4D_CASES_H
#define TESTS_C4D_CASES_H

void try_c4ds(void);

#endif
