/* The part of the boundary test that is about the parts of a moving figure. */
#ifndef TESTS_PARTS_CASES_H
#define TESTS_PARTS_CASES_H

void try_parts(void);

#endif
