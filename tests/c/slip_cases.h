/* The part of the boundary test that is about slips and sums. */
#ifndef TESTS_SLIP_CASES_H
#define TESTS_SLIP_CASES_H

void try_slips(void);

#endif
