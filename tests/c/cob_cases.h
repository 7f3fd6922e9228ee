/* The part of the boundary test that is about Caligari figures. */
#ifndef TESTS_COB_CASES_H
#define TESTS_COB_CASES_H

void try_cobs(void);

#endif
