/* The part of the boundary test that is about tds_write. */
#ifndef TESTS_WRITER_CASES_H
#define TESTS_WRITER_CASES_H

void try_writer(void);

#endif
