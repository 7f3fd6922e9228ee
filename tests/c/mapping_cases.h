/* The part of the boundary test that is about mapping pairs and the version of a file. */
#ifndef TESTS_MAPPING_CASES_H
#define TESTS_MAPPING_CASES_H

void try_mappings(void);

#endif
