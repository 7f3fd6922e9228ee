/* The part of the boundary test that is about all meshes in one call. */
#ifndef TESTS_ALL_MESHES_CASES_H
#define TESTS_ALL_MESHES_CASES_H

void try_all_meshes(void);

#endif
