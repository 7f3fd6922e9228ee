/* The part of the boundary test that is about the numbers of one mesh. */
#ifndef TESTS_MESH_CASES_H
#define TESTS_MESH_CASES_H

void try_meshes(void);

#endif
