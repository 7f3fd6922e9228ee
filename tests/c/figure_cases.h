/* The part of the boundary test that is about tds_write_figure. */
#ifndef TESTS_FIGURE_CASES_H
#define TESTS_FIGURE_CASES_H

void try_figures(void);

#endif
