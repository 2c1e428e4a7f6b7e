/*
 * plot.h: what the host has measured, as a table and as a plot.
 */
#ifndef RANGE_PLOT_H
#define RANGE_PLOT_H

#include "host.h"

/* Prints the pattern table: a row for each angle. */
void plot_table(const struct host *h);

/* Writes the polar plot to a file, with the figures of a data sheet. */
void plot_svg(const struct host *h, const char *path);

#endif
