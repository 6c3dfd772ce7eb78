/* Grids, sound and with reasons to be refused, and positions on, in and beside them. */
#ifndef REPLAY_GRIDS_H
#define REPLAY_GRIDS_H
#include "rows.h"

/* Makes the row of a grid, 1023 or 1024, that answers everywhere. */
void make_sound_grid(int number);

/* Gives the row of a grid one reason to be refused. */
void spoil_grid(void);

/* Makes the message of a grid, once in a while a damaged or any other one, and gives its length; the row is a grid's. */
size_t make_grid_message(void);

/* Makes the message of a grid that answers everywhere, and gives its length. */
size_t make_sound_message(void);

/* Steps of a position in one step of an origin or a spacing. */
int64_t grid_unit(void);

/* Steps from the grid's origin along one axis that stay inside: on lines of nodes, near them, at parts of a cell, anywhere. */
int64_t make_offset(int64_t spacing);

/* The longitude, for a 1023, within half a turn. */
int64_t short_way(int64_t longitude);

/* Makes a position on or within the row's grid, if its latitude is one. */
void make_inside(int64_t *n, int64_t *e);

/* One axis of a position at the limits or at the ends of 64 bits. */
int64_t make_far(int64_t limit);

/* Makes a position mostly inside the row's grid, otherwise beside it or far away. */
void make_position(int64_t *n, int64_t *e);

uint8_t make_component(void);
#endif
