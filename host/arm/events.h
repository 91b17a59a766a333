/*
 * Dice with a seed, and the boards and events that they give: mostly with a meaning, sometimes without. Two throws stand in one
 * expression only where C has one of them first (?:, &&): else each compiler would choose its own.
 */
#ifndef EVENTS_H
#define EVENTS_H

#include "lfa.h"

/* One of the places of an array. */
#define ONE_OF(list) (list)[below(sizeof(list) / sizeof *(list))]

/* Any 64-bit number. */
uint64_t any(void);

/* A number from 0 to one less than the end. */
uint64_t below(uint64_t end);

/* Whether a chance of one in so many came true. */
int one_in(uint64_t many);

/* A board that lfa_describe takes. */
struct lfa_board any_board(void);

/* Any event, those of no kind included. */
struct lfa_event any_event(const struct lfa_record *r);

/* An event that moves the state on, or tries to. */
struct lfa_event onward(const struct lfa_record *r);

#endif
