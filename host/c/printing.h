/* A platform that prints, and the words in which the runs print what comes and goes. */
#ifndef PRINTING_H
#define PRINTING_H

#include "monitor.h"

/* Tells the monitor one event and prints a line: the event, what CPUs and jobs were told and do, a refusal, and the state. */
void tell(struct monitor *m, const struct lfa_event *e);

/* Prints a refusal, number and words. */
void print_refusal(uint64_t refusal);

/* Prints what lfa_why says of an ACTIVATE: its reason, with the component and the CPUs that it names, or a refusal with its place. */
void print_why(const struct lfa_why *w);

/* Prints a set of CPUs that the log tells, after a refusal with its place. */
void print_cpus_at(const struct lfa_cpus_at *t);

/* Prints where a reader of deliveries stands, how many records it gave, and how many bytes it keeps. */
void print_lead(const struct lfa_lead *l);

/* Prints one record of the log. */
void print_record(const struct lfa_log_record *r);

/* 1 where no job's work began beside a CPU that was told to wait and did not stand yet. */
int all_stood(void);

#endif
