/* A thread that does one job at a time beside the loop, so that the loop never waits for a disk. It ends with the process. */
#ifndef UNIT2179_WORKER_H
#define UNIT2179_WORKER_H

#include <stdbool.h>

struct worker {
    int orders[2], results[2]; /* pipes: a character for a job, one for how it ended */
    bool (*job)(void *context);
    void *context;
    bool busy;
};

/* false: there can be none, and errno tells why. */
bool worker_begin(struct worker *worker);

/* Has it do a job; only where it is not busy. What the job uses is the job's until its result has been taken. */
void worker_do(struct worker *worker, bool (*job)(void *context), void *context);

/* Can be read once the job has ended. */
int worker_file(const struct worker *worker);

/* Whether its job has ended and its result was not taken. */
bool worker_ended(const struct worker *worker);

/* Waits for the job's end, and answers what it answered. */
bool worker_result(struct worker *worker);

#endif
