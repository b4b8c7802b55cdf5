/* The load of server.c: clients that connect, send requests, read the answers and hang up, some of
 * them early; and what the two use. */
#ifndef LOAD_H
#define LOAD_H

#ifndef _POSIX_C_SOURCE
#define _POSIX_C_SOURCE 200809L
#endif

#include <stdint.h>

/* The most requests of a connection, and the exit status if the system allows too few
 * descriptors. */
enum { LOAD_MOST_JOBS = 64, LOAD_NO_DESCRIPTORS = 77 };

/* What the server sends for each request, which is a number below `jobs`. */
struct answer {
    uint32_t id;
    uint32_t status;
};

struct load {
    unsigned connections;        /* at once */
    unsigned jobs;               /* of each */
    unsigned rounds;             /* so often each connects */
    void (*all_are_open)(void);  /* called once: all have connected and sent, and wait until this
                                  * returns */
    unsigned long answers, hang_ups; /* how many were read, and how many connections hung up before
                                      * that */
};

/* Raises the number of descriptors that this program may have, or ends it. */
void load_needs_descriptors(unsigned count);

/* A socket that listens, to which the clients connect. It doesn't block. */
int load_listen(void);

/* Runs the clients, until the last one has hung up. */
void load_run(struct load *load);

/* Ends the program unless this holds. */
void must(int holds, const char *what);

/* The time, by a clock that nobody sets; and a pause of one. */
long milliseconds(void);
void rest(void);

#endif
