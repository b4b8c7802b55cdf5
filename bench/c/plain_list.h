/* The pending list of the plain queue: kept in one vector or in chains. */
#ifndef PLAIN_LIST_H
#define PLAIN_LIST_H

/* These are the calls themselves, without what the header reports to the thread sanitizer. */
#define CSQ_NO_TSAN
#include "csq.h"

#include <stdbool.h>

/* No IRP. */
#define NOBODY UINT32_MAX

/* Where an IRP stands in a chain, or where a chain begins and ends. */
struct links {
    uint32_t before; /* a chain's last */
    uint32_t after;  /* a chain's first */
};

struct plain_list {
    uint32_t irps;
    uint32_t files;
    uint32_t limit;
    uint32_t kind;           /* CSQ_VECTOR or CSQ_CHAINS */
    uint32_t length;
    bool *used;              /* by IRP: whether an insert accepted it in its present life */
    bool *closed;            /* by file object */
    uint32_t *file_lengths;  /* by file object */
    uint32_t *file_limits;   /* by file object */
    uint32_t *file_of;       /* by IRP, while it is listed: its file object, else NOBODY */
    uint32_t *entries;       /* the vector: IRPs in order, in a ring of `limit` places */
    uint32_t *positions;     /* the vector: by IRP, while it is listed, its place in the ring */
    uint32_t head;           /* the vector: the place of the first */
    struct links all;        /* the chain over all */
    struct links *file_ends; /* by file object: its chain */
    struct links *links;     /* the chain over all, by IRP */
    struct links *file_links;/* the chain of its file object, by IRP */
};

/* Whether there are queues of this size, whatever its number of passes, and of these limits. */
bool plain_list_is_size(const struct csq_size *size);
bool plain_list_are_limits(const struct csq_size *size, const uint32_t *file_limits, size_t count);

/* A list of this size; file_limits is null where no file object has a limit of its own. False for
 * want of memory. */
bool plain_list_new(struct plain_list *list, const struct csq_size *size,
                    const uint32_t *file_limits);

void plain_list_free(struct plain_list *list);

/* Why an insert is refused, or CSQ_OK. */
uint32_t plain_list_refusal(const struct plain_list *list, uint32_t irp, uint32_t file);

/* Why a put-back for this file object is refused, or CSQ_OK: the last of those causes. */
uint32_t plain_list_no_room(const struct plain_list *list, uint32_t file);

/* Lists an IRP whose insert isn't refused. */
void plain_list_insert(struct plain_list *list, uint32_t irp, uint32_t file, bool front);

/* The first listed IRP of a file object or of any, after a listed one or (NOBODY) from the first
 * on. */
uint32_t plain_list_next(const struct plain_list *list, uint32_t after, uint32_t file);

/* Takes out a listed IRP. */
void plain_list_remove(struct plain_list *list, uint32_t irp);

bool plain_list_has(const struct plain_list *list, uint32_t irp);

#endif
