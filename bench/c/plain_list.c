#include "plain_list.h"

#include <stdlib.h>
#include <string.h>

bool plain_list_is_size(const struct csq_size *size) {
    return 1 <= size->irps && size->irps <= CSQ_MOST_IRPS && 1 <= size->files &&
           size->files <= CSQ_MOST_FILES && 1 <= size->limit && size->limit <= size->irps &&
           size->first_life <= CSQ_LAST_LIFE && size->list <= CSQ_AUTO;
}

bool plain_list_are_limits(const struct csq_size *size, const uint32_t *file_limits, size_t count) {
    if (count != size->files) {
        return false;
    }
    for (size_t at = 0; at < count; at++) {
        if (file_limits[at] < 1 || file_limits[at] > size->irps) {
            return false;
        }
    }
    return true;
}

static uint32_t *numbers(uint32_t count, uint32_t value) {
    uint32_t *made = malloc(count * sizeof *made);
    for (uint32_t at = 0; made && at < count; at++) {
        made[at] = value;
    }
    return made;
}

static struct links *chains(uint32_t count) {
    struct links *made = malloc(count * sizeof *made);
    for (uint32_t at = 0; made && at < count; at++) {
        made[at] = (struct links){ NOBODY, NOBODY };
    }
    return made;
}

static bool new_kind(struct plain_list *list) {
    if (list->kind == CSQ_VECTOR) {
        list->entries = numbers(list->limit, NOBODY);
        list->positions = numbers(list->irps, NOBODY);
        return list->entries && list->positions;
    }
    list->all = (struct links){ NOBODY, NOBODY };
    list->file_ends = chains(list->files);
    list->links = chains(list->irps);
    list->file_links = chains(list->irps);
    return list->file_ends && list->links && list->file_links;
}

static uint32_t kind_of(const struct csq_size *size) {
    if (size->list != CSQ_AUTO) {
        return size->list;
    }
    return size->irps <= CSQ_AUTO_VECTOR_IRPS ? CSQ_VECTOR : CSQ_CHAINS;
}

bool plain_list_new(struct plain_list *list, const struct csq_size *size,
                    const uint32_t *file_limits) {
    memset(list, 0, sizeof *list);
    list->irps = size->irps;
    list->files = size->files;
    list->limit = size->limit;
    list->kind = kind_of(size);
    list->used = calloc(size->irps, sizeof *list->used);
    list->closed = calloc(size->files, sizeof *list->closed);
    list->file_lengths = numbers(size->files, 0);
    list->file_limits = numbers(size->files, size->irps);
    list->file_of = numbers(size->irps, NOBODY);
    bool made =
        list->used && list->closed && list->file_lengths && list->file_limits && list->file_of;
    if (!made || !new_kind(list)) {
        plain_list_free(list);
        return false;
    }
    if (file_limits) {
        memcpy(list->file_limits, file_limits, size->files * sizeof *file_limits);
    }
    return true;
}

void plain_list_free(struct plain_list *list) {
    free(list->used);
    free(list->closed);
    free(list->file_lengths);
    free(list->file_limits);
    free(list->file_of);
    free(list->entries);
    free(list->positions);
    free(list->file_ends);
    free(list->links);
    free(list->file_links);
    memset(list, 0, sizeof *list);
}

uint32_t plain_list_refusal(const struct plain_list *list, uint32_t irp, uint32_t file) {
    if (irp >= list->irps) {
        return CSQ_UNKNOWN_IRP;
    }
    if (file >= list->files) {
        return CSQ_UNKNOWN_FILE;
    }
    return list->used[irp] ? (uint32_t)CSQ_NOT_HOME : plain_list_no_room(list, file);
}

uint32_t plain_list_no_room(const struct plain_list *list, uint32_t file) {
    if (list->closed[file]) {
        return CSQ_FILE_CLOSED;
    }
    if (list->file_lengths[file] == list->file_limits[file]) {
        return CSQ_FILE_FULL;
    }
    return list->length == list->limit ? CSQ_FULL : CSQ_OK;
}

bool plain_list_has(const struct plain_list *list, uint32_t irp) {
    return irp < list->irps && list->file_of[irp] != NOBODY;
}

/* ---- The vector, a ring ---- */

/* The place of the entry with this index in the list, and the index of the entry in this place. */
static uint32_t place_of(const struct plain_list *list, uint32_t index) {
    uint32_t place = list->head + index;
    return place < list->limit ? place : place - list->limit;
}
static uint32_t index_of(const struct plain_list *list, uint32_t place) {
    return place >= list->head ? place - list->head : place + list->limit - list->head;
}

static void vector_put(struct plain_list *list, uint32_t index, uint32_t irp) {
    uint32_t place = place_of(list, index);
    list->entries[place] = irp;
    list->positions[irp] = place;
}

static uint32_t vector_at(const struct plain_list *list, uint32_t index) {
    return list->entries[place_of(list, index)];
}

static void vector_insert(struct plain_list *list, uint32_t irp, bool front) {
    if (front) {
        list->head = list->head > 0 ? list->head - 1 : list->limit - 1;
    }
    vector_put(list, front ? 0 : list->length, irp);
}

/* Moves those on the shorter side. */
static void vector_remove(struct plain_list *list, uint32_t irp) {
    uint32_t at = index_of(list, list->positions[irp]), last = list->length - 1;
    if (at > last / 2) {
        for (; at < last; at++) {
            vector_put(list, at, vector_at(list, at + 1));
        }
        return;
    }
    for (; at > 0; at--) {
        vector_put(list, at, vector_at(list, at - 1));
    }
    list->head = place_of(list, 1);
}

static uint32_t vector_next(const struct plain_list *list, uint32_t after, uint32_t file) {
    uint32_t at = after == NOBODY ? 0 : index_of(list, list->positions[after]) + 1;
    while (at < list->length) {
        uint32_t irp = vector_at(list, at++);
        if (file == CSQ_ANY || list->file_of[irp] == file) {
            return irp;
        }
    }
    return NOBODY;
}

/* ---- The chains ---- */

static void chain_put(struct links *ends, struct links *links, uint32_t irp, bool front) {
    uint32_t before = front ? NOBODY : ends->before, after = front ? ends->after : NOBODY;
    links[irp] = (struct links){ before, after };
    *(before == NOBODY ? &ends->after : &links[before].after) = irp;
    *(after == NOBODY ? &ends->before : &links[after].before) = irp;
}

static void chain_take(struct links *ends, struct links *links, uint32_t irp) {
    struct links here = links[irp];
    *(here.before == NOBODY ? &ends->after : &links[here.before].after) = here.after;
    *(here.after == NOBODY ? &ends->before : &links[here.after].before) = here.before;
}

static uint32_t chains_next(const struct plain_list *list, uint32_t after, uint32_t file) {
    if (file == CSQ_ANY) {
        return after == NOBODY ? list->all.after : list->links[after].after;
    }
    if (file >= list->files) {
        return NOBODY;
    }
    if (after == NOBODY) {
        return list->file_ends[file].after;
    }
    if (list->file_of[after] == file) {
        return list->file_links[after].after;
    }
    /* After an IRP of another file object the chain over all leads to the next one. */
    do {
        after = list->links[after].after;
    } while (after != NOBODY && list->file_of[after] != file);
    return after;
}

/* ---- Either ---- */

void plain_list_insert(struct plain_list *list, uint32_t irp, uint32_t file, bool front) {
    if (list->kind == CSQ_VECTOR) {
        vector_insert(list, irp, front);
    } else {
        chain_put(&list->all, list->links, irp, front);
        chain_put(&list->file_ends[file], list->file_links, irp, front);
    }
    list->used[irp] = true;
    list->file_of[irp] = file;
    list->file_lengths[file]++;
    list->length++;
}

uint32_t plain_list_next(const struct plain_list *list, uint32_t after, uint32_t file) {
    return list->kind == CSQ_VECTOR ? vector_next(list, after, file)
                                    : chains_next(list, after, file);
}

void plain_list_remove(struct plain_list *list, uint32_t irp) {
    uint32_t file = list->file_of[irp];
    if (list->kind == CSQ_VECTOR) {
        vector_remove(list, irp);
    } else {
        chain_take(&list->all, list->links, irp);
        chain_take(&list->file_ends[file], list->file_links, irp);
    }
    list->file_of[irp] = NOBODY;
    list->file_lengths[file]--;
    list->length--;
}
