/* Numbers of keys, as they come. What is kept of each lies at its number in a table: so a run
 * touches few pages of tables that have room for many. */
#ifndef IOCSQ_KEYS_H
#define IOCSQ_KEYS_H
#include <stdbool.h>
#include <stdint.h>

enum { IOCSQ_KEYS = 1 << 16, IOCSQ_LOOKS_FOR_KEY = 64 };
/* In the place of a number: it has none, or there are too many keys, which all share this one. */
enum { IOCSQ_NO_NUMBER = 0, IOCSQ_TOO_MANY = 1, IOCSQ_FIRST_NUMBER };

struct iocsq_keys {
    uint32_t count; /* that were given */
    uint16_t places[IOCSQ_KEYS]; /* by the key's hash, or next to it */
    struct {
        uint64_t key;
        uint32_t place;
    } of[IOCSQ_KEYS];
};

static inline void iocsq_forget_keys(struct iocsq_keys *k) {
    for (uint32_t at = IOCSQ_FIRST_NUMBER; at < IOCSQ_FIRST_NUMBER + k->count; at++) {
        k->places[k->of[at].place] = IOCSQ_NO_NUMBER;
    }
    k->count = 0;
}

static inline uint32_t iocsq_give_number(struct iocsq_keys *k, uint64_t key, uint32_t place) {
    uint32_t number = IOCSQ_FIRST_NUMBER + k->count;
    if (number == IOCSQ_KEYS) {
        return IOCSQ_TOO_MANY;
    }
    k->count++;
    k->places[place] = (uint16_t)number;
    k->of[number].key = key;
    k->of[number].place = place;
    return number;
}

/* The key's number. One that has none gets the next, if `gives`. */
static inline uint32_t iocsq_number_of_key(struct iocsq_keys *k, uint64_t key, uint64_t hash,
                                           bool gives) {
    for (uint32_t look = 0; look < IOCSQ_LOOKS_FOR_KEY; look++) {
        uint32_t place = (uint32_t)((hash + look) % IOCSQ_KEYS);
        uint32_t number = k->places[place];
        if (number == IOCSQ_NO_NUMBER) {
            return gives ? iocsq_give_number(k, key, place) : (uint32_t)IOCSQ_NO_NUMBER;
        }
        if (k->of[number].key == key) {
            return number;
        }
    }
    return IOCSQ_TOO_MANY;
}

#endif
