/* What a program that binds by name finds in a shared library: by_name LIBRARY BUILD NAME.. ends
 * with 0 if each name is a symbol of it, csq_build returns that text, and the calls that csq.h
 * writes do their work. */
#include "csq.h"

#include <dlfcn.h>
#include <stdio.h>
#include <stdlib.h>
#include <string.h>

static void *library;

/* A symbol's address, which a pointer to a function takes as its bytes. */
static void find(const char *name, void *function, size_t bytes) {
    void *address = dlsym(library, name);
    if (!address) {
        printf("%s is no symbol\n", name);
        exit(1);
    }
    memcpy(function, &address, bytes);
}

static int does_its_work(void) {
    struct csq_queue queue = CSQ_EMPTY;
    const struct csq_size size = { 1, 1, 1, 1, 0, CSQ_VECTOR };
    uint32_t (*make)(struct csq_queue *, const struct csq_size *), (*end)(struct csq_queue *);
    const char *(*name)(uint32_t);
    find("csq_new", &make, sizeof make);
    find("csq_free", &end, sizeof end);
    find("csq_name", &name, sizeof name);
    return make(&queue, &size) == CSQ_OK && queue.number != 0 && end(&queue) == CSQ_OK &&
           queue.number == 0 && strcmp(name(CSQ_FULL), "CSQ_FULL") == 0;
}

int main(int count, char **words) {
    const char *(*build)(void);
    void (*call)(void);
    if (count < 4 || !(library = dlopen(words[1], RTLD_NOW))) {
        printf("not opened: %s\n",
               count < 4 ? "name a library, its build and its calls" : dlerror());
        return 1;
    }
    for (int at = 3; at < count; at++) {
        find(words[at], &call, sizeof call);
    }
    find("csq_build", &build, sizeof build);
    printf("%s\n", build());
    return strcmp(build(), words[2]) != 0 || !does_its_work();
}
