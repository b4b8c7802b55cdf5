/* Where in the driver a report comes from: the driver's calls on the stack, by file and line, as
 * addr2line of binutils reads them from the program; and the callback that is to blame, if one is,
 * since that has returned. Nothing is printed where the program has no such lines (-g), or where
 * there is no addr2line. */
#include "internal.h"

#include <stdlib.h>

enum { FRAMES = 48, SHOWN = 6, TEXT = 512 };

/* Begins to read the places of this thread's stack. An address there is that of the instruction
 * after a call, but for the one at which a signal came. */
static FILE *begin_stack(bool in_signal) {
    void *here[FRAMES];
    uintptr_t addresses[FRAMES];
    size_t found = 0;
    void *const *frames = iocsq_own.frames ? iocsq_own.frames : here;
    int count = iocsq_own.frames ? iocsq_own.frame_count : iocsq_frames(here, FRAMES);
    for (int at = 1; at < count; at++) {
        bool is_exact = in_signal && !iocsq_is_in_program(frames[at - 1]);
        if (iocsq_is_in_program(frames[at])) {
            addresses[found++] = (uintptr_t)frames[at] - !is_exact;
        }
    }
    return iocsq_begin_addr2line(addresses, found);
}

/* Whether a file is of the checker, of its programs or of its headers: all that isn't the
 * driver. */
static bool is_own(const char *path) {
    static const char here[] = __FILE__;
    size_t folder = (size_t)(strrchr(here, '/') ? strrchr(here, '/') + 1 - here : 0);
    const char *name = strrchr(path, '/') ? strrchr(path, '/') + 1 : path;
    const char *headers = strstr(path, "/iocsq/");
    if (strncmp(path, here, folder) == 0) {
        const char *rest = path + folder;
        return rest == name || (strncmp(rest, "tests/", 6) == 0 && rest + 6 == name &&
                                strstr(name, ".cpp") == NULL);
    }
    return headers && headers + strlen("/iocsq/") == name && strstr(name, ".h:");
}

/* Whether the line is known: if not, it is a question mark or 0. */
static bool has_line(const char *place) {
    const char *colon = strrchr(place, ':');
    return colon && colon[1] >= '1' && colon[1] <= '9';
}

static void cut_line(char *text) {
    text[strcspn(text, "\n")] = '\0';
    char *more = strstr(text, " (discriminator");
    if (more) {
        *more = '\0';
    }
}

/* A place in the driver. */
struct place {
    char function[TEXT];
    char text[TEXT];
};

/* Reads the next: a function and a place, and before the first of each address a line of its
 * own. */
static bool read_place(FILE *from, struct place *place) {
    while (fgets(place->function, sizeof place->function, from)) {
        if (strncmp(place->function, "0x", 2) == 0 ||
            !fgets(place->text, sizeof place->text, from)) {
            continue;
        }
        cut_line(place->function);
        cut_line(place->text);
        if (has_line(place->text) && !is_own(place->text)) {
            return true;
        }
    }
    return false;
}

static void print_place(const char *how, const struct place *place) {
    const char *slash = strrchr(place->text, '/');
    fprintf(stderr, "  %s %s, in %s\n", how, slash ? slash + 1 : place->text, place->function);
}

static void print_stack(bool in_signal) {
    struct place place;
    uint32_t shown = 0;
    FILE *from = begin_stack(in_signal);
    while (from && shown < SHOWN && read_place(from, &place)) {
        print_place(shown++ ? "called by" : "at", &place);
    }
    iocsq_end_addr2line(from);
}

/* Prints the place of an address. Of several the first is of what is expanded there: the place of a
 * call; the last is that of the function. */
static void print_address(const char *how, uintptr_t address, bool is_call) {
    struct place place;
    bool found = false;
    FILE *from = iocsq_begin_addr2line(&address, 1);
    while (from && !(found && is_call) && read_place(from, &place)) {
        found = true;
    }
    if (found) {
        print_place(how, &place);
    }
    iocsq_end_addr2line(from);
}

void iocsq_show_function(const char *how, uintptr_t address) {
    print_address(how, address, false);
}

void iocsq_show_places(bool in_signal) {
    if (iocsq_own.set_at) {
        print_address("The cancel routine was set at", (uintptr_t)iocsq_own.set_at - 1, true);
    }
    print_stack(in_signal);
    if (iocsq_own.other_place) {
        print_address("the other at", iocsq_own.other_place - 1, true);
    }
    if (iocsq_own.blamed) {
        iocsq_show_function("the callback at", iocsq_own.blamed);
    }
}
