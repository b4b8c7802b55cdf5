/* csq.dll: each of these exports is there, and its properties say what csq_build returns. */
#include <windows.h>

#include <stdio.h>
#include <string.h>

static int failures;

static void check(int holds, const char *what, const char *name) {
    if (!holds) {
        printf("FAILED %s: %s\n", what, name);
        failures++;
    }
}

/* A function of the DLL, or NULL. */
static FARPROC call_of(HMODULE dll, const char *name) {
    FARPROC call = GetProcAddress(dll, name);
    check(call != NULL, "no export", name);
    return call;
}

/* What is below this path in the DLL's properties, or NULL. */
static const void *property(const char *dll, const char *path) {
    static char block[4096];
    void *found = NULL;
    UINT length = 0;
    if (!GetFileVersionInfoA(dll, 0, sizeof block, block) ||
        !VerQueryValueA(block, path, &found, &length)) {
        return NULL;
    }
    return found;
}

/* A text of them, or an empty one. */
static const char *text_of(const char *dll, const char *name) {
    char path[100];
    const char *text;
    snprintf(path, sizeof path, "\\StringFileInfo\\040904b0\\%s", name);
    text = property(dll, path);
    return text ? text : "";
}

/* The version in numbers, by which installers tell which file is newer. */
static const char *numbers_of(const char *dll) {
    static char numbers[40];
    const VS_FIXEDFILEINFO *fixed = property(dll, "\\");
    if (fixed && fixed->dwFileVersionMS == fixed->dwProductVersionMS &&
        fixed->dwFileVersionLS == fixed->dwProductVersionLS) {
        snprintf(numbers, sizeof numbers, "%u.%u.%u", HIWORD(fixed->dwFileVersionMS),
                 LOWORD(fixed->dwFileVersionMS), HIWORD(fixed->dwFileVersionLS));
    }
    return numbers;
}

/* csq_build's text is csq, the version, and what is known of a proof. */
static void properties_say(const char *dll, const char *build) {
    char version[40] = "";
    const char *text = text_of(dll, "Comments");
    check(strcmp(text, build) == 0, "not the build", text);
    check(sscanf(build, "csq %39s ", version) == 1, "no version", build);
    text = text_of(dll, "FileVersion");
    check(strcmp(text, version) == 0, "not the version", text);
    text = text_of(dll, "ProductVersion");
    check(strcmp(text, version) == 0, "not the product's version", text);
    check(strcmp(numbers_of(dll), version) == 0, "not the version's numbers", numbers_of(dll));
}

int main(int count, char **words) {
    HMODULE dll = LoadLibraryA(words[1]);
    const char *(*build)(void) = NULL;
    FARPROC found;
    check(dll != NULL, "not loaded", words[1]);
    if (!dll) {
        return 1;
    }
    for (int at = 2; at < count; at++) {
        call_of(dll, words[at]);
    }
    found = call_of(dll, "csq_build");
    memcpy(&build, &found, sizeof build);
    if (build) {
        properties_say(words[1], build());
        printf("%s\n", build());
    }
    return failures ? 1 : 0;
}
