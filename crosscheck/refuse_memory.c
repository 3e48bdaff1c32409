// Refuses memory to a program that is started with this library preloaded: the REFUSE-th call of malloc or realloc, and with
// REFUSE_ALL each one after it. With COUNT the number of such calls stands in the file that it names, from the first call on: a program
// with threads may end without what else would be called at its end.
#define _GNU_SOURCE
#include <dlfcn.h>
#include <errno.h>
#include <fcntl.h>
#include <stdio.h>
#include <stdlib.h>
#include <unistd.h>

static long calls, refused;
static int refuses_all, counted = -1;
static void *(*given)(size_t);
static void *(*grown)(void *, size_t);

static void begin(void) {
    const char *number = getenv("REFUSE"), *path = getenv("COUNT");
    given = dlsym(RTLD_NEXT, "malloc");
    grown = dlsym(RTLD_NEXT, "realloc");
    refused = number == NULL ? 0 : atol(number);
    refuses_all = getenv("REFUSE_ALL") != NULL;
    counted = path == NULL ? -1 : open(path, O_WRONLY | O_CREAT | O_TRUNC, 0600);
}

// Threads count their calls together. What is written has one length, so that a later number replaces an earlier one.
static int is_refused(void) {
    char text[24];
    if (given == NULL) {
        begin();
    }
    long call = __atomic_add_fetch(&calls, 1, __ATOMIC_SEQ_CST);
    if (counted >= 0 && pwrite(counted, text, snprintf(text, sizeof text, "%020ld\n", call), 0) < 0) {
        abort();
    }
    return call == refused || (refuses_all && refused > 0 && call > refused);
}

void *malloc(size_t size) {
    if (is_refused()) {
        errno = ENOMEM;
        return NULL;
    }
    return given(size);
}

void *realloc(void *place, size_t size) {
    if (is_refused()) {
        errno = ENOMEM;
        return NULL;
    }
    return grown(place, size);
}
