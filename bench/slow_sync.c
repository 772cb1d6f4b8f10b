/* Makes each sync of a file take SLOW_SYNC_US microseconds longer, as on a slower disk: preloaded beside a program. */
#define _GNU_SOURCE
#include <dlfcn.h>
#include <stdlib.h>
#include <unistd.h>

static int slow(const char *name, int file) {
    int (*call)(int) = (int (*)(int))dlsym(RTLD_NEXT, name);
    const char *microseconds = getenv("SLOW_SYNC_US");
    usleep(microseconds ? atoi(microseconds) : 0);
    return call(file);
}

int fdatasync(int file) { return slow("fdatasync", file); }

int fsync(int file) { return slow("fsync", file); }
