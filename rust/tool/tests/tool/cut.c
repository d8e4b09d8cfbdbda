/* Preloaded into the command by killed.rs: it ends the process at a call of rename or fsync, as a cut of power would. CUT_AT
 * names the call and which one of it, "rename 1". */
#define _GNU_SOURCE
#include <signal.h>
#include <stdio.h>
#include <stdlib.h>
#include <string.h>
#include <sys/syscall.h>
#include <unistd.h>

static void count(const char *name, int *calls) {
    const char *at = getenv("CUT_AT");
    char here[32];
    snprintf(here, sizeof here, "%s %d", name, ++*calls);
    if (at != NULL && strcmp(at, here) == 0) raise(SIGKILL);
}

int rename(const char *from, const char *to) {
    static int calls;
    count("rename", &calls);
    return (int)syscall(SYS_renameat2, -100, from, -100, to, 0);
}

int fsync(int file) {
    static int calls;
    count("fsync", &calls);
    return (int)syscall(SYS_fsync, file);
}
