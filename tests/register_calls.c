/*
 * Preloaded into the program by tests/register.sh: what a change of a register asks of the system. The file that CALLS names gets a line for
 * each. FAILS names the one that fails, KILLED the one before which the process is killed, PAUSES the one that waits until there is a file `go`.
 */
#define _GNU_SOURCE

#include <dlfcn.h>
#include <errno.h>
#include <fcntl.h>
#include <signal.h>
#include <stdio.h>
#include <stdlib.h>
#include <string.h>
#include <sys/stat.h>
#include <unistd.h>

static int is_named(const char *variable, const char *call)
{
    const char *name = getenv(variable);
    return name != NULL && strcmp(name, call) == 0;
}

/* Has the call to fail? */
static int reach(const char *call)
{
    const char *path = getenv("CALLS");
    int log = path == NULL ? -1 : open(path, O_WRONLY | O_CREAT | O_APPEND, 0666);
    if (log >= 0) {
        dprintf(log, "%s\n", call);
        close(log);
    }
    if (is_named("KILLED", call))
        raise(SIGKILL);
    for (int pauses = 0; is_named("PAUSES", call) && pauses < 3000 && access("go", F_OK) != 0; pauses++)
        usleep(10000);
    if (!is_named("FAILS", call))
        return 0;
    errno = EIO;
    return 1;
}

static void *next(const char *call)
{
    return dlsym(RTLD_NEXT, call);
}

/* The answers of the program itself are no part of a change. */
ssize_t write(int descriptor, const void *bytes, size_t length)
{
    ssize_t (*other)(int, const void *, size_t) = (ssize_t(*)(int, const void *, size_t))next("write");
    return descriptor > STDERR_FILENO && reach("write") ? -1 : other(descriptor, bytes, length);
}

int fsync(int descriptor)
{
    int (*other)(int) = (int (*)(int))next("fsync");
    struct stat status;
    int folder = fstat(descriptor, &status) == 0 && S_ISDIR(status.st_mode);
    return reach(folder ? "fsync folder" : "fsync file") ? -1 : other(descriptor);
}

int fchown(int descriptor, uid_t owner, gid_t group)
{
    int (*other)(int, uid_t, gid_t) = (int (*)(int, uid_t, gid_t))next("fchown");
    return reach("fchown") ? -1 : other(descriptor, owner, group);
}

int fchmod(int descriptor, mode_t mode)
{
    int (*other)(int, mode_t) = (int (*)(int, mode_t))next("fchmod");
    return reach("fchmod") ? -1 : other(descriptor, mode);
}

int rename(const char *from, const char *to)
{
    int (*other)(const char *, const char *) = (int (*)(const char *, const char *))next("rename");
    return reach("rename") ? -1 : other(from, to);
}
