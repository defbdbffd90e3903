/* A register's file. A reader sees it as it was before a change or after it: what is changed is written to another file, which then takes its
 * name. Whoever changes it holds a lock on it meanwhile. */
#define _XOPEN_SOURCE 700

#include "store.h"

#include <errno.h>
#include <fcntl.h>
#include <signal.h>
#include <stdlib.h>
#include <string.h>
#include <sys/stat.h>
#include <time.h>
#include <unistd.h>

/* A path that became a link is not followed, and a file that is no regular one is not waited for. */
#define SAFELY (O_NOFOLLOW | O_NONBLOCK | O_NOCTTY)

int is_change(const struct arguments *a)
{
    return a->action == ADD || a->action == WITHDRAW;
}

/* ---- ways out */

/* What goes on every way out but that of a change that was made: the file that is written to, and the register if it was made for this
 * change. */
static const char *unfinished, *made;
static sigset_t let_through; /* the signals that were, before a change held them back */

static void remove_unfinished(void)
{
    if (unfinished != NULL)
        unlink(unfinished);
    if (made != NULL)
        unlink(made);
}

static void release_signals(void)
{
    sigprocmask(SIG_SETMASK, &let_through, NULL);
}

/* A signal waits until a change is whole, or given up. */
static void hold_signals(void)
{
    sigset_t all;
    sigfillset(&all);
    sigprocmask(SIG_BLOCK, &all, &let_through);
}

/* A file that may not grow and an answer that nobody reads are errors of writing, as a full disk is. */
static void begin_change(void)
{
    hold_signals();
    signal(SIGXFSZ, SIG_IGN);
    signal(SIGPIPE, SIG_IGN);
    atexit(remove_unfinished);
}

/* ---- opening and reading */

/* Where a link leads; of a missing file its own path. */
static char *real_path(const char *path)
{
    struct stat status;
    char *real = realpath(path, NULL);
    if (real != NULL)
        return real;
    if (errno != ENOENT)
        fail(path, strerror(errno));
    if (lstat(path, &status) == 0 && S_ISLNK(status.st_mode))
        fail(path, "a link to a file that is missing");
    real = allocate(strlen(path) + 1);
    strcpy(real, path);
    return real;
}

/* Asked of the path before it is opened, and of the open file. */
static void check_regular(const struct store *s, const struct stat *status)
{
    if (!S_ISREG(status->st_mode))
        fail(s->path, "no regular file");
}

/* Does the path still lead to this open file? Another process may have replaced it before the lock was ours. */
static int is_current(const struct store *s)
{
    struct stat open_one, named;
    if (fstat(s->descriptor, &open_one) != 0)
        fail(s->path, strerror(errno));
    return stat(s->path, &named) == 0 && open_one.st_ino == named.st_ino && open_one.st_dev == named.st_dev;
}

/* 0: another process has the lock, or a signal came. */
static int take_lock(const struct store *s, int command)
{
    struct flock whole = { .l_type = F_WRLCK, .l_whence = SEEK_SET };
    if (fcntl(s->descriptor, command, &whole) == 0)
        return 1;
    if (errno != EAGAIN && errno != EACCES && errno != EINTR)
        fail(s->path, strerror(errno));
    return 0;
}

/* Waits for the lock, and can be stopped meanwhile. After a second it says that it waits. */
static void wait_for_lock(const struct store *s)
{
    const struct timespec pause = { 0, 2000000 };
    int locked = 0;
    release_signals();
    for (int pauses = 0; pauses < 500 && !locked; pauses++) {
        nanosleep(&pause, NULL);
        locked = take_lock(s, F_SETLK);
    }
    if (!locked)
        fprintf(stderr, "govlezna: %s: waiting for another process that changes it\n", s->path);
    while (!locked)
        locked = take_lock(s, F_SETLKW);
    hold_signals();
}

/* Opens the file; a missing one is made if it is asked for. 0: another process made it meanwhile. */
static int open_or_make(struct store *s, int make)
{
    s->created = 0;
    s->descriptor = open(s->path, O_RDWR | SAFELY);
    if (s->descriptor < 0 && errno == ENOENT && make) {
        s->descriptor = open(s->path, O_RDWR | O_CREAT | O_EXCL, 0666);
        s->created = 1;
        if (s->descriptor < 0 && errno == EEXIST)
            return 0;
    }
    if (s->descriptor < 0 && (errno != ENOENT || make))
        fail(s->path, strerror(errno));
    return 1;
}

/* Opens the file for a change, once no other process changes it. A file that was made is removed again while it is surely ours alone. */
static void open_locked(struct store *s, int make)
{
    for (;;) {
        if (!open_or_make(s, make))
            continue;
        if (s->descriptor < 0)
            return;
        made = s->created ? s->path : NULL;
        if (!take_lock(s, F_SETLK)) {
            made = NULL;
            wait_for_lock(s);
        }
        if (is_current(s)) {
            made = s->created ? s->path : NULL;
            return;
        }
        made = NULL;
        close(s->descriptor);
    }
}

int open_store(const struct arguments *a, struct store *s)
{
    struct stat status;
    *s = (struct store){ .path = real_path(a->register_path), .descriptor = -1 };
    if (stat(s->path, &status) == 0)
        check_regular(s, &status);
    if (is_change(a)) {
        begin_change();
        open_locked(s, a->action == ADD);
    } else {
        s->descriptor = open(s->path, O_RDONLY | SAFELY);
        if (s->descriptor < 0 && errno != ENOENT)
            fail(s->path, strerror(errno));
    }
    return s->descriptor >= 0;
}

/* What the open file is; its length. */
static size_t look_at(const struct arguments *a, struct store *s)
{
    struct stat status;
    if (fstat(s->descriptor, &status) != 0)
        fail(s->path, strerror(errno));
    check_regular(s, &status);
    if (is_change(a) && status.st_nlink > 1)
        fail(s->path, "it has several hard links, which a change would part");
    s->mode = status.st_mode & 07777;
    s->owner = status.st_uid;
    s->group = status.st_gid;
    return (size_t)status.st_size;
}

void read_store(const struct arguments *a, struct store *s, size_t more)
{
    size_t size = look_at(a, s), done = 0;
    s->room = a->room > size ? a->room : size;
    s->length = s->room - size > more ? size + more : s->room;
    s->buffer = allocate(s->length);
    while (done < size) {
        ssize_t part = read(s->descriptor, s->buffer + done, size - done);
        if (part < 0 && errno != EINTR)
            fail(s->path, strerror(errno));
        if (part == 0)
            fail(s->path, "it became shorter while it was read");
        done += part > 0 ? (size_t)part : 0;
    }
    s->used = size;
}

/* ---- a change */

static void fail_at(const struct store *s, const char *what, int why)
{
    fprintf(stderr, "govlezna: %s: %s: %s\n", s->path, what, strerror(why));
    exit(2);
}

static void write_all(const struct store *s, int descriptor)
{
    for (size_t at = 0; at < s->used;) {
        ssize_t done = write(descriptor, s->buffer + at, s->used - at);
        if (done < 0 && errno != EINTR)
            fail_at(s, "writing it anew", errno);
        at += done > 0 ? (size_t)done : 0;
    }
}

/* The path of this name in the same folder. */
static char *name_beside(const char *path, const char *name)
{
    const char *slash = strrchr(path, '/');
    size_t folder = slash == NULL ? 0 : (size_t)(slash - path) + 1;
    char *beside = allocate(folder + strlen(name) + 1);
    memcpy(beside, path, folder);
    strcpy(beside + folder, name);
    return beside;
}

/* The owner and the group stay where that is allowed; the mode that is left. What another group was allowed, ours is not. */
static mode_t keep_owner(const struct store *s, int descriptor)
{
    if (fchown(descriptor, s->owner, s->group) == 0)
        return s->mode;
    if (fchown(descriptor, (uid_t)-1, s->group) == 0)
        return s->mode & 0777;
    return (s->mode & 0707) | (s->mode & 07) << 3;
}

/* A new name is on the disk once its folder is. There are folders that cannot be read, and disks that put none anywhere by themselves. */
static void sync_folder(const struct store *s)
{
    char *path = name_beside(s->path, ".");
    int why = 0, descriptor = open(path, O_RDONLY | O_DIRECTORY);
    if (descriptor < 0 ? errno != EACCES : fsync(descriptor) != 0 && errno != EINVAL)
        why = errno;
    if (descriptor >= 0)
        close(descriptor);
    free(path);
    if (why != 0)
        fail_at(s, "the change was made, but its folder may not be on the disk", why);
}

/* Writes the used bytes to another file, and gives it the register's name once they are on the disk. */
static void replace(const struct store *s)
{
    char *path = name_beside(s->path, ".govlezna-XXXXXX");
    int descriptor = mkstemp(path);
    if (descriptor < 0)
        fail_at(s, "no file can be made beside it", errno);
    unfinished = path;
    write_all(s, descriptor);
    if (fchmod(descriptor, keep_owner(s, descriptor)) != 0 || fsync(descriptor) != 0 || close(descriptor) != 0 ||
        rename(path, s->path) != 0)
        fail_at(s, "writing it anew", errno);
    unfinished = made = NULL;
    free(path);
    sync_folder(s);
}

void keep(const struct arguments *a, const struct store *s, int accepted)
{
    if (!is_change(a))
        return;
    if (accepted)
        replace(s);
    else
        remove_unfinished();
    made = NULL;
    release_signals();
}

void close_store(struct store *s)
{
    if (s->descriptor >= 0)
        close(s->descriptor);
    free(s->buffer);
    free(s->path);
}
