/* A register's file, for the command that works on it. Whatever goes wrong ends the program with status 2. */
#ifndef STORE_H
#define STORE_H

#include "cli.h"

#include <sys/types.h>

/* The file, and its bytes in a buffer that has room for one form more. */
struct store {
    char *path;
    int descriptor; /* locked where it is to be changed; -1: there is no file */
    int created;    /* by us, and nothing was in it */
    mode_t mode;
    uid_t owner;
    gid_t group;
    size_t room; /* how long the register may become */
    uint8_t *buffer;
    size_t length;
    uint64_t used;
};

int is_change(const struct arguments *arguments);
/* Opens the file, for a change locked; add makes one that is missing. 0: there is none. */
int open_store(const struct arguments *arguments, struct store *store);
/* Reads the file into a buffer for so many bytes more, but within the room asked for; that is never less than the file. */
void read_store(const struct arguments *arguments, struct store *store, size_t more);
/* Writes a change that was accepted; a refused one leaves no file where there was none. */
void keep(const struct arguments *arguments, const struct store *store, int accepted);
void close_store(struct store *store);

#endif
