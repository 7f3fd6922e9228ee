/* The walk through the folders of a stick. */
#ifndef STICK_WALK_H
#define STICK_WALK_H

#include <stdbool.h>
#include <sys/types.h>

#include "text.h"

enum entry_kind {
    ENTRY_FILE,
    ENTRY_FOLDER, /* is walked next, unless walk_pass_over is called */
    ENTRY_LISTED, /* all names of the folder that was met last are known now */
    ENTRY_LINK,   /* is never followed */
    ENTRY_OTHER,  /* a pipe, a device or the like */
    ENTRY_ERROR   /* could not be looked at */
};

/* What the walk has met; good until it goes on. */
struct entry {
    enum entry_kind kind;
    const char *path;
    const char *below; /* the path below the folder that is walked; "" for that itself */
    int error;         /* for ENTRY_ERROR */
    bool known;        /* it is the folder that was met last, again */
    size_t names;      /* for ENTRY_LISTED: how many */
};

struct level;

struct walk {
    struct text path;
    struct level *top;
    size_t root_ends; /* where the path below begins */
    bool begun;
    bool enter; /* the folder at the path is still to be walked */
    dev_t device;
    ino_t number; /* the folder or file that the walk began at */
};

/* A walk of a folder, or of one file. A link given here is followed if it leads to a folder. */
void walk_start(struct walk *walk, const char *root);

/* Answers whether there is anything more. Names come in the order of their bytes. */
bool walk_next(struct walk *walk, struct entry *entry);

/* The folder that was met last is not walked. */
void walk_pass_over(struct walk *walk);

/* Whether the folder that the walk began at is still there, and the same. */
bool walk_root_stands(const struct walk *walk, const char *root);

void walk_free(struct walk *walk);

#endif
