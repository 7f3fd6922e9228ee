/*
 * The walk through the folders of a stick. The folders that are being walked are a list on the heap
 * and not a recursion, and none is kept open: a stick may be as deep as it likes. Links are met and
 * not followed, so the walk never leaves the stick and meets nothing twice.
 */
#include "walk.h"

#include <errno.h>
#include <stdlib.h>
#include <string.h>
#include <sys/stat.h>

#include "folder.h"
#include "longpath.h"

/* A folder that is being walked, and the one it was found in. */
struct level {
    struct level *up;
    struct folder folder;
    size_t next;      /* the name to be looked at next */
    size_t path_ends; /* how much of the path is this folder */
};

void walk_start(struct walk *walk, const char *root) {
    *walk = (struct walk){0};
    text_add(&walk->path, root);
    walk->root_ends = walk->path.length;
}

static void leave(struct walk *walk) {
    struct level *level = walk->top;
    walk->top = level->up;
    folder_free(&level->folder);
    free(level);
}

void walk_free(struct walk *walk) {
    while (walk->top != NULL) {
        leave(walk);
    }
    text_free(&walk->path);
}

/* Begins to walk the folder at the path. Answers 0 or the system's error. */
static int enter(struct walk *walk) {
    struct level *level = need_memory(NULL, sizeof *level);
    *level = (struct level){.up = walk->top, .path_ends = walk->path.length};
    walk->top = level;
    walk->enter = false;
    return folder_read(&level->folder, walk->path.bytes, level->up == NULL);
}

/* Moves the path on to the next name. Answers false when all has been walked. */
static bool move_on(struct walk *walk) {
    while (walk->top != NULL && walk->top->next == walk->top->folder.count) {
        leave(walk);
    }
    if (walk->top == NULL) {
        return false;
    }
    text_cut(&walk->path, walk->top->path_ends);
    if (walk->path.length == 0 || walk->path.bytes[walk->path.length - 1] != '/') {
        text_add(&walk->path, "/");
    }
    text_add(&walk->path, walk->top->folder.names[walk->top->next]);
    walk->top->next++;
    return true;
}

static enum entry_kind kind_of_mode(mode_t mode) {
    return S_ISREG(mode)   ? ENTRY_FILE
           : S_ISDIR(mode) ? ENTRY_FOLDER
           : S_ISLNK(mode) ? ENTRY_LINK
                           : ENTRY_OTHER;
}

static const char *below_of(const struct walk *walk) {
    const char *below = walk->path.bytes + walk->root_ends;
    return below + strspn(below, "/");
}

static void set_entry(struct walk *walk, struct entry *entry, enum entry_kind kind, int error) {
    *entry = (struct entry){
        .kind = kind, .path = walk->path.bytes, .below = below_of(walk), .error = error};
    walk->enter = kind == ENTRY_FOLDER;
}

/* Looks at what is at the path. */
static void look(struct walk *walk, struct entry *entry) {
    struct stat status, target;
    if (long_stat(walk->path.bytes, 1, &status) != 0) {
        set_entry(walk, entry, ENTRY_ERROR, errno);
        return;
    }
    if (!walk->begun) {
        if (S_ISLNK(status.st_mode) && long_stat(walk->path.bytes, 0, &target) == 0 &&
            S_ISDIR(target.st_mode)) {
            status = target;
        }
        walk->device = status.st_dev;
        walk->number = status.st_ino;
    }
    set_entry(walk, entry, kind_of_mode(status.st_mode), 0);
}

bool walk_next(struct walk *walk, struct entry *entry) {
    if (walk->enter) {
        int error = enter(walk);
        set_entry(walk, entry, error == 0 ? ENTRY_LISTED : ENTRY_ERROR, error);
        entry->known = true;
        entry->names = walk->top->folder.count;
        return true;
    }
    if (walk->begun && !move_on(walk)) {
        return false;
    }
    look(walk, entry);
    walk->begun = true;
    return true;
}

void walk_pass_over(struct walk *walk) {
    walk->enter = false;
}

bool walk_root_stands(const struct walk *walk, const char *root) {
    struct stat status;
    return long_stat(root, 0, &status) == 0 && status.st_dev == walk->device &&
           status.st_ino == walk->number;
}
