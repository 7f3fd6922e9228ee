/* The folder that an edition is copied to: a stick, held by one copy at a time. */
#include "target.h"

#include <errno.h>
#include <fcntl.h>
#include <sys/file.h>
#include <sys/stat.h>
#include <unistd.h>

#include "longpath.h"
#include "volume.h"

/* What is written to one of the two would be in the other, if one lay inside the other. */
static bool are_apart(const char *folder, const char *edition, struct trouble *trouble) {
    if (long_same_folder(folder, edition)) {
        trouble_of_words(trouble, "it is the edition itself", "give the folder of the stick");
    } else if (long_lies_in(folder, edition)) {
        trouble_of_words(trouble, "it lies inside the edition", "give the folder of the stick");
    } else if (long_lies_in(edition, folder)) {
        trouble_of_words(trouble, "the edition lies inside it", "put the edition elsewhere");
    } else {
        return true;
    }
    return false;
}

static bool is_stick(const char *folder, const char *edition, struct trouble *trouble) {
    static const char *const words[] = {
        [VOLUME_UNKNOWN] = "it cannot be looked at",
        [VOLUME_OF_COMPUTER] = "it is on this computer's own disk, not on a stick",
        [VOLUME_OF_EDITION] = "it is on the disk of the edition, not on a stick of its own",
        [VOLUME_NO_DISK] = "no disk can be seen behind it, so it is not on a stick"};
    enum volume volume = volume_of(folder, edition);
    if (volume != VOLUME_STICK) {
        trouble_of_words(trouble, words[volume],
                         "see that the stick is in (--any-folder copies to any folder)");
    }
    return volume == VOLUME_STICK;
}

/* Takes the lock; the system gives it back however the program ends. Some file systems have none.
 */
static bool is_free(const struct target *target, struct trouble *trouble) {
    if (flock(target->file, LOCK_EX | LOCK_NB) != 0 && errno == EWOULDBLOCK) {
        trouble_of_words(trouble, "another copy to it is under way",
                         "wait until that has ended, then copy again");
        return false;
    }
    return true;
}

/* Opens the folder. Answers false and says why. */
static bool take_hold(struct target *target, struct trouble *trouble) {
    struct stat status;
    target->file = long_open(target->folder, O_RDONLY | O_CLOEXEC | O_NONBLOCK);
    if (target->file < 0 || fstat(target->file, &status) != 0) {
        trouble_of_system(trouble, errno);
        return false;
    }
    if (!S_ISDIR(status.st_mode)) {
        trouble_of_words(trouble, "it is not a folder", "give the folder of the stick");
        return false;
    }
    target->device = status.st_dev;
    target->number = status.st_ino;
    return true;
}

bool target_open(struct target *target, const char *folder, const char *edition, bool any_folder,
                 struct trouble *trouble) {
    *target = (struct target){.folder = folder};
    if (take_hold(target, trouble) && are_apart(folder, edition, trouble) &&
        (any_folder || is_stick(folder, edition, trouble)) && is_free(target, trouble)) {
        return true;
    }
    target_close(target);
    return false;
}

bool target_stands(const struct target *target, struct trouble *trouble) {
    struct stat status;
    if (long_stat(target->folder, 0, &status) != 0) {
        trouble_of_stick(trouble);
        return false;
    }
    if (status.st_dev != target->device || status.st_ino != target->number) {
        trouble_of_words(trouble, "the stick was unmounted or taken out meanwhile",
                         "put it in again, then copy again");
        trouble->gone = true;
        return false;
    }
    return true;
}

void target_close(struct target *target) {
    if (target->file >= 0) {
        close(target->file);
    }
}
