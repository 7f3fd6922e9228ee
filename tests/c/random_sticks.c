/*
 * Random small sticks, each checked by the bench tool and judged by the model of stick(1): the word
 * and the exit status must be the same.
 *
 *     random_sticks COUNT SEED FOLDER PROGRAM FAULTS
 *
 * FOLDER is an empty one for the sticks, PROGRAM the tool (RUN before it), FAULTS the library that
 * makes calls fail. Files are missing, more, exchanged, turned or links; there is a slip or none,
 * a master or none; a call fails at its nth time, or none does. Most sticks are nearly good.
 */
#include <errno.h>
#include <fcntl.h>
#include <ftw.h>
#include <stdio.h>
#include <stdlib.h>
#include <string.h>
#include <sys/stat.h>
#include <sys/wait.h>
#include <unistd.h>

#include "stick_model.h"
#include "tds.h"

static uint64_t state;
static const char *top;
static char told[300]; /* is there once a call failed */

static unsigned below(unsigned bound) { /* splitmix64 */
    uint64_t z = state += 0x9E3779B97F4A7C15;
    z = (z ^ z >> 30) * 0xBF58476D1CE4E5B9;
    z = (z ^ z >> 27) * 0x94D049BB133111EB;
    return (unsigned)((z ^ z >> 31) >> 33) % bound;
}

static bool chance(unsigned percent) {
    return below(100) < percent;
}

/* What files hold, three of each kind: figures of one length, which are accepted, and one that is
 * refused; texts of one length, and an empty one. */
#define TRIANGLE(coordinate)                                                                       \
    "MM\x56\0\0\0==\x50\0\0\0\0@\x4A\0\0\0A\0\0A\x42\0\0\0\x10"                                    \
    "A\x2C\0\0\0\x03\0" coordinate "\0\0\0\0\0\0\0\0\0\0\0\0\0\x80\x3F\0\0\0\0\0\0\0\0\0\0\0\0\0"  \
    "\0\x80\x3F\0\0\0\0\x20"                                                                       \
    "A\x10\0\0\0\x01\0\0\0\x01\0\x02\0\0\0"
#define CALIGARI(number)                                                                           \
    "Caligari V00.01BLH             \nEND \x01\0\0\0" number "\0\0\0\0\0\0\0\xFF\xFF\xFF\xFF"
#define CINEMA(letter) "FORM\0\0\0\x0DMC4DUMG4\0\0\0\1" letter
#define CONTENT(bytes)                                                                             \
    { (const uint8_t *)(bytes), sizeof(bytes) - 1 }
enum { STUDIO, COB, C4D, TEXT, KINDS };
static const struct content {
    const uint8_t *bytes;
    size_t length;
} contents[KINDS][3] = {
    {CONTENT(TRIANGLE("\0")), CONTENT(TRIANGLE("\1")), CONTENT("MM\x0C\0\0\0==\x07\0\0\0")},
    {CONTENT(CALIGARI("\0")), CONTENT(CALIGARI("\1")), CONTENT("Caligari V00.02")},
    {CONTENT(CINEMA("a")), CONTENT(CINEMA("b")), CONTENT("FORM\0\0\0\x05MC4D")},
    {CONTENT("hello"), CONTENT("hallo"), CONTENT("")},
};

/* Where files stand, and of what kind they are; and what may be there beside them. */
struct place {
    const char *path;
    int kind;
};
static const struct place expected[] = {
    {"adze.3ds", STUDIO}, {"BOW.3DS", STUDIO},   {"c.cob", COB},     {"d.c4d", C4D},
    {"e.txt", TEXT},      {"sub/f.3ds", STUDIO}, {"sub/g.txt", TEXT}};
static const struct place others[] = {
    {"new.3ds", STUDIO},     {"new.txt", TEXT},     {"sub/new", TEXT},
    {"adze.3ds.part", TEXT}, {"adze.3ds~", TEXT},   {"._adze.3ds", TEXT},
    {".DS_Store", TEXT},     {"Thumbs.db", TEXT},   {"stick.slip.part", TEXT},
    {"rtick.slip", TEXT},    {"stick.slip~", TEXT}, {"stick (1).slip", TEXT},
    {"sub/stick.slip", TEXT}};
#define SIZE(row) (sizeof(row) / sizeof *(row))

/* What is made for one stick lives until the next. */
static uint8_t arena[1 << 16];
static size_t used;
static void *keep(const void *bytes, size_t length) {
    uint8_t *kept = memcpy(arena + used, bytes, length);
    used += length;
    return kept;
}

static struct thing file_at(struct place place, unsigned which) {
    struct content content = contents[place.kind][which];
    return (struct thing){place.path, A_FILE, content.bytes, content.length};
}

static void add(struct tree *tree, struct thing thing) {
    if (tree->count < MOST_THINGS && thing_at(tree, thing.path) == NULL) {
        tree->things[tree->count++] = thing;
    }
}

/* Some files, all of them good; now and then one of an odd name, which is on the slip too. */
static struct tree edition(void) {
    struct tree tree = {.count = 0};
    for (size_t i = 0; i < SIZE(expected); i++) {
        if (chance(60)) {
            add(&tree, file_at(expected[i], below(expected[i].kind == TEXT ? 3 : 2)));
        }
    }
    if (chance(8)) {
        add(&tree, file_at(others[below(SIZE(others))], below(2)));
    }
    return tree;
}

/* The slip of some files; now and then a bit of it is turned. */
static struct thing slip_of(const struct tree *tree, bool turned) {
    uint8_t entries[MOST_THINGS * TDS_ENTRY_BYTES], slip[4000];
    char names[1000] = "";
    uint64_t length;
    for (size_t i = 0; i < tree->count; i++) {
        const struct thing *file = &tree->things[i];
        uint32_t numbers[4] = {(uint32_t)strlen(names), (uint32_t)strlen(file->path),
                               (uint32_t)file->length,
                               (uint32_t)tds_sums(file->bytes, file->length)};
        for (int byte = 0; byte < TDS_ENTRY_BYTES; byte++) {
            entries[i * TDS_ENTRY_BYTES + byte] = (uint8_t)(numbers[byte / 4] >> 8 * (byte % 4));
        }
        strcat(names, file->path);
    }
    length = tds_slip_write((const uint8_t *)names, strlen(names), entries,
                            tree->count * TDS_ENTRY_BYTES, slip, sizeof slip);
    if (turned) {
        slip[below((unsigned)length)] ^= (uint8_t)(1 << below(8));
    }
    return (struct thing){"stick.slip", A_FILE, keep(slip, length), length};
}

/* The same path with its letters in the other case. */
static const char *other_case(const char *path) {
    char *other = keep(path, strlen(path) + 1);
    for (char *letter = other; *letter != '\0'; letter++) {
        if ((*letter | 32) >= 'a' && (*letter | 32) <= 'z') {
            *letter ^= 32;
        }
    }
    return other;
}

/* Another content of its kind, good or not. */
static void change(struct thing *file) {
    for (size_t i = 0; i < SIZE(expected); i++) {
        if (strcasecmp(expected[i].path, file->path) == 0) {
            *file = file_at((struct place){file->path, expected[i].kind}, below(3));
        }
    }
}

static void exchange(struct thing *one, struct thing *other) {
    struct thing kept = *one;
    one->bytes = other->bytes;
    one->length = other->length;
    other->bytes = kept.bytes;
    other->length = kept.length;
}

/* No other has its name, in letters of either case. */
static bool is_only(const struct tree *tree, const struct thing *thing) {
    size_t others = 0;
    for (size_t i = 0; i < tree->count; i++) {
        others += &tree->things[i] != thing && strcasecmp(tree->things[i].path, thing->path) == 0;
    }
    return others == 0;
}

/* One thing is lost, changed, exchanged, more, of other letters, a link, a folder, a second slip.
 */
static void spoil(struct tree *tree) {
    struct thing *one = &tree->things[below((unsigned)tree->count)];
    struct thing *other = &tree->things[below((unsigned)tree->count)];
    bool files = one->kind == A_FILE && other->kind == A_FILE;
    switch (below(10)) {
    case 0:
        *one = tree->things[--tree->count];
        break;
    case 1:
    case 2:
        change(one);
        break;
    case 3:
        if (files) {
            exchange(one, other);
        }
        break;
    case 4:
    case 5:
        add(tree, file_at(others[below(SIZE(others))], below(2)));
        break;
    case 6:
        if (strchr(one->path, '/') == NULL && is_only(tree, one)) {
            one->path = other_case(one->path);
        }
        break;
    case 7:
        add(tree, (struct thing){chance(50) ? "link.3ds" : "link", A_LINK, NULL, 0});
        break;
    case 8:
        add(tree, (struct thing){chance(50) ? "folder.3ds" : "empty", A_FOLDER, NULL, 0});
        break;
    default:
        if (strcasecmp(one->path, "stick.slip") == 0 && is_only(tree, one)) {
            tree->things[tree->count] = *one;
            tree->things[tree->count++].path = other_case(one->path);
        }
    }
}

static void spoil_often(struct tree *tree, unsigned most) {
    for (unsigned times = below(most + 1); times > 0 && tree->count > 0; times--) {
        spoil(tree);
    }
}

/* ---- on the disk */

static void must(bool good, const char *what) {
    if (!good) {
        perror(what);
        exit(2);
    }
}

static void put_file(const char *path, const uint8_t *bytes, size_t length) {
    FILE *file = fopen(path, "wb");
    must(file != NULL && fwrite(bytes, 1, length, file) == length && fclose(file) == 0, path);
}

/* Files that never change are links to one of each, which the disk has already: it is quicker. */
static void put_thing(const char *path, const struct thing *thing) {
    for (int i = 0; i < 3 * KINDS && thing->kind == A_FILE; i++) {
        char pool[300];
        snprintf(pool, sizeof pool, "%s/pool/%d", top, i);
        if (thing->bytes == contents[i / 3][i % 3].bytes) {
            must(link(pool, path) == 0, path);
            return;
        }
    }
    if (thing->kind == A_FILE) {
        put_file(path, thing->bytes, thing->length);
    } else {
        must((thing->kind == A_FOLDER ? mkdir(path, 0777) : symlink("pool/0", path)) == 0, path);
    }
}

static int take_away(const char *path, const struct stat *status, int kind, struct FTW *at) {
    (void)status, (void)kind, (void)at;
    return remove(path);
}

static void put_tree(const char *name, const struct tree *tree) {
    char folder[300], path[600];
    snprintf(folder, sizeof folder, "%s/%s", top, name);
    nftw(folder, take_away, 8, FTW_DEPTH | FTW_PHYS);
    must(mkdir(folder, 0777) == 0, folder);
    for (size_t i = 0; i < tree->count; i++) {
        if (strncmp(tree->things[i].path, "sub/", 4) == 0) {
            snprintf(path, sizeof path, "%s/sub", folder);
            must(mkdir(path, 0777) == 0 || errno == EEXIST, path);
        }
        snprintf(path, sizeof path, "%s/%s", folder, tree->things[i].path);
        put_thing(path, &tree->things[i]);
    }
}

/* ---- one stick after another */

/* A stick, what it is checked against, and what fails meanwhile. */
struct scene {
    struct check check;
    struct tree master;
    enum { ALONE, AGAINST, COPIED, TWO } how; /* TWO: the master is a second stick */
    bool quiet;
    char fault[100]; /* empty for none */
};

/* A call that fails: on the stick, in the master, or at one file; and at which time. Memory that
 * cannot be dropped, for a reason that is not the stick's, is another thing than a stick that is
 * gone; and an edition may be read from memory. */
static void choose_fault(char *fault, size_t size) {
    static const char *const calls[] = {"read",    "readdir",   "open",  "stat",
                                        "fadvise", "fdatasync", "write", "create"};
    static const char *const where[] = {"/stk", "/mst", "adze.3ds", "stick.slip", "/sub"};
    const char *call = calls[below(SIZE(calls))];
    bool held = strcmp(call, "fadvise") == 0 && chance(50);
    snprintf(fault, size, "%s:%d:%s:%u", call,
             held         ? EINVAL
             : chance(50) ? EIO
                          : ENODEV,
             where[held ? 0 : below(SIZE(where))], below(12));
}

/* An edition that may be copied: it has a slip, and all is as that says. */
static bool is_well(const struct tree *edition) {
    struct check alone = {.stick = *edition};
    return thing_at(edition, "stick.slip") != NULL && verdict_of(&alone).status == 0;
}

/* An edition, and the stick that was once made of it. */
static void make_scene(struct scene *scene) {
    struct tree *stick = &scene->check.stick;
    used = 0;
    *scene = (struct scene){.quiet = chance(20), .how = ALONE};
    scene->check.structure = chance(25);
    *stick = edition();
    if (chance(75)) {
        add(stick, slip_of(stick, chance(8)));
    }
    scene->master = *stick;
    spoil_often(stick, 2);
    if (!scene->check.structure && chance(55)) {
        scene->how = AGAINST;
        spoil_often(&scene->master, chance(20));
    } else if (chance(15)) {
        scene->how = TWO;
        spoil_often(&scene->master, 1);
    }
    if (scene->how == AGAINST && is_well(&scene->master) && chance(50)) {
        scene->how = COPIED;
    }
    if (chance(35)) {
        choose_fault(scene->fault, sizeof scene->fault);
    }
    /* of two folders it is asked again what they are, for the words alone */
    if (scene->how == TWO && strncmp(scene->fault, "stat", 4) == 0) {
        scene->fault[0] = '\0';
    }
}

/* To this disk, names of other letters are others. */
static void copy(struct scene *scene) {
    struct tree *stick = &scene->check.stick;
    for (size_t i = 0; scene->how == COPIED && i < scene->master.count; i++) {
        const struct thing *there = thing_at(stick, scene->master.things[i].path);
        if (there == NULL || strcmp(there->path, scene->master.things[i].path) != 0) {
            stick->things[stick->count++] = scene->master.things[i];
        }
    }
}

/* Runs the tool; its exit status, and its last line but for those further in, which go on with it.
 */
static int run(const struct scene *scene, const char *program, const char *faults, char line[400]) {
    static const char *const how[] = {"", "--against", "--any-folder --copy", ""};
    const char *runner = getenv("RUN") == NULL ? "" : getenv("RUN");
    char command[3000], fault[1000] = "", path[300], next[400];
    int status;
    FILE *out;
    if (scene->fault[0] != '\0') {
        snprintf(fault, sizeof fault,
                 "ASAN_OPTIONS=verify_asan_link_order=0 FAULT_TOLD=%s FAULT=%s LD_PRELOAD=%s", told,
                 scene->fault, faults);
    }
    snprintf(command, sizeof command, "%s timeout 60 %s %s %s %s %s %s%s %s/stk >%s/out 2>%s/err",
             fault, runner, program, scene->check.structure ? "--structure" : "",
             scene->quiet ? "-q" : "", how[scene->how], scene->how == ALONE ? "" : top,
             scene->how == ALONE ? "" : "/mst", top, top, top);
    status = system(command);
    snprintf(path, sizeof path, "%s/out", top);
    out = fopen(path, "r");
    must(out != NULL, path);
    for (line[0] = '\0'; fgets(next, sizeof next, out) != NULL;) {
        if (next[0] != ' ') {
            strcpy(line, next);
        }
    }
    fclose(out);
    return WIFEXITED(status) ? WEXITSTATUS(status) : -1;
}

static void show(const char *name, const struct tree *tree) {
    for (size_t i = 0; i < tree->count; i++) {
        const struct thing *thing = &tree->things[i];
        printf("    %s/%s: kind %d, %lu bytes:", name, thing->path, (int)thing->kind,
               (unsigned long)thing->length);
        for (size_t byte = thing->length < 50 ? 0 : 30; byte < thing->length; byte++) {
            printf(" %02X", thing->bytes[byte]);
        }
        putchar('\n');
    }
}

/* What the model says of a scene, once the tool is done with it. */
static struct verdict expected_of(struct scene *scene) {
    struct verdict verdict;
    copy(scene);
    scene->check.fault = access(told, F_OK) == 0;
    scene->check.master = scene->how == ALONE ? NULL : &scene->master;
    verdict = verdict_of(&scene->check);
    if (scene->how == TWO) {
        struct check other = {.stick = scene->master, .structure = scene->check.structure};
        scene->check.master = NULL;
        verdict = worst_of(verdict_of(&scene->check), verdict_of(&other));
    }
    return verdict;
}

/* Whether the tool says it too. PASS is not said where it is to be quiet; and where the master does
 * not answer at once, the command ends without a verdict. */
static bool says(const struct scene *scene, struct verdict verdict, int status, const char *line) {
    bool silent = *line == '\0';
    bool may_be_silent = (scene->quiet && strcmp(verdict.word, "PASS") == 0) ||
                         (scene->check.fault && strstr(scene->fault, "/mst") != NULL);
    return status == verdict.status &&
           (silent ? may_be_silent : strncmp(line, verdict.word, strlen(verdict.word)) == 0);
}

static bool agrees(unsigned number, const char *program, const char *faults) {
    struct scene scene;
    struct verdict verdict;
    char line[400];
    int status;
    make_scene(&scene);
    put_tree("stk", &scene.check.stick);
    put_tree("mst", &scene.master);
    unlink(told);
    status = run(&scene, program, faults, line);
    verdict = expected_of(&scene);
    if (says(&scene, verdict, status, line)) {
        return true;
    }
    printf("FAILED: stick %u: %s, %d by stick(1); not %d: %s\n", number, verdict.word,
           verdict.status, status, line);
    printf("    how %d, structure %d, quiet %d, fault %s%s\n", (int)scene.how,
           scene.check.structure, scene.quiet, scene.fault, scene.check.fault ? ", met" : "");
    show("stick", &scene.check.stick);
    show(scene.how == TWO ? "other" : "master", &scene.master);
    return false;
}

static void fill_pool(void) {
    char path[300];
    snprintf(path, sizeof path, "%s/pool", top);
    must(mkdir(path, 0777) == 0, path);
    for (int i = 0; i < 3 * KINDS; i++) {
        snprintf(path, sizeof path, "%s/pool/%d", top, i);
        put_file(path, contents[i / 3][i % 3].bytes, contents[i / 3][i % 3].length);
    }
    sync();
}

int main(int argc, char **argv) {
    unsigned count, failed = 0, number;
    if (argc != 6) {
        fprintf(stderr, "usage: random_sticks COUNT SEED FOLDER PROGRAM FAULTS\n");
        return 2;
    }
    count = (unsigned)strtoul(argv[1], NULL, 10);
    top = argv[3];
    snprintf(told, sizeof told, "%s/told", top);
    fill_pool();
    for (number = 0; number < count && failed < 5; number++) {
        state = strtoull(argv[2], NULL, 10) * 1000003 + number * UINT64_C(0x632BE59BD9B4E019);
        failed += !agrees(number, argv[4], argv[5]);
    }
    printf("random_sticks: %u passed, %u failed\n", number - failed, failed);
    return failed != 0;
}
