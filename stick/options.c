/* What the command line asks for, and the help about it. */
#include "options.h"

#include <errno.h>
#include <getopt.h>
#include <stdio.h>
#include <stdlib.h>
#include <string.h>
#include <sys/stat.h>

#include "longpath.h"
#include "mistakes.h"
#include "refusals.h"
#include "tds_words.h"

enum {
    OPTION_JSON = 256,
    OPTION_AGAINST,
    OPTION_COPY,
    OPTION_BATCH,
    OPTION_FROM,
    OPTION_LOG,
    OPTION_NO_BELL,
    OPTION_WRITE_SLIP,
    OPTION_STRUCTURE,
    OPTION_NO_SLIP,
    OPTION_ANY_FOLDER,
    OPTION_RESCUE
};

static const struct option names[] = {
    {"help", no_argument, NULL, 'h'},
    {"version", no_argument, NULL, 'V'},
    {"quiet", no_argument, NULL, 'q'},
    {"verbose", no_argument, NULL, 'v'},
    {"list", no_argument, NULL, 'l'},
    {"explain", required_argument, NULL, 'e'},
    {"json", no_argument, NULL, OPTION_JSON},
    {"against", required_argument, NULL, OPTION_AGAINST},
    {"copy", required_argument, NULL, OPTION_COPY},
    {"batch", required_argument, NULL, OPTION_BATCH},
    {"from", required_argument, NULL, OPTION_FROM},
    {"no-bell", no_argument, NULL, OPTION_NO_BELL},
    {"log", required_argument, NULL, OPTION_LOG},
    {"write-slip", no_argument, NULL, OPTION_WRITE_SLIP},
    {"structure", no_argument, NULL, OPTION_STRUCTURE},
    {"no-slip", no_argument, NULL, OPTION_NO_SLIP},
    {"any-folder", no_argument, NULL, OPTION_ANY_FOLDER},
    {"rescue", required_argument, NULL, OPTION_RESCUE},
    {NULL, 0, NULL, 0},
};

void print_help(void) {
    printf("Usage: stick [OPTION]... FOLDER...\n"
           "       stick --copy EDITION [OPTION]... FOLDER...\n"
           "       stick --rescue DAMAGED MENDED\n"
           "Checks every figure (.3ds, .cob, .c4d) in each FOLDER and below it, and says in\n"
           "plain words which are damaged, where, and what to do. The last lines begin with\n"
           "PASS, STRUCTURE ONLY (there was nothing to compare with) or DO NOT SEAL.\n"
           "Several FOLDERs are worked on at once; one may also be a file.\n"
           "\n"
           "      --against MASTER  compare every file with the one in the folder MASTER too\n"
           "      --copy EDITION    first copy what is in EDITION and not in a FOLDER yet,\n"
           "                        then check and compare; nothing there is changed\n"
           "      --no-slip         copy an EDITION that has no slip, too\n"
           "      --any-folder      copy to a FOLDER that is on no stick, too\n"
           "      --write-slip      where all is well, write a slip that says what is there\n"
           "      --structure       no slip is needed: STRUCTURE ONLY is good too\n"
           "      --rescue DAMAGED  write what is left of a damaged figure (.3ds) to the new\n"
           "                        file MENDED, and say what was cut\n"
           "      --batch N         N sticks one after another at the same FOLDER\n"
           "      --from K          go on with stick K of a batch that was broken off\n"
           "      --no-bell         no bell at the verdict on each stick of a batch\n"
           "      --log FILE        where the batch is logged (stick-batch-DATE.log)\n"
           "  -v, --verbose         a line for each good file too\n"
           "  -l, --list            the meshes, vertices and faces of each good figure\n"
           "  -q, --quiet           only the problems: no progress, and no PASS\n"
           "      --json            one JSON object a line, for programs\n"
           "  -e, --explain N       explain refusal N (1 to %d, or its name) at length\n"
           "  -h, --help            this help\n"
           "  -V, --version         the version of this program\n"
           "\n"
           "Exit status: 0 all is well; 1 something is refused, differs, is missing or does\n"
           "not belong there; 2 something could not be checked (the rest was), there was no\n"
           "slip or no figure, the work was stopped, or the command was wrong.\n",
           TDS_LAST_REFUSAL);
}

/* A number in words of the command line; 0 if it is none. */
static unsigned long number_of(const char *words) {
    char *end;
    unsigned long number;
    errno = 0;
    number = strtoul(words, &end, 10);
    return errno != 0 || *end != '\0' || strspn(words, "0123456789") != strlen(words) ? 0 : number;
}

static void take_explain(struct options *options, const char *words) {
    unsigned long number = number_of(words);
    options->explain =
        number > 0 && number <= TDS_LAST_REFUSAL ? refusal_of((int)number) : refusal_named(words);
    options->task = TASK_EXPLAIN;
    if (options->explain == NULL) {
        mistake(options, "there is no refusal ", words, ": the manual page has them all");
        fprintf(stderr, "They are numbered 1 to %d.\n", TDS_LAST_REFUSAL);
    }
}

/* One that is given twice may be a mistake: the first would be passed over in silence. */
static bool is_first(struct options *options, bool given, const char *option) {
    if (given) {
        mistake(options, "", option, " is given twice: leave one away");
    }
    return !given;
}

static void take_batch(struct options *options, const char *words) {
    options->batch = number_of(words);
    if (options->batch == 0) {
        mistake(options, "how many sticks are ", words, "? For example: --batch 40");
    }
}

static void take_from(struct options *options, const char *words) {
    options->from = number_of(words);
    if (options->from == 0) {
        mistake(options, "which stick of the batch is ", words, "? For example: --from 17");
    }
}

/* A folder that must be there before anything begins. */
static void take_folder(struct options *options, const char **folder, const char *path) {
    struct stat status;
    *folder = path;
    if (long_stat(path, 0, &status) != 0 || !S_ISDIR(status.st_mode)) {
        mistake(options, "there is no folder ", path, ": see that it is there, and the name right");
    }
}

/* What getopt_long found wrong; it would print a name of any bytes as it is. */
static void take_wrong(struct options *options, int option, char **argv) {
    const char short_name[] = {'-', (char)optopt, '\0'};
    const char *word = optopt > 0 && optopt < 256 && option == '?' ? short_name : argv[optind - 1];
    if (option == ':') {
        mistake(options, "a word is missing behind ", word, "");
    } else {
        mistake(options, "there is no option ", word, "");
    }
    fprintf(stderr, "Try 'stick --help'.\n");
}

/* Takes one option into account. */
static void take(struct options *options, int option) {
    switch (option) {
    case 'q':
        options->style.quiet = true;
        break;
    case 'v':
        options->style.verbose = true;
        break;
    case 'l':
        options->style.list = true;
        break;
    case OPTION_JSON:
        options->style.json = true;
        break;
    case OPTION_WRITE_SLIP:
        options->write_slip = true;
        break;
    case OPTION_STRUCTURE:
        options->structure = true;
        break;
    case OPTION_NO_SLIP:
        options->no_slip = true;
        break;
    case OPTION_ANY_FOLDER:
        options->any_folder = true;
        break;
    case OPTION_NO_BELL:
        options->no_bell = true;
        break;
    case 'h':
        options->task = TASK_HELP;
        break;
    default: /* 'V' */
        options->task = TASK_VERSION;
        break;
    }
}

/* The options that have a word behind them. */
static void take_with_word(struct options *options, int option) {
    switch (option) {
    case 'e':
        take_explain(options, optarg);
        break;
    case OPTION_AGAINST:
        if (is_first(options, options->against != NULL, "--against")) {
            take_folder(options, &options->against, optarg);
        }
        break;
    case OPTION_COPY:
        if (is_first(options, options->edition != NULL, "--copy")) {
            take_folder(options, &options->edition, optarg);
        }
        break;
    case OPTION_BATCH:
        if (is_first(options, options->batch > 0, "--batch")) {
            take_batch(options, optarg);
        }
        break;
    case OPTION_FROM:
        if (is_first(options, options->from > 0, "--from")) {
            take_from(options, optarg);
        }
        break;
    case OPTION_LOG:
        is_first(options, options->log != NULL, "--log");
        options->log = optarg;
        break;
    case OPTION_RESCUE:
        is_first(options, options->rescue != NULL, "--rescue");
        options->rescue = optarg;
        break;
    default:
        take(options, option);
        break;
    }
}

struct options options_read(int argc, char **argv) {
    struct options options = {.task = TASK_WORK};
    while (options.task == TASK_WORK || options.task == TASK_EXPLAIN) {
        int option = getopt_long(argc, argv, ":hVqvle:", names, NULL);
        if (option == -1) {
            break;
        }
        if (option == '?' || option == ':') {
            take_wrong(&options, option, argv);
        } else {
            take_with_word(&options, option);
        }
    }
    options.arguments = argv + optind;
    options.count = (size_t)(argc - optind);
    options_judge(&options, argc - 1);
    return options;
}
