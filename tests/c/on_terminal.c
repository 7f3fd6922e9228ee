/*
 * Runs a command on a terminal of its own, and keeps what the terminal was sent.
 *
 *     on_terminal both|error FILE COMMAND...
 *
 * both: standard output and error are the terminal; error: only standard error is. What the
 * terminal was sent goes to FILE, byte for byte. It has $WIDTH columns and $HEIGHT lines, where
 * those are set. The exit status is the command's.
 */
#include <fcntl.h>
#include <stdio.h>
#include <stdlib.h>
#include <string.h>
#include <sys/ioctl.h>
#include <sys/wait.h>
#include <termios.h>
#include <unistd.h>

static _Noreturn void give_up(const char *what) {
    perror(what);
    exit(125);
}

static unsigned short number_in(const char *name) {
    const char *words = getenv(name);
    return (unsigned short)(words == NULL ? 0 : atoi(words));
}

/* Becomes the command, with the terminal in place. */
static void become(char **command, int terminal, int output_too) {
    struct winsize size = {.ws_col = number_in("WIDTH"), .ws_row = number_in("HEIGHT")};
    struct termios settings;
    ioctl(terminal, TIOCSWINSZ, &size);
    if (tcgetattr(terminal, &settings) != 0) {
        give_up("on_terminal: tcgetattr");
    }
    settings.c_oflag &= ~(tcflag_t)OPOST; /* a line end stays one byte */
    tcsetattr(terminal, TCSANOW, &settings);
    if (dup2(terminal, STDERR_FILENO) < 0 || (output_too && dup2(terminal, STDOUT_FILENO) < 0)) {
        give_up("on_terminal: dup2");
    }
    close(terminal);
    execvp(command[0], command);
    give_up(command[0]);
}

/* Reads all that comes, until the last writer has closed the terminal. */
static void keep(int master, const char *path) {
    char bytes[4096];
    ssize_t count;
    FILE *file = fopen(path, "wb");
    if (file == NULL) {
        give_up(path);
    }
    while ((count = read(master, bytes, sizeof bytes)) > 0) {
        fwrite(bytes, 1, (size_t)count, file);
    }
    if (fclose(file) != 0) {
        give_up(path);
    }
}

int main(int argc, char **argv) {
    int master = posix_openpt(O_RDWR | O_NOCTTY), terminal, status;
    pid_t child;
    if (argc < 4) {
        fprintf(stderr, "usage: on_terminal both|error FILE COMMAND...\n");
        return 125;
    }
    if (master < 0 || grantpt(master) != 0 || unlockpt(master) != 0) {
        give_up("on_terminal: no terminal");
    }
    terminal = open(ptsname(master), O_RDWR | O_NOCTTY);
    child = terminal < 0 ? -1 : fork();
    if (child < 0) {
        give_up("on_terminal");
    }
    if (child == 0) {
        close(master);
        become(argv + 3, terminal, strcmp(argv[1], "both") == 0);
    }
    close(terminal);
    keep(master, argv[2]);
    waitpid(child, &status, 0);
    return WIFEXITED(status) ? WEXITSTATUS(status) : 126;
}
