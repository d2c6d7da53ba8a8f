/* Runs the editor on a terminal: it asks for commands, and a refused one does not end it. */
#define _XOPEN_SOURCE 700
#include <fcntl.h>
#include <stdio.h>
#include <stdlib.h>
#include <string.h>
#include <sys/wait.h>
#include <time.h>
#include <unistd.h>

/* Says what is wrong, and answers the status. */
static int fail(const char *what)
{
    printf("failed: %s\n", what);
    return 1;
}

/* The editor, with the terminal for all that it reads and prints. */
static void become(const char *program, const char *terminal)
{
    int file;
    setsid();
    file = open(terminal, O_RDWR);
    if (file < 0 || dup2(file, 0) < 0 || dup2(file, 1) < 0 || dup2(file, 2) < 0) {
        _exit(90);
    }
    execl(program, program, "--ticks", "10", (char *)NULL);
    _exit(91);
}

/* All that the program prints, to its end. */
static void listen(int terminal, char *text, size_t room)
{
    size_t count = 0;
    ssize_t got;
    while (count + 1 < room && (got = read(terminal, text + count, room - 1 - count)) > 0) {
        count += (size_t)got;
    }
    text[count] = '\0';
}

/* Whether the program ended well and said what it should. */
static int verdict(pid_t child, const char *text)
{
    int status;
    if (waitpid(child, &status, 0) != child || !WIFEXITED(status) || WEXITSTATUS(status) != 0) {
        return fail("the program did not end with 0");
    }
    if (strstr(text, "takecut> ") == NULL) {
        return fail("there is no prompt");
    }
    if (strstr(text, "line 1: nonsense: there is no such command") == NULL) {
        return fail("the wrong command has no message");
    }
    if (strstr(text, " commands\r") != NULL) {
        return fail("progress stands between the prompts");
    }
    return strstr(text, "a: beats 2, notes 0") == NULL ? fail("the commands after it were not run") : 0;
}

int main(int count, char **words)
{
    static const char FIRST[] = "nonsense\nlay a 2\n", LAST[] = "takes\nquit\n";
    const struct timespec pause = {0, 600000000}; /* long enough for a line of progress */
    char text[8192];
    int terminal = posix_openpt(O_RDWR | O_NOCTTY);
    if (terminal < 0) {
        printf("the system has no terminal to lend: not tried\n");
        return 0;
    }
    if (count != 2 || grantpt(terminal) != 0 || unlockpt(terminal) != 0) {
        return fail("no terminal");
    }
    const char *name = ptsname(terminal);
    pid_t child = fork();
    if (child == 0) {
        become(words[1], name);
    }
    if (child < 0 || write(terminal, FIRST, sizeof FIRST - 1) < 0 || nanosleep(&pause, NULL) != 0 ||
        write(terminal, LAST, sizeof LAST - 1) < 0) {
        return fail("no program");
    }
    listen(terminal, text, sizeof text);
    return verdict(child, text);
}
