/* takecut: cuts and rearranges MIDI recordings beat by beat. */
#define _POSIX_C_SOURCE 200809L
#include "commands.h"
#include "files.h"
#include "memory.h"
#include "progress.h"

#include <errno.h>
#include <stdlib.h>
#include <string.h>
#include <sys/types.h>
#include <unistd.h>

#define VERSION "0.1"

/* The answer to --help. */
static void print_help(void)
{
    fputs("usage: takecut [options] [script]\n"
          "       takecut [options] -e 'command' [-e 'command']...\n"
          "Cuts and rearranges MIDI recordings beat by beat. Without a script or -e the commands\n"
          "are read from standard input, one a line. Beats are counted from 0.\n\n"
          "  -e COMMAND     a command; several are carried out in order\n"
          "  --ticks N      ticks to the beat (else those of the first file)\n"
          "  --shortest N   shortest piece of a cut note that is kept, in ticks (else an eighth of the beat)\n"
          "  --columns N    width of rolls (else COLUMNS, else 80)\n"
          "  --ascii        rolls without drawing characters\n"
          "  --progress     say how far the work is, though standard error is no terminal\n"
          "  --help         this text\n"
          "  --version      the version\n\nCommands:\n", stdout);
    commands_help(stdout);
    fputs("\nWords are parted by blanks, '...' and \"...\" keep them, # begins a remark.\n"
          "Exit status: 0 done, 1 a command was refused, 2 wrong usage, 3 a file could not be read\n"
          "or written, or memory ran out.\n\n"
          "  takecut -e 'load a in.mid' -e 'cut a 4 8 b' -e 'write b out.mid'\n", stdout);
}

/* Carries out one line of a script or one command of the command line. */
static enum Status run_line(struct Host *host, const char *kind, size_t number, const char *line)
{
    char place[40];
    snprintf(place, sizeof place, "%s %zu", kind, number);
    host->place = place;
    host->line = line;
    enum Status status = command_run(host, line);
    host->place = NULL;
    return status;
}

/* The commands of -e, to the first refusal. */
static enum Status run_commands(struct Host *host)
{
    const struct Options *options = host->options;
    enum Status status = STATUS_DONE;
    size_t done = 0;
    while (done < options->command_count && status == STATUS_DONE && !host->quit) {
        status = run_line(host, "command", done + 1, options->commands[done]);
        done += status == STATUS_DONE;
        progress_commands(done, options->command_count);
    }
    progress_end(done, options->command_count);
    return status;
}

/* How many lines a script has. */
static size_t lines_in(const char *text, size_t length)
{
    size_t lines = length > 0 && text[length - 1] != '\n';
    for (size_t i = 0; i < length; i++) {
        lines += text[i] == '\n';
    }
    return lines;
}

/* Where a line ends: at its line feed or at the text's end. */
static char *line_end(char *line, char *end)
{
    char *feed = memchr(line, '\n', (size_t)(end - line));
    return feed == NULL ? end : feed;
}

/* Carries out one line that has its length; a zero byte in it is an error. */
static enum Status run_bytes(struct Host *host, size_t number, const char *line, size_t length)
{
    if (memchr(line, '\0', length) != NULL) {
        fprintf(stderr, "takecut: line %zu: a zero byte stands in it\n", number);
        return STATUS_USAGE;
    }
    return run_line(host, "line", number, line);
}

/* A script read whole, with a byte of room behind it. */
static enum Status run_text(struct Host *host, char *text, size_t length)
{
    enum Status status = STATUS_DONE;
    size_t total = lines_in(text, length);
    size_t done = 0;
    char *end = text + length;
    for (char *line = text; line < end && status == STATUS_DONE && !host->quit;) {
        char *feed = line_end(line, end);
        *feed = '\0';
        status = run_bytes(host, done + 1, line, (size_t)(feed - line));
        done += status == STATUS_DONE;
        progress_commands(done, total);
        line = feed + 1;
    }
    progress_end(done, total);
    return status;
}

/* A script is read whole, so that progress knows how many lines it has. */
static enum Status run_script(struct Host *host, const char *path)
{
    uint8_t *bytes;
    size_t length;
    if (!files_read(path, progress_reading, &bytes, &length)) {
        return complain(host, STATUS_TROUBLE, "%s: the script cannot be read: %s", path,
                        strerror(errno));
    }
    char *text = memory_grow(bytes, length + 1, 1);
    enum Status status = run_text(host, text, length);
    free(text);
    return status;
}

/* The next line of standard input without its line feed; below 0 where there is none. */
static ssize_t next_line(bool asks, char **line, size_t *room)
{
    if (asks) {
        fputs("takecut> ", stdout);
        fflush(stdout);
    }
    errno = 0;
    ssize_t length = getline(line, room, stdin);
    if (length > 0 && (*line)[length - 1] == '\n') {
        (*line)[--length] = '\0';
    }
    return length;
}

/* Standard input, line by line: from a terminal a refusal does not end it. */
static enum Status run_input(struct Host *host)
{
    bool asks = isatty(STDIN_FILENO);
    char *line = NULL;
    size_t room = 0, done = 0;
    enum Status status = STATUS_DONE;
    while (status == STATUS_DONE && !host->quit) {
        ssize_t length = next_line(asks, &line, &room);
        if (length < 0) {
            break;
        }
        status = run_bytes(host, ++done, line, (size_t)length);
        if (asks) {
            status = STATUS_DONE;
        } else {
            progress_commands(done, 0);
        }
    }
    if (ferror(stdin) || (!feof(stdin) && errno == ENOMEM)) {
        status = complain(host, STATUS_TROUBLE, "standard input: %s", strerror(errno));
    }
    free(line);
    return status;
}

/* Carries out all commands with a host of its own. */
static enum Status run(const struct Options *options)
{
    struct Host host = {.options = options};
    enum Status status;
    progress_start(options->progress);
    if (options->command_count > 0) {
        status = run_commands(&host);
    } else if (options->script != NULL && strcmp(options->script, "-") != 0) {
        status = run_script(&host, options->script);
    } else {
        status = run_input(&host);
    }
    progress_clear();
    takes_end(&host);
    return status;
}

/* A full standard output is an error too, whatever the commands answered. */
int main(int count, char **words)
{
    struct Options options;
    enum Status status = STATUS_DONE;
    if (!options_read(count, words, &options)) {
        options_free(&options);
        return STATUS_USAGE;
    }
    if (options.help) {
        print_help();
    } else if (options.version) {
        puts("takecut " VERSION);
    } else {
        status = run(&options);
    }
    options_free(&options);
    if (fflush(stdout) != 0 || ferror(stdout)) {
        fprintf(stderr, "takecut: standard output cannot be written: %s\n", strerror(errno));
        return STATUS_TROUBLE;
    }
    return status;
}
