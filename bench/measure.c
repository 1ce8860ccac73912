// Runs commands by turns, so that a busy moment falls on all of them, and prints a line for each: the median of its
// wall times in microseconds, and its peak memory in KiB. What the commands print is thrown away.
#define _GNU_SOURCE
#include <fcntl.h>
#include <spawn.h>
#include <stdio.h>
#include <stdlib.h>
#include <string.h>
#include <sys/resource.h>
#include <sys/wait.h>
#include <time.h>
#include <unistd.h>

enum { MOST_COMMANDS = 8, MOST_RUNS = 1000 };

struct command {
    char **words;
    double times[MOST_RUNS];
    long peak;
};

extern char **environ;

static double microseconds(void)
{
    struct timespec now;
    clock_gettime(CLOCK_MONOTONIC, &now);
    return (double)now.tv_sec * 1e6 + (double)now.tv_nsec / 1e3;
}

static void run(struct command *command, int turn, const posix_spawn_file_actions_t *actions)
{
    pid_t child;
    int status;
    struct rusage usage;
    double start = microseconds();
    int error = posix_spawn(&child, command->words[0], actions, NULL, command->words, environ);
    if (error != 0 || wait4(child, &status, 0, &usage) != child || status != 0) {
        fprintf(stderr, "measure: %s failed\n", command->words[0]);
        exit(EXIT_FAILURE);
    }
    command->times[turn] = microseconds() - start;
    if (usage.ru_maxrss > command->peak) {
        command->peak = usage.ru_maxrss;
    }
}

static int by_length(const void *a, const void *b)
{
    double x = *(const double *)a;
    double y = *(const double *)b;
    return (x > y) - (x < y);
}

// Parts the words at each "--", and answers how many commands there are.
static int part(char **words, struct command *commands)
{
    int count = 0;
    for (char **word = words; *word && count < MOST_COMMANDS; count++) {
        commands[count].words = word;
        while (*word && strcmp(*word, "--") != 0) {
            word++;
        }
        if (*word) {
            *word++ = NULL;
        }
    }
    return count;
}

int main(int argc, char **argv)
{
    static struct command commands[MOST_COMMANDS];
    int runs = argc > 2 ? atoi(argv[1]) : 0;
    if (runs < 1 || runs > MOST_RUNS) {
        fprintf(stderr, "usage: measure RUNS COMMAND [-- COMMAND]..\n");
        return EXIT_FAILURE;
    }
    int count = part(argv + 2, commands);
    posix_spawn_file_actions_t actions;
    posix_spawn_file_actions_init(&actions);
    posix_spawn_file_actions_addopen(&actions, STDOUT_FILENO, "/dev/null", O_WRONLY, 0);
    for (int turn = 0; turn < runs; turn++) {
        for (int i = 0; i < count; i++) {
            run(&commands[i], turn, &actions);
        }
    }
    posix_spawn_file_actions_destroy(&actions);
    for (int i = 0; i < count; i++) {
        qsort(commands[i].times, (size_t)runs, sizeof(double), by_length);
        printf("%.0f %ld\n", commands[i].times[runs / 2], commands[i].peak);
    }
    return EXIT_SUCCESS;
}
