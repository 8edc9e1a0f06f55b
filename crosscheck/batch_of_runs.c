/* Runs a program many times in copies of one process, for library.py, which loads this by
   LD_PRELOAD: what the system does to begin a process takes longer than most runs.

   Standard input has a run after another: how many words, in a line, and the words, each with a
   zero byte behind it. Each run writes to new files `output` and `errors`, and behind it a line of
   standard output has its status, or the number of the signal that ended it, below 0. */
#define _GNU_SOURCE
#include <dlfcn.h>
#include <fcntl.h>
#include <stdio.h>
#include <stdlib.h>
#include <sys/wait.h>
#include <unistd.h>

enum { MOST_WORDS = 256 };

typedef int main_of(int count, char **words, char **environment);
typedef int start(main_of *main, int count, char **words, void (*begin)(void), void (*end)(void),
                  void (*end_of_loader)(void), void *stack);

/* The words behind that by which the program was called; how many, or -1 where there is no run. */
static int read_words(char **words)
{
    size_t room;
    int count;

    if (scanf("%d", &count) != 1 || count < 0 || count >= MOST_WORDS - 1)
        return -1;
    getchar();
    for (int at = 1; at <= count; at++) {
        words[at] = NULL;
        room = 0;
        if (getdelim(&words[at], &room, '\0', stdin) < 0)
            return -1;
    }
    words[count + 1] = NULL;
    return count;
}

static void open_as(int number, const char *path, int flags)
{
    int file = open(path, flags, 0600);

    if (file < 0 || dup2(file, number) < 0 || close(file) != 0)
        _exit(126);
}

static void open_files(void)
{
    open_as(0, "/dev/null", O_RDONLY);
    open_as(1, "output", O_WRONLY | O_CREAT | O_TRUNC);
    open_as(2, "errors", O_WRONLY | O_CREAT | O_TRUNC);
}

/* Comes back in a copy of this process for each run, with how many words it has. */
static int next_copy(char **words)
{
    int count, status;

    while ((count = read_words(words)) >= 0) {
        pid_t copy = fork();
        if (copy == 0) {
            open_files();
            return count + 1;
        }
        if (copy < 0 || waitpid(copy, &status, 0) != copy)
            exit(2);
        printf("%d\n", WIFEXITED(status) ? WEXITSTATUS(status) : -WTERMSIG(status));
        fflush(stdout);
        for (int at = 1; at <= count; at++)
            free(words[at]);
    }
    exit(0);
}

/* What the program is begun by, before any of it has run. */
int __libc_start_main(main_of *main, int count, char **words, void (*begin)(void),
                      void (*end)(void), void (*end_of_loader)(void), void *stack)
{
    static char *words_of_run[MOST_WORDS];
    start *next = (start *)dlsym(RTLD_NEXT, "__libc_start_main");

    words_of_run[0] = words[0];
    count = next_copy(words_of_run);
    return next(main, count, words_of_run, begin, end, end_of_loader, stack);
}
