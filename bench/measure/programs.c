#include "programs.h"

#include <fcntl.h>
#include <stdio.h>
#include <stdlib.h>
#include <sys/resource.h>
#include <sys/wait.h>
#include <unistd.h>

enum { MOST_WORDS = 16, PATH = 4096, OUTPUT = 1 << 20 };

static void fail(const char *what)
{
    perror(what);
    exit(2);
}

static int opened(const char *path, int how)
{
    int file = open(path, how, 0644);
    if (file < 0)
        fail(path);
    return file;
}

/* In the child: the program in its words, with its standard input and output. */
static void become(const struct programs *p, const char *program, const char *in, const char *out)
{
    char *words[MOST_WORDS + 2];
    int many = 0;
    while (p->prefix[many] != NULL && many < MOST_WORDS) {
        words[many] = p->prefix[many];
        many++;
    }
    words[many] = (char *)program;
    words[many + 1] = NULL;
    dup2(opened(in, O_RDONLY), STDIN_FILENO);
    dup2(opened(out, O_WRONLY | O_CREAT | O_TRUNC), STDOUT_FILENO);
    execv(words[0], words);
    perror(words[0]);
    _exit(127);
}

static double seconds(struct timeval t)
{
    return (double)t.tv_sec + (double)t.tv_usec / 1e6;
}

/* CPU seconds of all children that have ended. */
static double children_now(void)
{
    struct rusage used;
    if (getrusage(RUSAGE_CHILDREN, &used) != 0)
        fail("bench: getrusage");
    return seconds(used.ru_utime) + seconds(used.ru_stime);
}

/* CPU seconds of one process. */
static double time_process(const struct programs *p, const char *program, const char *in, const char *out)
{
    double start = children_now();
    int status;
    fflush(stdout);
    pid_t child = fork();
    if (child < 0)
        fail("bench: fork");
    if (child == 0)
        become(p, program, in, out);
    if (waitpid(child, &status, 0) != child)
        fail("bench: waitpid");
    if (!WIFEXITED(status) || WEXITSTATUS(status) != 0) {
        fprintf(stderr, "bench: %s did not end well\n", program);
        exit(2);
    }
    return children_now() - start;
}

static void path_in(char *path, const struct programs *p, const char *name)
{
    snprintf(path, PATH, "%s/%s", p->folder, name);
}

static void write_bundle(const char *path, const struct bundle *b)
{
    uint32_t bytes = b->place[b->sheets];
    FILE *file = fopen(path, "wb");
    if (file == NULL || fwrite(b->bytes, 1, bytes, file) != bytes || fclose(file) != 0)
        fail(path);
}

static size_t read_output(const char *path, char *to)
{
    FILE *file = fopen(path, "rb");
    if (file == NULL)
        fail(path);
    size_t bytes = fread(to, 1, OUTPUT, file);
    fclose(file);
    return bytes;
}

static void compare_outputs(const char *first, const char *second)
{
    static char a[OUTPUT], b[OUTPUT];
    size_t bytes = read_output(first, a);
    int same = bytes > 0 && bytes == read_output(second, b);
    for (size_t i = 0; same && i < bytes; i++)
        same = a[i] == b[i];
    if (same)
        return;
    fprintf(stderr, "bench: results differ: the programs printed %s and %s\n", first, second);
    exit(1);
}

struct program_times time_programs(const struct programs *p, const struct bundle *bundle)
{
    char in[PATH], registers[PATH], baselines[PATH];
    double times[2][MOST_REPEATS];
    path_in(in, p, "bundle");
    path_in(registers, p, "register.out");
    path_in(baselines, p, "baseline.out");
    write_bundle(in, bundle);
    for (int i = 0; i < p->repeats; i++) {
        double empty = time_process(p, p->register_program, "/dev/null", "/dev/null");
        times[0][i] = time_process(p, p->register_program, in, registers) - empty;
        empty = time_process(p, p->baseline_program, "/dev/null", "/dev/null");
        times[1][i] = time_process(p, p->baseline_program, in, baselines) - empty;
        compare_outputs(registers, baselines);
    }
    return (struct program_times){median(times[0], p->repeats), median(times[1], p->repeats)};
}
