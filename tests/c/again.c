/* Runs a program that reads a text or a file, as `plan` and `why` do, again and again in one process, since starting one
   costs much under an emulator. As a shared object that is loaded before it (`tools/x86 run --preload`), this takes over
   its `main`, its reads and its writes. Calls of the entry PLAN, whichever program it is, come in on standard input, and
   for each of them `main` runs once. The slices are the text and what is written for it, the plain numbers how many bytes
   one read hands over at most and one write takes; the answer is the status, how many bytes were written to standard
   output, and how many to standard error. The program's words are those of the process, the same for each call: it keeps
   them when it is loaded. */
#define _GNU_SOURCE
#include <dlfcn.h>
#include <unistd.h>

#include "batch.h"

typedef int main_function(int argc, char **argv, char **environment);
typedef int start_function(main_function *run, int argc, char **argv, void (*first)(void), void (*last)(void),
                           void (*unload)(void), void *stack_end);

static main_function *program;
static int word_count;
static char **words;

/* What is left of the text, and what was written so far. */
static const uint8_t *text;
static size_t text_left, most_read;
static uint8_t *out;
static size_t out_left, most_written;
static size_t written, said;

static size_t least(size_t one, size_t other)
{
    return one < other ? one : other;
}

/* The program's: the batches are read by stdio, which doesn't come here. */
ssize_t read(int stream, void *to, size_t bytes)
{
    if (stream != STDIN_FILENO)
        give_up("the program reads another stream");
    const size_t taken = least(text_left, least(bytes, most_read));
    memcpy(to, text, taken);
    text += taken;
    text_left -= taken;
    return (ssize_t)taken;
}

ssize_t write(int stream, const void *from, size_t bytes)
{
    const size_t taken = least(bytes, most_written);
    if (stream == STDERR_FILENO) {
        said += taken;
        return (ssize_t)taken;
    }
    const size_t put = least(taken, out_left);
    memcpy(out, from, put);
    out += put;
    out_left -= put;
    written += taken;
    return (ssize_t)taken;
}

static merkazobi_answer answer(size_t entry, const size_t *given, const slice *of)
{
    if (entry != PLAN)
        give_up("no run of a program");
    text = of[0].at, text_left = of[0].lent, most_read = given[0];
    out = of[1].at, out_left = of[1].lent, most_written = given[1];
    written = said = 0;
    const int status = program(word_count, words, environ);
    return (merkazobi_answer){(size_t)status, written, said, 0, 0, 0};
}

static int run_again(int argc, char **argv, char **environment)
{
    (void)environment;
    word_count = argc, words = argv;
    return answer_batches();
}

/* The C library starts every program here, and is told its `main`. */
int __libc_start_main(main_function *run, int argc, char **argv, void (*first)(void), void (*last)(void),
                      void (*unload)(void), void *stack_end)
{
    start_function *start = (start_function *)dlsym(RTLD_NEXT, "__libc_start_main");
    program = run;
    return start(run_again, argc, argv, first, last, unload, stack_end);
}
