/* The arguments of the proved program, and its environment. */
#include "words.h"

static int word_count;
static char **all_words;

int ppdb_program(int count, char **words)
{
    word_count = count;
    all_words = words;
    return ppdb_main();
}

long long rattle_arg_count(void) { return word_count; }

/* Puts an argument, without its zero byte, into `room` bytes. Returns its length; -1 if there is none, -2 if it is longer. */
long long rattle_arg(size64 at, unsigned char *to, size64 room)
{
    if (at >= (size64)word_count)
        return -1;
    const char *word = all_words[at];
    size64 length = 0;
    for (; word[length]; length++) {
        if (length == room)
            return -2;
        to[length] = (unsigned char)word[length];
    }
    return (long long)length;
}

/* ppdb reads no variable of the environment, so it gets an empty one. */
long long rattle_env(const char *name, unsigned char *to, size64 room) { (void)name, (void)to, (void)room; return -1; }
long long rattle_env_at(size64 at, unsigned char *to, size64 room) { (void)at, (void)to, (void)room; return -1; }
