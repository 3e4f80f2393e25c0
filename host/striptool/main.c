/* The bench's program over the exported calls of the labeller: jobs as text, strips as pictures. Tested, not proved. */
#include "striptool.h"

int main(int count, char **arguments)
{
    struct streams io;
    io.in = stdin;
    io.out = stdout;
    io.err = stderr;
    io.name = "standard input";
    return striptool(count > 0 ? arguments + 1 : arguments, &io);
}
