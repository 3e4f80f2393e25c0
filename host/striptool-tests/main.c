/*
 * The tests of host/striptool, which is called in this process, against the exported calls and readers of their own: see host/tool-test. A
 * line for each group; exit status 1 if anything differs. With the name of a folder, writes pictures into it for an XML parser.
 */
#include "tests.h"

#include <stdio.h>

int main(int count, char **arguments)
{
    if (count > 1)
        return write_pictures(arguments[1]);
    try_round_trips();
    try_text_forms();
    try_writer_refusals();
    try_why();
    try_long_why();
    try_sketches();
    try_pictures();
    try_rows();
    try_scales();
    try_checks();
    try_damaged();
    return differences_of_all() == 0 ? 0 : 1;
}
