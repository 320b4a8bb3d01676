/* ronchhek SUBCOMMAND ..: the library's calls on files. */
#include "tool.h"

#include <stdio.h>
#include <string.h>

static const struct command {
    const char *name, *arguments, *help;
    bool (*run)(struct args *args);
} commands[] = {
    {"verdict", "SHEET [--slots K] [--evidence FILE]",
     "    Whether some pattern of releases makes a job late. Prints `safe N`, `unsafe L N` and then the L masks of a shortest\n"
     "    list that misses, one a line, `room K` where the space does not suffice to tell, or `refused R`. K is 0 to 1000000\n"
     "    slots of 21 bytes, with a trace byte for each; without --slots 3120, in 65520 bytes, with 8192 of trace.\n"
     "    On `safe` --evidence writes the states found to FILE, 16 bytes each, for `evidence`: the whole file or none, and FILE must\n"
     "    be a regular file or not there yet. On any other answer FILE is left as it is, which a line on standard error says.\n",
     verdict},
    {"evidence", "SHEET FILE",
     "    Whether a file of states shows that no pattern of releases makes a job late, whoever made it. Prints `accepted N`\n"
     "    for a file of N states that does, `no` for one that does not, or `refused R`. FILE may be - for standard input.\n",
     evidence},
    {"replay", "SHEET [MASK ..]",
     "    Plays a release list, one mask a tick; bit 0 (value 1) releases task 1, bit 7 (value 128) task 8. Prints `kept`, or\n"
     "    `missed T` for the tick that misses, then a line `task I c WORK-LEFT p TICKS-TO-NEXT-RELEASE` for each task; or\n"
     "    `refused R`, with the tick after it where R is 11. Masks are 0 to 255, also written 0x...\n",
     replay},
    {"service", "SHEET [MASK ..]",
     "    Where the core time went in a release list. Prints the first line of `replay`, then for each task how many of its jobs\n"
     "    were released, the ticks in which it ran, the work left at the end, and how they balance: releases x C = ran + left.\n"
     "    The tick that misses is counted. One that is refused with 11 is not, and on any other refusal there are no totals.\n",
     service},
    {"session", "SHEET",
     "    Steps through a replay by commands on standard input, one a line. `step MASK` plays a tick and prints `next`, or `missed`\n"
     "    and stays where it was; `mark I` keeps the point reached under mark I, 1 to 8, and `return I` goes back to it: both print\n"
     "    `done`. Each may print `refused R: REASON`, and a line for each task follows, its state in words. `show` prints `masks` with\n"
     "    those that led here, as `replay` takes them, then the tasks' lines, then `mark I:` with its masks for each mark that is set.\n"
     "    `quit` ends. A line that is no command is told on standard error and makes the status 2. SHEET must be a file here.\n",
     session},
    {"show", "SHEET",
     "    The table of a sheet in words, or `refused R` and a line that says why.\n",
     show},
    {"make", "POLICY M C,D,P .. [-o FILE]",
     "    Writes the sheet of a table: a policy (0 to 4, or np-gfp, p-gfp, np-edf, p-edf, p-lst), M processors, and for each\n"
     "    task its work, deadline and least gap, all 0 to 255. Without -o, or for -o -, the bytes go to standard output, which\n"
     "    must not be a terminal. A table that the library refuses gives `refused R` and a line that says why on standard error, and no sheet.\n",
     make},
    {"practice", "POLICY M N SEED [-o FILE]",
     "    Writes the sheet of a practice table, drawn from a number, so that anyone can make it again: a policy as in `make`, M\n"
     "    processors, N tasks and a seed from 0 to 65535. The bytes go where those of `make` go, and so do refusals.\n",
     practice},
    {"cut", "SHEET K [-o FILE]",
     "    Writes the sheet of a sheet's first K tasks, with the same policy and processors; K is 1 to the sheet's number of tasks,\n"
     "    and any other number up to 255 is refused with 6. Under p-gfp a release list that is kept stays kept when the sheet is cut\n"
     "    to K tasks and every mask to its low K bits, and the cut of a safe sheet is safe. The bytes go where those of `make` go, and\n"
     "    so do refusals.\n",
     cut},
};
enum { COMMANDS = sizeof commands / sizeof *commands };

static void print_usage(FILE *file, const struct command *command)
{
    fprintf(file, "ronchhek %s %s\n", command->name, command->arguments);
}

static void print_help(void)
{
    puts("Verdicts on real-time task tables, from a proved library.\n");
    for (int i = 0; i < COMMANDS; i++) {
        print_usage(stdout, &commands[i]);
        puts(commands[i].help);
    }
    puts("SHEET is a file, or - for standard input. R is a refusal number of include/ronchhek.h.\n"
         "Status 0: an answer, also a refusal. Status 2: none, for wrong arguments or a file that cannot be read or written.");
}

static bool wants_help(int argc, char **argv)
{
    for (int i = 1; i < argc; i++)
        if (strcmp(argv[i], "--help") == 0 || strcmp(argv[i], "-h") == 0)
            return true;
    return false;
}

static int run(const struct command *command, int argc, char **argv)
{
    struct args args = {argc - 2, argv + 2};
    if (command->run(&args))
        return finish();
    fputs("usage: ", stderr);
    print_usage(stderr, command);
    return 2;
}

int main(int argc, char **argv)
{
    if (wants_help(argc, argv)) {
        print_help();
        return finish();
    }
    if (argc < 2)
        fail("no subcommand; ronchhek --help lists them");
    for (int i = 0; i < COMMANDS; i++)
        if (strcmp(argv[1], commands[i].name) == 0)
            return run(&commands[i], argc, argv);
    fail("no subcommand `%s`; ronchhek --help lists them", argv[1]);
}
