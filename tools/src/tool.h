/* What the subcommands share. Every answer comes from the library; the program reads files, lends memory and prints. */
#ifndef TOOL_H
#define TOOL_H

#include <stdbool.h>
#include <stdio.h>

#include "ronchhek.h"

/* The arguments after a subcommand's name. */
struct args {
    int count;
    char **at;
};

/* The subcommands of main.c's table, a file each. False: called with the wrong arguments, and nothing is done. */
bool verdict(struct args *args);
bool evidence(struct args *args);
bool replay(struct args *args);
bool service(struct args *args);
bool session(struct args *args);
bool show(struct args *args);
bool make(struct args *args);
bool practice(struct args *args);
bool cut(struct args *args);

/* Says on standard error what is wrong; the status at the end is 2 then. */
void complain(const char *format, ...) __attribute__((format(printf, 1, 2)));

/* The same, and that is the end. */
_Noreturn void fail(const char *format, ...) __attribute__((format(printf, 1, 2)));

/* Takes an option and its value out of the arguments. NULL: it is not there. */
const char *take_option(struct args *args, const char *name);

/* The number that a text writes, decimal or 0x.., from 0 to `most`. False: it writes none. */
bool read_number(const char *text, unsigned long most, unsigned long *value);

/* The same; fails for any other text. */
unsigned long number(const char *what, const char *text, unsigned long most);

/* Heap of exactly that many bytes, and heap made as long, which holds what it held; fails where there is none. */
uint8_t *space(size_t len);
uint8_t *resized(uint8_t *bytes, size_t len);

struct bytes {
    uint8_t *at;
    size_t len;
};

/* The bytes of a file, or of standard input for "-", up to `most` of them. */
struct bytes read_bytes(const char *path, size_t most);

/* The sheet in a file or on standard input. Its first 64 bytes decide every answer, since the longest sheet has 52. */
struct bytes read_sheet(const char *path);

/* The release list that the arguments after the sheet's write, a mask each. */
struct bytes read_list(const struct args *args);

/* The table of a sheet that was played, RONCHHEK_TABLE_BYTES of it. */
void read_played(const struct bytes *sheet, uint8_t *table);

/* The first line of a replay's answer: `kept`, `missed T`, or `refused R`, with the tick after it where R is 11. */
void print_outcome(uint64_t answer);

/* Writes the states of a Safe search, `count` of them at the front of its work space, to a file: all of them, or fails and leaves what
 * was there. */
void write_evidence(const char *path, const uint8_t *work, size_t count);

/* The policies by number: what they are called, and what they do. */
enum { POLICIES = 5 };
extern const struct policy {
    const char *name, *words;
} policies[POLICIES];

/* The policy that a text names, or any number that a table's byte holds. */
uint8_t policy_of(const char *text);

/* Writes a sheet, by the answer of the call that made it, to a file, or for NULL and "-" to standard output; where it was refused,
 * says so on standard error. */
void put_sheet(const char *path, const uint8_t *sheet, uint64_t answer);

/* What a refusal says. */
const char *reason(unsigned refusal);

/* A refusal on two lines: `refused R`, and what it says. */
void print_refusal(FILE *file, unsigned refusal);

/* Writes out what was printed; fails where it cannot. */
void flush(void);

/* The same at the end. The status after an answer: 0, unless there was a complaint. */
int finish(void);

#endif
