/* Play tables for bell towers: the six entries for C, C++ or any language that can call C.
 *
 * The paper 'Play tables for bell towers' says what a tower file, a rule book, a table and a refusal
 * are; docs/FORMATS.md has every byte of the files, and docs/LINKING.md how to link. The answers are
 * proved for every input: any bytes, any lengths, any row and any action.
 *
 * What the caller owes, since no function can test it:
 *   - each pointer is not null and points to at least as many bytes as the length beside it says,
 *     also where that is 0;
 *   - 'out', 'list' and the work areas overlap neither each other nor an input (inputs may overlap);
 *   - while a call runs, nobody else touches 'out', 'list' and the areas, and nobody writes the inputs;
 *   - there is enough stack: SUCCORYVISE_STACK bytes where a rule book is read.
 *
 * What every call promises:
 *   - it ends, and its answer does not depend on what the work areas held before;
 *   - refused with 15 it changes nothing; else the work areas are all zero afterwards, over the
 *     whole of the length given;
 *   - a refusal changes no byte of 'out' or 'list', and bytes behind a table that was made or a run that
 *     is shown stay;
 *   - it has no state, allocates nothing and opens no file. Calls may run at the same time, each
 *     with its own output and areas.
 */
#ifndef SUCCORYVISE_H
#define SUCCORYVISE_H

#include <stddef.h>
#include <stdint.h>

#ifdef __cplusplus
extern "C" {
#endif

/* The version of this interface. The names of the functions in the archive end in it, so that a program
 * that was compiled with the header of another version does not link. */
#define SUCCORYVISE_VERSION 2
#define succoryvise_read_book succoryvise_read_book_v2
#define succoryvise_make succoryvise_make_v2
#define succoryvise_check succoryvise_check_v2
#define succoryvise_follow succoryvise_follow_v2
#define succoryvise_read_log succoryvise_read_log_v2
#define succoryvise_why succoryvise_why_v2

/* The numbers of an answer. There may be more in time: treat one that you do not know as a refusal. */
enum succoryvise_number {
    SUCCORYVISE_DONE = 0,         /* no refusal: the answer has its values */
    SUCCORYVISE_TOWER_SIZE = 1,   /* tower: an offset of the header or the length is wrong */
    SUCCORYVISE_RANGE = 2,        /* tower: a count or the start is out of range */
    SUCCORYVISE_ACTION = 3,       /* tower: an action of length 0, or of a kind above 2 */
    SUCCORYVISE_TARGET = 4,       /* tower: a target that is neither a state nor 255 */
    SUCCORYVISE_MASK = 5,         /* tower: a mask with a bit at or above P */
    SUCCORYVISE_GRAMMAR = 6,      /* book: a line is not of the grammar */
    SUCCORYVISE_NUMBER = 7,       /* book: a number above 254 */
    SUCCORYVISE_MARK = 8,         /* book: a mark at or above P */
    SUCCORYVISE_LIMIT = 9,        /* book: over 4,096 bytes, 60 nodes or 16 open brackets */
    SUCCORYVISE_TIMED = 10,       /* book: a timed formula where none may be */
    SUCCORYVISE_PAIRS = 11,       /* over 1,000 pairs, or rows with what is pending, one for each alternative */
    SUCCORYVISE_NO_TABLE = 12,    /* there is no good table, of any length */
    SUCCORYVISE_LAYOUT = 13,      /* table: not laid out so, or its S, A are not the tower's */
    SUCCORYVISE_NOT_GOOD = 14,    /* table: not good; the letter says why */
    SUCCORYVISE_AREA = 15,        /* a work area is too short */
    SUCCORYVISE_OUTPUT = 16,      /* the output or the list is too short */
    SUCCORYVISE_OUTSIDE = 17,     /* the row or the action is outside the table */
    SUCCORYVISE_NOT_ALLOWED = 18, /* the action is not allowed in this row */
    SUCCORYVISE_LOG = 19,         /* log: a line is not of its form */
    SUCCORYVISE_ALTERNATIVES = 20 /* over 16 alternatives after a step */
};

/* The letters of a 14. */
enum succoryvise_letter {
    SUCCORYVISE_START = 'a',    /* row 0 has not the tower's start state */
    SUCCORYVISE_WITHHELD = 'b', /* an enabled action of kind 0 or 2 is not allowed */
    SUCCORYVISE_WRONG_STEP = 'c',     /* an action that is not enabled, or leads to a row of another state */
    SUCCORYVISE_STOPPED = 'd',  /* no action of kind 1 or 2 is allowed */
    SUCCORYVISE_BROKEN = 'e'    /* an allowed run is broken */
};

/* What a log comes to: the first value of its reader's answer. */
enum succoryvise_course {
    SUCCORYVISE_FITS = 0, /* every line fits; second is the final row */
    SUCCORYVISE_FAILS = 1 /* some line does not fit; second is the first such line, from 0 */
};

/* The least lengths of the work areas, in bytes. They may be longer, and need neither alignment nor
 * contents. One set of areas can serve all calls, one after the other. */
#define SUCCORYVISE_NODES_LENGTH 512
#define SUCCORYVISE_PAIRS_LENGTH 64968
#define SUCCORYVISE_INDEX_LENGTH 8192
#define SUCCORYVISE_GRAPH_LENGTH 34000
#define SUCCORYVISE_SETS_LENGTH 59520
#define SUCCORYVISE_ROOM_LENGTH 30752
#define SUCCORYVISE_FLAGS_LENGTH 37000
#define SUCCORYVISE_CLASSES_LENGTH 8192

/* The largest files, in bytes. */
#define SUCCORYVISE_TOWER_MOST 3640
#define SUCCORYVISE_BOOK_MOST 4096
#define SUCCORYVISE_TABLE_MOST 52012

/* The most actions of a run that is shown: a list of so many bytes holds every one. */
#define SUCCORYVISE_RUN_MOST 1000

/* The sizes of the paper: of a tower, a book and a table. */
#define SUCCORYVISE_STATES_MOST 200
#define SUCCORYVISE_ACTIONS_MOST 16
#define SUCCORYVISE_MARKS_MOST 16
#define SUCCORYVISE_TICKS_MOST 254 /* a number of a book */
#define SUCCORYVISE_NODES_MOST 60
#define SUCCORYVISE_BRACKETS_MOST 16
#define SUCCORYVISE_PAIRS_MOST 1000
#define SUCCORYVISE_ROWS_MOST 1000

/* A target of a tower that is no state: the action is not enabled. */
#define SUCCORYVISE_NOT_ENABLED 255

/* Stack for a call that reads a rule book, in bytes: it grows with the depth of brackets, N, A, E and U.
 * The deepest text of 4,096 bytes takes up to 0.9 MiB (measured on x86-64;
 * docs/LINKING.md has each shape), the deepest book that is accepted 9 KiB. succoryvise_follow needs less than 1 KiB, and
 * succoryvise_read_log 33 KiB, however long the log is. */
#define SUCCORYVISE_STACK 2097152

/* What every function answers. */
struct succoryvise_answer {
    uint32_t number; /* 0: done; else the number of the refusal, 1 to 20 */
    uint8_t letter;  /* of a 14: 'a' to 'e'; else 0 */
    size_t place;    /* of 6 to 10 and 19: the line, from 0; of a 14 b to d: the row; else 0 */
    size_t first;    /* the values, where number is 0; else 0 */
    size_t second;
    size_t third;
};

/* The version of the archive, SUCCORYVISE_VERSION, for those who look a function up by its name. */
uint32_t succoryvise_version(void);

/* Reads a rule book under so many marks (P of the tower): 15, 2 (over 16 marks), or 6 to 10.
 * Done: first is the number of lines, second that of nodes. */
struct succoryvise_answer succoryvise_read_book(
    size_t marks,
    const uint8_t *text, size_t text_length,
    uint8_t *nodes, size_t nodes_length);

/* Makes the table for a tower and a rule book, the smallest that allows every run that some good
 * table allows, and writes it to the front of 'out': 15, 1 to 12, 20, or 16.
 * Done: first is the length of the table in bytes, at most SUCCORYVISE_TABLE_MOST. */
struct succoryvise_answer succoryvise_make(
    const uint8_t *tower, size_t tower_length,
    const uint8_t *text, size_t text_length,
    uint8_t *out, size_t out_length,
    uint8_t *nodes, size_t nodes_length,
    uint8_t *pairs, size_t pairs_length,
    uint8_t *index, size_t index_length,
    uint8_t *graph, size_t graph_length,
    uint8_t *sets, size_t sets_length,
    uint8_t *room, size_t room_length,
    uint8_t *flags, size_t flags_length,
    uint8_t *classes, size_t classes_length);

/* Checks a table, whoever made it, against a tower and a rule book: 15, 1 to 11, 13, 14 or 20.
 * Done: the table is good. 11 and 20 say that it is too large to be judged, and not that it is bad. */
struct succoryvise_answer succoryvise_check(
    const uint8_t *tower, size_t tower_length,
    const uint8_t *text, size_t text_length,
    const uint8_t *table, size_t table_length,
    uint8_t *nodes, size_t nodes_length,
    uint8_t *pairs, size_t pairs_length,
    uint8_t *index, size_t index_length,
    uint8_t *graph, size_t graph_length,
    uint8_t *sets, size_t sets_length,
    uint8_t *room, size_t room_length);

/* Follows a table by one action: 13, 17, or 18 (the action is not allowed in this row).
 * Done: first is the next row. A performance begins in row 0. */
struct succoryvise_answer succoryvise_follow(
    const uint8_t *table, size_t table_length,
    size_t row, size_t action);

/* Holds a stroke log against a table, from row 0 on: 1 to 5, 13, 14 a to d, or 19. A log has no longest
 * length, so a line's number may pass 65,535.
 * Done: first is SUCCORYVISE_FITS or SUCCORYVISE_FAILS. A line fits where the table allows its action
 * after the lines before it, and its tick is that of the line before plus the length of that line's
 * action; the first tick is free. */
struct succoryvise_answer succoryvise_read_log(
    const uint8_t *tower, size_t tower_length,
    const uint8_t *table, size_t table_length,
    const uint8_t *log, size_t log_length);

/* Checks a table, and shows why where it is turned down with 14 e: 15, 1 to 11, 13, 14 a to d, 20, or 16 (the
 * list is shorter than the run).
 * Done: first is 0, and the table is good. Or first is the length of a run that the table allows and that
 * breaks a rule, a shortest one, and of those the first by its actions compared from the left; it stands
 * at the front of 'list', one byte for each action. second is the lowest line that it breaks, from 0, and
 * third the lowest position where the formula of that line is not kept, for a 'start' line 0. */
struct succoryvise_answer succoryvise_why(
    const uint8_t *tower, size_t tower_length,
    const uint8_t *text, size_t text_length,
    const uint8_t *table, size_t table_length,
    uint8_t *list, size_t list_length,
    uint8_t *nodes, size_t nodes_length,
    uint8_t *pairs, size_t pairs_length,
    uint8_t *index, size_t index_length,
    uint8_t *graph, size_t graph_length,
    uint8_t *sets, size_t sets_length,
    uint8_t *room, size_t room_length);

#ifdef __cplusplus
}
#endif

#endif
