/* How much stack each function takes: lines 'FUNCTION: BYTES', and where it reads a book, for books of each
 * shape, lines 'FUNCTION, SHAPE: BYTES'. Each call runs on a thread whose stack was filled with one byte
 * before; from the lowest byte that is another one afterwards it was used. Fails where an answer is
 * another one than stated, or where SUCCORYVISE_STACK bytes are not enough. */
#define _POSIX_C_SOURCE 200809L
#include "succoryvise.h"

#include <pthread.h>
#include <stdio.h>
#include <stdlib.h>
#include <string.h>

/* What a thread here has, so that a call that takes more than it should can be counted. */
#define STACK (4 * (size_t)SUCCORYVISE_STACK)
#define UNUSED 0xA5

static uint8_t text[SUCCORYVISE_BOOK_MOST];
static size_t text_length;

static uint8_t table[SUCCORYVISE_TABLE_MOST], out[SUCCORYVISE_TABLE_MOST];
static size_t table_length;
static uint8_t list[SUCCORYVISE_RUN_MOST];
static uint8_t nodes[SUCCORYVISE_NODES_LENGTH], pairs[SUCCORYVISE_PAIRS_LENGTH];
static uint8_t index_area[SUCCORYVISE_INDEX_LENGTH], graph[SUCCORYVISE_GRAPH_LENGTH];
static uint8_t sets[SUCCORYVISE_SETS_LENGTH], room[SUCCORYVISE_ROOM_LENGTH];
static uint8_t flags[SUCCORYVISE_FLAGS_LENGTH], classes[SUCCORYVISE_CLASSES_LENGTH];

/* One state with one mark, and one action, which is ours. */
static const uint8_t tower[13] = { 1, 1, 1, 0, 8, 0, 10, 0, 1, 1, 1, 0, 0 };

static struct succoryvise_answer read_book(void)
{
    return succoryvise_read_book(1, text, text_length, nodes, sizeof nodes);
}

static struct succoryvise_answer make(void)
{
    return succoryvise_make(tower, sizeof tower, text, text_length, out, sizeof out, nodes, sizeof nodes,
                            pairs, sizeof pairs, index_area, sizeof index_area, graph, sizeof graph, sets,
                            sizeof sets, room, sizeof room, flags, sizeof flags, classes, sizeof classes);
}

static struct succoryvise_answer check(void)
{
    return succoryvise_check(tower, sizeof tower, text, text_length, table, table_length, nodes,
                             sizeof nodes, pairs, sizeof pairs, index_area, sizeof index_area, graph,
                             sizeof graph, sets, sizeof sets, room, sizeof room);
}

static struct succoryvise_answer why(void)
{
    return succoryvise_why(tower, sizeof tower, text, text_length, table, table_length, list, sizeof list,
                           nodes, sizeof nodes, pairs, sizeof pairs, index_area, sizeof index_area, graph,
                           sizeof graph, sets, sizeof sets, room, sizeof room);
}

static struct succoryvise_answer follow(void)
{
    return succoryvise_follow(table, table_length, 0, 0);
}

static struct succoryvise_answer read_log(void)
{
    static const uint8_t log[] = "4294967293 0\n4294967294 00\n4294967295 0\n";

    return succoryvise_read_log(tower, sizeof tower, table, table_length, log, sizeof log - 1);
}

/* A call, and what came of it. */
struct call {
    struct succoryvise_answer (*function)(void);
    const uint8_t *stack;
    struct succoryvise_answer answer;
    size_t used;
};

/* Calls and counts, on the thread itself, which ends only afterwards. */
static void *run(void *argument)
{
    struct call *call = (struct call *)argument;
    const uint8_t *low = call->stack;

    call->answer = call->function();
    while (*low == UNUSED)
        low++;
    call->used = (size_t)((const uint8_t *)&low - low);
    return NULL;
}

static struct call call_on_a_thread(struct succoryvise_answer (*function)(void))
{
    pthread_attr_t attributes;
    pthread_t thread;
    struct call call;
    void *stack;

    if (posix_memalign(&stack, 4096, STACK) != 0)
        abort();
    memset(stack, UNUSED, STACK);
    call.function = function;
    call.stack = (const uint8_t *)stack;
    if (pthread_attr_init(&attributes) != 0 || pthread_attr_setstack(&attributes, stack, STACK) != 0
        || pthread_create(&thread, &attributes, run, &call) != 0 || pthread_join(thread, NULL) != 0)
        abort();
    pthread_attr_destroy(&attributes);
    free(stack);
    return call;
}

/* The books: 'start ', what comes again and again, the middle, and its end as often. */
struct shape {
    const char *name, *open, *middle, *close;
    /* How often, or 0 for as often as 4,096 bytes hold. */
    size_t times;
    uint32_t number;
};

/* 43 times A, with a bound of 0 so that a table can be made: with 16 more, all nodes but one. */
#define A_0 "A 0 "
#define SIX_A A_0 A_0 A_0 A_0 A_0 A_0
#define MANY_A SIX_A SIX_A SIX_A SIX_A SIX_A SIX_A SIX_A A_0

static const struct shape shapes[] = {
    { "accepted, 16 brackets", "(", "p0", ")", 16, SUCCORYVISE_DONE },
    { "accepted, U in U", "U 3(", "p0", ",p0)", 16, SUCCORYVISE_DONE },
    { "accepted, N of N", "N>0", "p0", "", 59, SUCCORYVISE_DONE },
    { "accepted, A of A", A_0, "p0", "", 59, SUCCORYVISE_DONE },
    { "accepted, A of brackets", A_0 "(", MANY_A "p0", ")", 16, SUCCORYVISE_DONE },
    { "accepted, A of an or", A_0, "(A 0 p0|A 0 p0)", "", 55, SUCCORYVISE_DONE },
    { "and of and", "T&", "T", "", 0, SUCCORYVISE_LIMIT },
    { "or of or", "T|", "T", "", 0, SUCCORYVISE_LIMIT },
    { "N of N", "N>0", "T", "", 0, SUCCORYVISE_LIMIT },
    { "U in U", "U(", "T", ",T)", 0, SUCCORYVISE_LIMIT },
    { "U behind U", "U(T,", "T", ")", 0, SUCCORYVISE_LIMIT },
    { "A of A", "A", "T", "", 0, SUCCORYVISE_LIMIT },
    { "U in U, never closed", "U(", "", "", 0, SUCCORYVISE_GRAMMAR },
    { "brackets, closed", "(", "T", ")", 0, SUCCORYVISE_LIMIT },
    { "A of brackets, never closed", "A(", "", "", 0, SUCCORYVISE_GRAMMAR },
    { "brackets, never closed", "(", "", "", 0, SUCCORYVISE_GRAMMAR },
};

static void put(const char *word)
{
    size_t length = strlen(word);

    memcpy(text + text_length, word, length);
    text_length += length;
}

static void build(const struct shape *shape)
{
    size_t i, times = shape->times, each = strlen(shape->open) + strlen(shape->close);

    if (times == 0)
        times = (sizeof text - strlen("start ") - strlen(shape->middle) - 1) / each;
    text_length = 0;
    put("start ");
    for (i = 0; i < times; i++)
        put(shape->open);
    put(shape->middle);
    for (i = 0; i < times; i++)
        put(shape->close);
    put("\n");
}

/* Has F stand for every mark, so that a book that was accepted is broken. */
static void break_book(void)
{
    size_t i;

    for (i = 0; i + 1 < text_length; i++)
        if (text[i] == 'p')
            memcpy(text + i, " F", 2);
}

/* Measures a call with the book of this shape; 0 where the answer is another one, or more stack is used than
 * there may be. */
static size_t measure(struct succoryvise_answer (*function)(void), const struct shape *shape)
{
    struct call call = call_on_a_thread(function);

    if (call.answer.number != shape->number) {
        printf("    %u, and not %u\n", (unsigned)call.answer.number, (unsigned)shape->number);
        return 0;
    }
    return call.used <= SUCCORYVISE_STACK ? call.used : 0;
}

int main(void)
{
    static const struct {
        const char *name;
        struct succoryvise_answer (*function)(void);
    } without_book[] = { { "follow", follow }, { "read_log", read_log } },
      functions[] = { { "read_book", read_book }, { "make", make }, { "check", check }, { "why", why } };
    struct call call;
    size_t i, j, used, broken;

    text_length = 0;
    table_length = make().first;
    memcpy(table, out, table_length);
    for (i = 0; i < sizeof without_book / sizeof *without_book; i++) {
        call = call_on_a_thread(without_book[i].function);
        /* Row 0; and a log that fits. */
        if (call.answer.number != SUCCORYVISE_DONE || call.answer.first != 0)
            return 1;
        printf("%s: %lu\n", without_book[i].name, (unsigned long)call.used);
    }
    for (i = 0; i < sizeof shapes / sizeof *shapes; i++) {
        build(&shapes[i]);
        for (j = 0; j < sizeof functions / sizeof *functions; j++) {
            used = measure(functions[j].function, &shapes[i]);
            if (used == 0)
                return 1;
            /* Of a good table and of a run that is shown, what takes more. */
            if (functions[j].function == why) {
                break_book();
                broken = measure(why, &shapes[i]);
                if (broken == 0)
                    return 1;
                used = broken > used ? broken : used;
            }
            printf("%s, %s: %lu\n", functions[j].name, shapes[i].name, (unsigned long)used);
        }
    }
    return 0;
}
