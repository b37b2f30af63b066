/* Every refusal through the interface for C, by the examples of the paper's table; and after every call
 * the output, the list, the areas and the inputs are as they have to be. Each block of memory has just the
 * length that is told, so that a tool such as valgrind sees a byte read or written beside it. */
#include "succoryvise.h"

#include <stdio.h>
#include <stdlib.h>
#include <string.h>

/* The areas of the maker. The checker borrows the first ones of them, and so does what shows why. */
#define AREAS 8
#define CHECKER_AREAS 6
static const size_t least[AREAS] = {
    SUCCORYVISE_NODES_LENGTH, SUCCORYVISE_PAIRS_LENGTH, SUCCORYVISE_INDEX_LENGTH,
    SUCCORYVISE_GRAPH_LENGTH, SUCCORYVISE_SETS_LENGTH, SUCCORYVISE_ROOM_LENGTH,
    SUCCORYVISE_FLAGS_LENGTH, SUCCORYVISE_CLASSES_LENGTH,
};

/* The lengths of the areas that are lent, and whether something is written to them before; if not, a
 * tool sees an answer that depends on what they held. */
static size_t lent[AREAS];
static int filled;

#define BEFORE 0xA5

/* A piece of memory with its length. */
struct bytes {
    uint8_t *at;
    size_t length;
};

static int right, wrong;

/* Which numbers have come, up to the last one. */
#define LAST SUCCORYVISE_ALTERNATIVES
static int came[LAST + 1];

static void count(int holds, const char *what, const char *fact)
{
    if (holds) {
        right++;
    } else {
        wrong++;
        printf("wrong: %s: %s\n", what, fact);
    }
}

/* A block of just this length, with nothing in it. */
static struct bytes block(size_t length)
{
    struct bytes bytes;

    /* malloc(0) may answer null. */
    bytes.at = (uint8_t *)malloc(length == 0 ? 1 : length);
    bytes.length = length;
    if (bytes.at == NULL)
        abort();
    return bytes;
}

static struct bytes copy_of(const void *from, size_t length)
{
    struct bytes bytes = block(length);

    memcpy(bytes.at, from, length);
    return bytes;
}

/* A block full of one byte. */
static struct bytes full_of(uint8_t byte, size_t length)
{
    struct bytes bytes = block(length);

    memset(bytes.at, byte, length);
    return bytes;
}

/* Whether the bytes from 'from' on are all this one. */
static int all(struct bytes bytes, size_t from, uint8_t byte)
{
    size_t i;

    for (i = from; i < bytes.length; i++)
        if (bytes.at[i] != byte)
            return 0;
    return 1;
}

static int same(struct bytes bytes, struct bytes other)
{
    return bytes.length == other.length && memcmp(bytes.at, other.at, bytes.length) == 0;
}

/* The areas of a call. Where one is too short they are filled in any case, to see that they stay. */
static void borrow(struct bytes *areas, int n)
{
    int i, fill = filled;

    for (i = 0; i < n; i++)
        if (lent[i] < least[i])
            fill = 1;
    for (i = 0; i < n; i++)
        areas[i] = fill ? full_of(BEFORE, lent[i]) : block(lent[i]);
}

/* Ends a call: the areas are unchanged after a 15, and else zero. */
static void give_back(struct bytes *areas, int n, struct succoryvise_answer answer, const char *what)
{
    uint8_t byte = answer.number == SUCCORYVISE_AREA ? BEFORE : 0;
    int i;

    for (i = 0; i < n; i++) {
        count(all(areas[i], 0, byte), what, "an area is not as it has to be");
        free(areas[i].at);
    }
}

/* Compares number, place and letter; and a refusal has no values. No function but the one that shows why has
 * a third value. */
static void expect(const char *what, struct succoryvise_answer answer, uint32_t number, size_t place,
                   int letter)
{
    int holds = answer.number == number && answer.place == place && answer.letter == letter;

    if (number != SUCCORYVISE_DONE)
        holds = holds && answer.first == 0 && answer.second == 0;
    holds = holds && answer.third == 0;
    count(holds, what, "the answer");
    if (!holds)
        printf("    %u %zu %u, and not %u %zu %d\n", (unsigned)answer.number, answer.place,
               (unsigned)answer.letter, (unsigned)number, place, letter);
    if (answer.number <= LAST)
        came[answer.number] = 1;
}

static struct succoryvise_answer read_book(const char *what, size_t marks, struct bytes text)
{
    struct bytes before = copy_of(text.at, text.length), areas[1];
    struct succoryvise_answer answer;

    borrow(areas, 1);
    answer = succoryvise_read_book(marks, text.at, text.length, areas[0].at, areas[0].length);
    count(same(text, before), what, "the book has changed");
    give_back(areas, 1, answer, what);
    free(before.at);
    return answer;
}

/* Makes a table in an output of this length, and keeps a copy of the output in 'made' if that is not
 * null. */
static struct succoryvise_answer make(const char *what, struct bytes tower, struct bytes text,
                                      size_t room, struct bytes *made)
{
    struct bytes before = copy_of(tower.at, tower.length), book = copy_of(text.at, text.length);
    struct bytes out = full_of(BEFORE, room), areas[AREAS];
    struct succoryvise_answer answer;

    borrow(areas, AREAS);
    answer = succoryvise_make(tower.at, tower.length, text.at, text.length, out.at, out.length,
                              areas[0].at, areas[0].length, areas[1].at, areas[1].length,
                              areas[2].at, areas[2].length, areas[3].at, areas[3].length,
                              areas[4].at, areas[4].length, areas[5].at, areas[5].length,
                              areas[6].at, areas[6].length, areas[7].at, areas[7].length);
    count(same(tower, before) && same(text, book), what, "an input has changed");
    count(answer.first <= room && all(out, answer.first, BEFORE), what,
          "the output has changed behind the table");
    give_back(areas, AREAS, answer, what);
    free(before.at);
    free(book.at);
    if (made != NULL)
        *made = copy_of(out.at, answer.first);
    free(out.at);
    return answer;
}

static struct succoryvise_answer check(const char *what, struct bytes tower, struct bytes text,
                                       struct bytes table)
{
    struct bytes before = copy_of(tower.at, tower.length), book = copy_of(text.at, text.length);
    struct bytes file = copy_of(table.at, table.length), areas[CHECKER_AREAS];
    struct succoryvise_answer answer;

    borrow(areas, CHECKER_AREAS);
    answer = succoryvise_check(tower.at, tower.length, text.at, text.length, table.at, table.length,
                               areas[0].at, areas[0].length, areas[1].at, areas[1].length,
                               areas[2].at, areas[2].length, areas[3].at, areas[3].length,
                               areas[4].at, areas[4].length, areas[5].at, areas[5].length);
    count(same(tower, before) && same(text, book) && same(table, file), what, "an input has changed");
    give_back(areas, CHECKER_AREAS, answer, what);
    free(before.at);
    free(book.at);
    free(file.at);
    return answer;
}

/* Shows why in a list of this length, and keeps a copy of the run in 'run' if that is not null. */
static struct succoryvise_answer why(const char *what, struct bytes tower, struct bytes text,
                                     struct bytes table, size_t room, struct bytes *run)
{
    struct bytes before = copy_of(tower.at, tower.length), book = copy_of(text.at, text.length);
    struct bytes file = copy_of(table.at, table.length), list = full_of(BEFORE, room);
    struct bytes areas[CHECKER_AREAS];
    struct succoryvise_answer answer;

    borrow(areas, CHECKER_AREAS);
    answer = succoryvise_why(tower.at, tower.length, text.at, text.length, table.at, table.length,
                             list.at, list.length, areas[0].at, areas[0].length, areas[1].at,
                             areas[1].length, areas[2].at, areas[2].length, areas[3].at, areas[3].length,
                             areas[4].at, areas[4].length, areas[5].at, areas[5].length);
    count(same(tower, before) && same(text, book) && same(table, file), what, "an input has changed");
    count(answer.first <= room && all(list, answer.first, BEFORE), what,
          "the list has changed behind the run");
    give_back(areas, CHECKER_AREAS, answer, what);
    free(before.at);
    free(book.at);
    free(file.at);
    if (run != NULL)
        *run = copy_of(list.at, answer.first);
    free(list.at);
    return answer;
}

/* Checks a table and has it explained, in no list and in one that is long enough: the answers are the same,
 * and no 14 e. */
static void judge(const char *what, struct bytes tower, struct bytes text, struct bytes table,
                  uint32_t number, size_t place, int letter)
{
    expect(what, check(what, tower, text, table), number, place, letter);
    expect(what, why(what, tower, text, table, 0, NULL), number, place, letter);
    expect(what, why(what, tower, text, table, SUCCORYVISE_RUN_MOST, NULL), number, place, letter);
}

/* Has a table of which an allowed run is broken explained: that is the run, with the line and the position, and
 * a list that is shorter is 16. */
static void judge_run(const char *what, struct bytes tower, struct bytes text, struct bytes table,
                      struct bytes run, size_t line, size_t position)
{
    size_t rooms[4], i;

    rooms[0] = 0;
    rooms[1] = run.length - 1;
    rooms[2] = run.length;
    rooms[3] = run.length + 77;
    expect(what, check(what, tower, text, table), SUCCORYVISE_NOT_GOOD, 0, SUCCORYVISE_BROKEN);
    for (i = 0; i < 4; i++) {
        struct bytes shown;
        struct succoryvise_answer answer = why(what, tower, text, table, rooms[i], &shown);
        size_t third = answer.third;

        if (rooms[i] < run.length) {
            expect(what, answer, SUCCORYVISE_OUTPUT, 0, 0);
        } else {
            answer.third = 0;
            expect(what, answer, SUCCORYVISE_DONE, 0, 0);
            count(same(shown, run), what, "the run");
            count(answer.second == line && third == position, what, "the line and the position");
        }
        free(shown.at);
    }
}

static struct succoryvise_answer follow(const char *what, struct bytes table, size_t row, size_t action)
{
    struct bytes before = copy_of(table.at, table.length);
    struct succoryvise_answer answer;

    answer = succoryvise_follow(table.at, table.length, row, action);
    count(same(table, before), what, "the table has changed");
    free(before.at);
    return answer;
}

static struct succoryvise_answer read_log(const char *what, struct bytes tower, struct bytes table,
                                          struct bytes log)
{
    struct bytes before = copy_of(tower.at, tower.length), file = copy_of(table.at, table.length);
    struct bytes lines = copy_of(log.at, log.length);
    struct succoryvise_answer answer;

    answer = succoryvise_read_log(tower.at, tower.length, table.at, table.length, log.at, log.length);
    count(same(tower, before) && same(table, file) && same(log, lines), what, "an input has changed");
    free(before.at);
    free(file.at);
    free(lines.at);
    return answer;
}

static const uint8_t small_tower[34] = {
    0x03, 0x04, 0x03, 0x00, 0x08, 0x00, 0x10, 0x00, 0x01, 0x01, 0x01, 0x02,
    0x01, 0x01, 0x01, 0x02, 0x01, 0x00, 0x01, 0xFF, 0x02, 0xFF, 0x02, 0x00,
    0xFF, 0x00, 0xFF, 0xFF, 0x04, 0x00, 0xFF, 0xFF, 0xFF, 0x00,
};

static const char book_1[] = "always !p0 | E 3 p1\nalways !p0 | E 3 p2\n";

/* The layout of a table file, in one place: the bytes of a state's number, of the header, of a row (its
 * state, the number of its steps and the first of them) and of a step (its action and target row). */
#define STATE_WIDTH 1
#define HEADER 12
#define ROW (STATE_WIDTH + 1 + 2)
#define STEP (1 + 2)

/* Where the state of a row is written; and in a table of so many rows a step's action and target. */
static size_t state_at(size_t row)
{
    return HEADER + ROW * row;
}

static size_t action_at(size_t rows, size_t step)
{
    return state_at(rows) + STEP * step;
}

static size_t target_at(size_t rows, size_t step)
{
    return action_at(rows, step) + 1;
}

/* A number in so many bytes, the low one first. */
static void put(uint8_t *at, size_t width, size_t number)
{
    size_t i;

    for (i = 0; i < width; i++)
        at[i] = (uint8_t)(number >> 8 * i);
}

/* A row of a table for the small tower: its state, and up to two actions with their target rows. */
struct row {
    size_t state, count, steps[2][2];
};

/* The table file of these rows. */
static struct bytes table_of(const struct row *rows, size_t count)
{
    struct bytes table;
    size_t i, j, steps = 0;

    for (i = 0; i < count; i++)
        steps += rows[i].count;
    table = block(action_at(count, steps));
    put(table.at, 2, count);
    put(table.at + 2, 2, steps);
    put(table.at + 4, 2, HEADER);
    put(table.at + 6, 2, state_at(count));
    put(table.at + 8, 2, small_tower[0]);
    put(table.at + 10, 2, small_tower[1]);
    steps = 0;
    for (i = 0; i < count; i++) {
        put(table.at + state_at(i), STATE_WIDTH, rows[i].state);
        put(table.at + state_at(i) + STATE_WIDTH, 1, rows[i].count);
        put(table.at + state_at(i) + STATE_WIDTH + 1, 2, steps);
        for (j = 0; j < rows[i].count; j++, steps++) {
            put(table.at + action_at(count, steps), 1, rows[i].steps[j][0]);
            put(table.at + target_at(count, steps), 2, rows[i].steps[j][1]);
        }
    }
    return table;
}

/* The table of the small tower under book 1, as the paper lists it. */
#define ROWS_1 5
static struct bytes table_1(void)
{
    static const struct row rows[ROWS_1] = {
        { 0, 2, { { 0, 1 }, { 2, 2 } } },
        { 1, 1, { { 1, 3 }, { 0, 0 } } },
        { 2, 1, { { 3, 4 }, { 0, 0 } } },
        { 0, 1, { { 2, 2 }, { 0, 0 } } },
        { 0, 1, { { 0, 1 }, { 0, 0 } } },
    };

    return table_of(rows, ROWS_1);
}

/* The same with one byte changed. */
static struct bytes table_1_with(size_t at, uint8_t byte)
{
    struct bytes table = table_1();

    table.at[at] = byte;
    return table;
}

static struct bytes text_of(const char *text)
{
    return copy_of(text, strlen(text));
}

/* A file with one byte changed. */
static struct bytes with(const uint8_t *file, size_t length, size_t at, uint8_t byte)
{
    struct bytes bytes = copy_of(file, length);

    bytes.at[at] = byte;
    return bytes;
}

/* A tower that is refused, by all that read one; the log is not read. */
static void bad_tower(const char *what, struct bytes tower, uint32_t number)
{
    struct bytes text = text_of(book_1), table = table_1(), log = text_of("x");

    expect(what, make(what, tower, text, SUCCORYVISE_TABLE_MOST, NULL), number, 0, 0);
    judge(what, tower, text, table, number, 0, 0);
    expect(what, read_log(what, tower, table, log), number, 0, 0);
    free(tower.at);
    free(text.at);
    free(table.at);
    free(log.at);
}

/* A book that is refused, by all that read one. */
static void bad_book(const char *what, struct bytes text, uint32_t number, size_t line)
{
    struct bytes tower = copy_of(small_tower, sizeof small_tower), table = table_1();

    expect(what, read_book(what, 3, text), number, line, 0);
    expect(what, make(what, tower, text, SUCCORYVISE_TABLE_MOST, NULL), number, line, 0);
    judge(what, tower, text, table, number, line, 0);
    free(tower.at);
    free(text.at);
    free(table.at);
}

/* A table that is not good for the small tower, by a to d, which come before the log is read. */
static void bad_table(const char *what, struct bytes table, size_t row, int letter)
{
    struct bytes tower = copy_of(small_tower, sizeof small_tower), text = text_of("");
    struct bytes log = text_of("x");

    judge(what, tower, text, table, SUCCORYVISE_NOT_GOOD, row, letter);
    expect(what, read_log(what, tower, table, log), SUCCORYVISE_NOT_GOOD, row, letter);
    free(tower.at);
    free(text.at);
    free(table.at);
    free(log.at);
}

/* One of which this run is broken. Without a book, e never comes. */
static void broken_table(struct bytes table, const char *book, const char *actions, size_t length,
                         size_t line, size_t position)
{
    struct bytes tower = copy_of(small_tower, sizeof small_tower), text = text_of(book);
    struct bytes run = copy_of(actions, length), log = text_of("x");

    judge_run(book, tower, text, table, run, line, position);
    expect(book, read_log(book, tower, table, log), SUCCORYVISE_LOG, 0, 0);
    free(tower.at);
    free(text.at);
    free(run.at);
    free(log.at);
}

/* A log for the small tower under table 1. */
static struct succoryvise_answer read_small_log(const char *what, struct bytes log)
{
    struct bytes tower = copy_of(small_tower, sizeof small_tower), table = table_1();
    struct succoryvise_answer answer = read_log(what, tower, table, log);

    free(tower.at);
    free(table.at);
    free(log.at);
    return answer;
}

/* One that is read, and what it comes to. */
static void good_log(const char *what, struct bytes log, size_t first, size_t second)
{
    struct succoryvise_answer answer = read_small_log(what, log);

    expect(what, answer, SUCCORYVISE_DONE, 0, 0);
    count(answer.first == first && answer.second == second, what, "what the log comes to");
}

/* One of which this line is not of the form. */
static void bad_log(const char *what, struct bytes log, size_t line)
{
    expect(what, read_small_log(what, log), SUCCORYVISE_LOG, line, 0);
}

static void towers(void)
{
    bad_tower("7 bytes", copy_of(small_tower, 7), SUCCORYVISE_TOWER_SIZE);
    bad_tower("no bytes", copy_of(small_tower, 0), SUCCORYVISE_TOWER_SIZE);
    bad_tower("S = 0", with(small_tower, 34, 0, 0), SUCCORYVISE_RANGE);
    bad_tower("action 00 01", with(small_tower, 34, 8, 0), SUCCORYVISE_ACTION);
    bad_tower("kind 3", with(small_tower, 34, 9, 3), SUCCORYVISE_ACTION);
    bad_tower("target 03 with S = 3", with(small_tower, 34, 18, 3), SUCCORYVISE_TARGET);
    bad_tower("mask 08 00 with P = 3", with(small_tower, 34, 16, 8), SUCCORYVISE_MASK);
}

static void books(void)
{
    struct bytes text = text_of(book_1), many;
    struct succoryvise_answer answer;
    size_t i;

    answer = read_book("book 1", 3, text);
    expect("book 1", answer, SUCCORYVISE_DONE, 0, 0);
    count(answer.first == 2 && answer.second == 10, "book 1", "2 lines, 10 nodes");
    expect("17 marks", read_book("17 marks", 17, text), SUCCORYVISE_RANGE, 0, 0);
    free(text.at);

    bad_book("always &", text_of("always &\n"), SUCCORYVISE_GRAMMAR, 0);
    bad_book("start A 255 T", text_of("start A 255 T\n"), SUCCORYVISE_NUMBER, 0);
    bad_book("start p3", text_of("start p3\n"), SUCCORYVISE_MARK, 0);
    many = block(61 * 8);
    for (i = 0; i < 61; i++)
        memcpy(many.at + 8 * i, "start T\n", 8);
    bad_book("61 lines start T", many, SUCCORYVISE_LIMIT, 60);
    bad_book("4,097 bytes", full_of(' ', SUCCORYVISE_BOOK_MOST + 1), SUCCORYVISE_LIMIT, 0);
    many = full_of('(', SUCCORYVISE_BOOK_MOST);
    memcpy(many.at, "start ", 6);
    many.at[many.length - 1] = '\n';
    bad_book("brackets never closed", many, SUCCORYVISE_GRAMMAR, 0);
    bad_book("start U 1 (T, E 1 p0)", text_of("start U 1 (T, E 1 p0)\n"), SUCCORYVISE_TIMED, 0);
}

/* A table that is good: there is nothing to show. */
static void good_table(const char *what, struct bytes tower, struct bytes text, struct bytes table)
{
    struct succoryvise_answer answer = why(what, tower, text, table, SUCCORYVISE_RUN_MOST, NULL);

    judge(what, tower, text, table, SUCCORYVISE_DONE, 0, 0);
    count(answer.first == 0 && answer.second == 0, what, "nothing to show");
}

/* The ring of 200 states: 1,000 pairs are enough, and one more is 11. */
static void pairs(void)
{
    struct bytes tower = full_of(0, 8 + 2 + 200 * 3), most = text_of("start A 200 A 200 A 200 A 199 T\n");
    struct bytes over = text_of("start A 200 A 200 A 200 A 200 T\n"), table;
    struct bytes laps = text_of("start A 199 (!p0 | N > 0 A 199 (!p0 | N > 0 A 199 (!p0 | N > 0 "
                                "A 199 (!p0 | N > 0 A 199 !p0))))\n");
    struct bytes run = full_of(0, SUCCORYVISE_RUN_MOST);
    size_t i;

    memcpy(tower.at, "\xC8\x01\x00\x00\x08\x00\x0A\x00\x01\x01", 10);
    for (i = 0; i < 200; i++)
        tower.at[10 + 3 * i + 2] = (uint8_t)((i + 1) % 200);
    expect("1,000 pairs", make("1,000 pairs", tower, most, SUCCORYVISE_TABLE_MOST, &table),
           SUCCORYVISE_DONE, 0, 0);
    count(table.length == action_at(200, 200), "1,000 pairs", "200 rows of one step");
    good_table("1,000 pairs", tower, most, table);
    expect("1,001 pairs", make("1,001 pairs", tower, over, SUCCORYVISE_TABLE_MOST, NULL),
           SUCCORYVISE_PAIRS, 0, 0);
    judge("1,001 pairs", tower, over, table, SUCCORYVISE_PAIRS, 0, 0);

    /* A promise that is handed on from lap to lap, and broken as the fifth is over. */
    tower.at[2] = tower.at[10 + 3 * 199] = 1;
    judge_run("1,000 actions", tower, laps, table, run, 0, 0);
    free(tower.at);
    free(most.at);
    free(over.at);
    free(laps.at);
    free(run.at);
    free(table.at);
}

/* Two lines of four timed sides each leave 16 alternatives after the first step; one side
 * more, and it is 20. */
static void alternatives(void)
{
    struct bytes tower = copy_of(small_tower, sizeof small_tower), none = text_of("");
    struct bytes most = text_of("start E 3 p1 | E 3 p1 | E 3 p1 | E 3 p1\n"
                                "start E 3 p2 | E 3 p2 | E 3 p2 | E 3 p2\n");
    struct bytes over = text_of("start E 3 p1 | E 3 p1 | E 3 p1 | E 3 p1 | E 3 p1\n"
                                "start E 3 p2 | E 3 p2 | E 3 p2 | E 3 p2\n");
    struct bytes table, other;

    expect("no rules", make("no rules", tower, none, SUCCORYVISE_TABLE_MOST, &table), SUCCORYVISE_DONE, 0, 0);
    expect("16 alternatives", make("16 alternatives", tower, most, SUCCORYVISE_TABLE_MOST, &other),
           SUCCORYVISE_DONE, 0, 0);
    good_table("16 alternatives", tower, most, other);
    expect("20 alternatives", make("20 alternatives", tower, over, SUCCORYVISE_TABLE_MOST, NULL),
           SUCCORYVISE_ALTERNATIVES, 0, 0);
    judge("20 alternatives", tower, over, table, SUCCORYVISE_ALTERNATIVES, 0, 0);
    free(tower.at);
    free(none.at);
    free(most.at);
    free(over.at);
    free(table.at);
    free(other.at);
}

static void tables(void)
{
    static const struct row stopped = { 0, 0, { { 0, 0 }, { 0, 0 } } };
    struct bytes tower = copy_of(small_tower, sizeof small_tower);
    struct bytes text = text_of(book_1), none = text_of(""), never = text_of("start F\n");
    struct bytes table = table_1(), made, outside;
    size_t room;

    expect("start F", make("start F", tower, never, SUCCORYVISE_TABLE_MOST, NULL),
           SUCCORYVISE_NO_TABLE, 0, 0);
    count(table.length == 50, "table 1", "50 bytes");
    for (room = table.length - 2; room < table.length + 2; room++) {
        struct succoryvise_answer answer = make("book 1", tower, text, room, &made);
        int fits = room >= table.length;

        expect("book 1", answer, fits ? SUCCORYVISE_DONE : SUCCORYVISE_OUTPUT, 0, 0);
        count(!fits || same(made, table), "book 1", "its table");
        free(made.at);
    }
    good_table("table 1", tower, text, table);

    outside = table_1_with(target_at(ROWS_1, 0), ROWS_1);
    judge("target row = rows", tower, text, outside, SUCCORYVISE_LAYOUT, 0, 0);
    expect("target row = rows", follow("target row = rows", outside, 0, 0), SUCCORYVISE_LAYOUT, 0, 0);
    expect("target row = rows", read_log("target row = rows", tower, outside, none), SUCCORYVISE_LAYOUT, 0,
           0);
    free(outside.at);
    bad_table("row 0 of state 1", table_1_with(state_at(0), 1), 0, SUCCORYVISE_START);
    bad_table("action 0 for 1", table_1_with(action_at(ROWS_1, 2), 0), 1, SUCCORYVISE_WITHHELD);
    bad_table("target row 1 for 4", table_1_with(target_at(ROWS_1, 3), 1), 2, SUCCORYVISE_WRONG_STEP);
    bad_table("no step", table_of(&stopped, 1), 0, SUCCORYVISE_STOPPED);
    expect("book 5", make("book 5", tower, none, action_at(3, 4), &made), SUCCORYVISE_DONE, 0, 0);
    broken_table(made, book_1, "\0\1\0\1", 4, 1, 0);
    broken_table(made, "start F\n", "\0", 1, 0, 0);
    broken_table(made, "always T\nalways !p1\nalways !p2\n", "\0\1", 2, 1, 1);
    broken_table(made, "always !p2 | E 1 p1\n", "\2\3\0", 3, 0, 1);
    free(made.at);

    /* The player's key in place of the clock's train: rows 1 and 2 wait for the player alone. */
    tower.at[11] = tower.at[15] = 0;
    expect("the player alone", make("the player alone", tower, none, SUCCORYVISE_TABLE_MOST, NULL),
           SUCCORYVISE_NO_TABLE, 0, 0);
    judge("the player alone", tower, text, table, SUCCORYVISE_NOT_GOOD, 1, SUCCORYVISE_STOPPED);

    expect("row 5 of 5", follow("row 5 of 5", table, 5, 0), SUCCORYVISE_OUTSIDE, 0, 0);
    expect("action 4 of 4", follow("action 4 of 4", table, 0, 4), SUCCORYVISE_OUTSIDE, 0, 0);
    expect("largest row and action", follow("largest row and action", table, SIZE_MAX, SIZE_MAX),
           SUCCORYVISE_OUTSIDE, 0, 0);
    expect("action 0 in row 3", follow("action 0 in row 3", table, 3, 0), SUCCORYVISE_NOT_ALLOWED, 0, 0);
    expect("action 2 in row 3", follow("action 2 in row 3", table, 3, 2), SUCCORYVISE_DONE, 0, 0);
    count(follow("action 2 in row 3", table, 3, 2).first == 2, "action 2 in row 3", "row 2");

    free(tower.at);
    free(text.at);
    free(none.at);
    free(never.at);
    free(table.at);
}

/* An area of length 0, and one that is a byte too short, whichever it is. */
static void areas(void)
{
    struct bytes tower = copy_of(small_tower, sizeof small_tower), text = text_of(book_1);
    struct bytes table = table_1();
    size_t i;

    for (i = 0; i < 2 * AREAS; i++) {
        int short_one = (int)(i / 2);

        lent[short_one] = i % 2 == 0 ? 0 : least[short_one] - 1;
        expect("short area", make("short area", tower, text, table.length, NULL), SUCCORYVISE_AREA, 0, 0);
        if (short_one < CHECKER_AREAS)
            judge("short area", tower, text, table, SUCCORYVISE_AREA, 0, 0);
        if (short_one < 1)
            expect("short area", read_book("short area", 17, text), SUCCORYVISE_AREA, 0, 0);
        lent[short_one] = least[short_one];
    }
    free(tower.at);
    free(text.at);
    free(table.at);
}

/* A log of 70,000 lines that fits and ends in row 4, and this behind it. */
static struct bytes long_log(const char *end)
{
    struct bytes most = block(70000 * strlen("70099 0\n") + strlen(end) + 1), log;
    char *at = (char *)most.at;
    unsigned i;

    for (i = 0; i < 70000; i++)
        at += sprintf(at, "%u %u\n", 100 + i, i % 4);
    at += sprintf(at, "%s", end);
    log = copy_of(most.at, (size_t)(at - (char *)most.at));
    free(most.at);
    return log;
}

static void logs(void)
{
    static const struct {
        const char *text;
        size_t first, second;
    } good[] = {
        { "", SUCCORYVISE_FITS, 0 },
        { "7 0\n8 1\n9 2\n10 3\n", SUCCORYVISE_FITS, 4 },
        { "0000000007 00\n08 01\n", SUCCORYVISE_FITS, 3 },
        { "4294967294 0\n4294967295 1\n", SUCCORYVISE_FITS, 3 },
        { "7 1\n", SUCCORYVISE_FAILS, 0 },
        { "7 4\n", SUCCORYVISE_FAILS, 0 },
        { "7 99\n", SUCCORYVISE_FAILS, 0 },
        { "7 0\n9 1\n10 9\n", SUCCORYVISE_FAILS, 1 },
        { "4294967295 0\n0 1\n", SUCCORYVISE_FAILS, 1 },
    };
    static const struct {
        const char *text;
        size_t line;
    } bad[] = {
        { "\n", 0 },
        { "7", 0 },
        { "7 ", 0 },
        { "7 0", 0 },
        { "7 0\n8 01", 1 },
        { "7 0\n\n8 1\n", 1 },
        { "7 000\n", 0 },
        { "00000000007 0\n", 0 },
        { "4294967296 0\n", 0 },
        { "7 9\n8 1\nx\n", 2 },
    };
    size_t i;

    for (i = 0; i < sizeof good / sizeof *good; i++)
        good_log(good[i].text, text_of(good[i].text), good[i].first, good[i].second);
    for (i = 0; i < sizeof bad / sizeof *bad; i++)
        bad_log(bad[i].text, text_of(bad[i].text), bad[i].line);
    good_log("70,000 lines", long_log(""), SUCCORYVISE_FITS, 4);
    good_log("70,000 lines, and one late", long_log("70101 0\n"), SUCCORYVISE_FAILS, 70000);
    bad_log("70,000 lines, and one not ended", long_log("70100 0"), 70000);
}

int main(void)
{
    size_t more;
    int i;

    /* Areas of just the length that they need and longer ones, with and without contents. */
    for (more = 0; more < 2; more++)
        for (filled = 0; filled < 2; filled++) {
            for (i = 0; i < AREAS; i++)
                lent[i] = least[i] + 77 * more;
            towers();
            books();
            pairs();
            alternatives();
            tables();
            if (more == 0)
                areas();
        }
    logs();
    for (i = 0; i <= LAST; i++)
        count(came[i], "all numbers", "one has not come");
    printf("refusals: %d right, %d wrong\n", right, wrong);
    return wrong != 0;
}
