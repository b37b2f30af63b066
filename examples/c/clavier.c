/* A clavier in small: reads a tower file and a rule book, makes the table, prints its listing, checks
 * it, and plays a performance of the actions that follow. From the repository's folder, once
 * `tools/build archives` has made the archive:
 *
 *     mkdir -p build
 *     cc -std=c99 -Iinclude examples/c/clavier.c target/staticlib/libsuccoryvise.a -o build/clavier
 *     build/clavier examples/small-tower/tower.bin examples/small-tower/book-1.txt 0 1 0 2 3 4
 */
#include "succoryvise.h"

#include <stdio.h>
#include <stdlib.h>

/* A file is read up to one byte more than it may have, so that one too long is refused as such. */
static uint8_t tower[SUCCORYVISE_TOWER_MOST + 1];
static uint8_t book[SUCCORYVISE_BOOK_MOST + 1];
static uint8_t table[SUCCORYVISE_TABLE_MOST];

/* The work areas. The checker uses the first four of them again. */
static uint8_t nodes[SUCCORYVISE_NODES_LENGTH];
static uint8_t pairs[SUCCORYVISE_PAIRS_LENGTH];
static uint8_t index_area[SUCCORYVISE_INDEX_LENGTH];
static uint8_t graph[SUCCORYVISE_GRAPH_LENGTH];
static uint8_t sets[SUCCORYVISE_SETS_LENGTH];
static uint8_t room[SUCCORYVISE_ROOM_LENGTH];
static uint8_t flags[SUCCORYVISE_FLAGS_LENGTH];
static uint8_t classes[SUCCORYVISE_CLASSES_LENGTH];

/* Reads a file and returns how many bytes it has, at most 'room'. Ends the program where it cannot. */
static size_t read_file(const char *name, uint8_t *bytes, size_t room)
{
    FILE *file = fopen(name, "rb");
    size_t length = 0;
    int failed = file == NULL;

    if (!failed) {
        length = fread(bytes, 1, room, file);
        failed = ferror(file);
        fclose(file);
    }
    if (failed) {
        perror(name);
        exit(2);
    }
    return length;
}

/* Whether the call was refused; if so it is told: number, place and the letter of a 14. */
static int refused(struct succoryvise_answer answer)
{
    if (answer.number == SUCCORYVISE_DONE)
        return 0;
    printf("refused %u %zu", (unsigned)answer.number, answer.place);
    if (answer.number == SUCCORYVISE_NOT_GOOD)
        printf(" %c", answer.letter);
    printf("\n");
    return 1;
}

/* A number in digits. Ends the program where it is none. */
static size_t number_of(const char *word)
{
    char *end;
    unsigned long number = strtoul(word, &end, 10);

    if (*word < '0' || *word > '9' || *end != 0) {
        fprintf(stderr, "%s: no number\n", word);
        exit(2);
    }
    return number;
}

/* Two bytes of the table, the low one first. */
static unsigned number_at(size_t at)
{
    return table[at] + 256u * table[at + 1];
}

/* The counts; then row, state, and each action with its target row. */
static void print_listing(void)
{
    unsigned rows = number_at(0);
    unsigned row, step;

    printf("rows %u steps %u\n", rows, number_at(2));
    for (row = 0; row < rows; row++) {
        size_t at = 12 + 4 * (size_t)row;
        unsigned first = number_at(at + 2);

        printf("%u %u", row, (unsigned)table[at]);
        for (step = first; step < first + table[at + 1]; step++) {
            size_t step_at = 12 + 4 * (size_t)rows + 3 * (size_t)step;

            printf(" %u>%u", (unsigned)table[step_at], number_at(step_at + 1));
        }
        printf("\n");
    }
}

int main(int count, char **words)
{
    struct succoryvise_answer answer;
    size_t tower_length, book_length, table_length;
    size_t row = 0;
    int i;

    if (count < 3) {
        fprintf(stderr, "usage: clavier TOWER BOOK [ACTION ..]\n");
        return 2;
    }
    tower_length = read_file(words[1], tower, sizeof tower);
    book_length = read_file(words[2], book, sizeof book);

    answer = succoryvise_make(tower, tower_length, book, book_length, table, sizeof table,
                              nodes, sizeof nodes, pairs, sizeof pairs, index_area, sizeof index_area,
                              graph, sizeof graph, sets, sizeof sets, room, sizeof room,
                              flags, sizeof flags, classes, sizeof classes);
    if (refused(answer))
        return 1;
    table_length = answer.first;
    print_listing();

    /* A table is checked before it is used, whoever made it. */
    answer = succoryvise_check(tower, tower_length, book, book_length, table, table_length,
                               nodes, sizeof nodes, pairs, sizeof pairs, index_area, sizeof index_area,
                               graph, sizeof graph, sets, sizeof sets, room, sizeof room);
    if (refused(answer))
        return 1;
    printf("good\n");

    /* The performance begins in row 0. An action that is not allowed leaves the row as it was. */
    for (i = 3; i < count; i++) {
        size_t action = number_of(words[i]);

        printf("action %zu: ", action);
        answer = succoryvise_follow(table, table_length, row, action);
        if (!refused(answer)) {
            row = answer.first;
            printf("row %zu\n", row);
        }
    }
    return 0;
}
