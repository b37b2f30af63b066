/* The header, alone and twice, in C and in C++: every function has the type that it should have and is
 * found in the archive, and the struct lies in memory as layout.txt says. */
#include "succoryvise.h"
#include "succoryvise.h"

#include <stdio.h>

typedef struct succoryvise_answer answer;

static answer (*const read_book)(size_t, const uint8_t *, size_t, uint8_t *, size_t) =
    succoryvise_read_book;
static answer (*const make)(const uint8_t *, size_t, const uint8_t *, size_t, uint8_t *, size_t,
                            uint8_t *, size_t, uint8_t *, size_t, uint8_t *, size_t, uint8_t *, size_t,
                            uint8_t *, size_t, uint8_t *, size_t, uint8_t *, size_t, uint8_t *, size_t) =
    succoryvise_make;
static answer (*const check)(const uint8_t *, size_t, const uint8_t *, size_t, const uint8_t *, size_t,
                             uint8_t *, size_t, uint8_t *, size_t, uint8_t *, size_t, uint8_t *, size_t,
                             uint8_t *, size_t, uint8_t *, size_t) = succoryvise_check;
static answer (*const follow)(const uint8_t *, size_t, size_t, size_t) = succoryvise_follow;
static answer (*const read_log)(const uint8_t *, size_t, const uint8_t *, size_t, const uint8_t *,
                                size_t) = succoryvise_read_log;
static answer (*const why)(const uint8_t *, size_t, const uint8_t *, size_t, const uint8_t *, size_t,
                           uint8_t *, size_t, uint8_t *, size_t, uint8_t *, size_t, uint8_t *, size_t,
                           uint8_t *, size_t, uint8_t *, size_t, uint8_t *, size_t) = succoryvise_why;

static void print_field(const char *name, size_t at, size_t size)
{
    printf("%s at %lu, %lu bytes\n", name, (unsigned long)at, (unsigned long)size);
}

#define FIELD(name) print_field(#name, offsetof(answer, name), sizeof((answer *)0)->name)

int main(void)
{
    uint8_t none[1] = { 0 };

    FIELD(number);
    FIELD(letter);
    FIELD(place);
    FIELD(first);
    FIELD(second);
    FIELD(third);
    printf("whole, %lu bytes\n", (unsigned long)sizeof(answer));

    /* Nothing is lent: 15 from those that borrow. No bytes are no table: 13; and no tower: 1. */
    return read_book(0, none, 0, none, 0).number != SUCCORYVISE_AREA
        || make(none, 0, none, 0, none, 0, none, 0, none, 0, none, 0, none, 0, none, 0, none, 0, none, 0,
                none, 0).number
            != SUCCORYVISE_AREA
        || check(none, 0, none, 0, none, 0, none, 0, none, 0, none, 0, none, 0, none, 0, none, 0).number
            != SUCCORYVISE_AREA
        || follow(none, 0, 0, 0).number != SUCCORYVISE_LAYOUT
        || read_log(none, 0, none, 0, none, 0).number != SUCCORYVISE_TOWER_SIZE
        || why(none, 0, none, 0, none, 0, none, 0, none, 0, none, 0, none, 0, none, 0, none, 0, none, 0)
                   .number
            != SUCCORYVISE_AREA
        || succoryvise_version() != SUCCORYVISE_VERSION;
}
