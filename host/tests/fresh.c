/*
 * Tables set fresh from C: each player's call, for every M and for the least and the largest N, on columns of any content; and that what is refused by 7 is left as it
 * came. Every column lent stands in front of bytes that are not lent.
 */
#include "cases.h"

#include <stdlib.h>

enum { COLUMNS = 6, MOST_NUMBERS = 2 * 1024 + 2, ROOM = 8 * MOST_NUMBERS, CONTENT = 0xee };

/* A column of a player's tables: the bytes of a number, how many of them N cells have, and the fresh one. A record has one number, whatever N is. */
typedef struct {
    size_t width, in_a_cell;
    uint64_t fresh;
} column;

typedef uint32_t set_fresh(uint32_t acceptors, uint32_t instances, const size_t *lengths);

typedef struct {
    const char *name;
    set_fresh *call;
    int count;
    column columns[COLUMNS];
} player;

/* What is lent, column by column. */
static void *lent[COLUMNS];

static uint32_t set_primary(uint32_t acceptors, uint32_t instances, const size_t *lengths)
{
    return myrthakel_primary_fresh(acceptors, instances, lent[0], lengths[0]);
}

static uint32_t set_acceptor(uint32_t acceptors, uint32_t instances, const size_t *lengths)
{
    return myrthakel_acceptor_fresh(acceptors, instances, lent[0], lengths[0], lent[1], lengths[1], lent[2], lengths[2]);
}

static uint32_t set_backup(uint32_t acceptors, uint32_t instances, const size_t *lengths)
{
    return myrthakel_backup_fresh(acceptors, instances, lent[0], lengths[0], lent[1], lengths[1], lent[2], lengths[2], lent[3], lengths[3],
                                  lent[4], lengths[4], lent[5], lengths[5]);
}

static uint32_t set_learner(uint32_t acceptors, uint32_t instances, const size_t *lengths)
{
    return myrthakel_learner_fresh(acceptors, instances, lent[0], lengths[0], lent[1], lengths[1], lent[2], lengths[2]);
}

/* The paper's fresh cells, field by field. */
static const player players[] = {
    {"the primary", set_primary, 1, {{4, 0, 0}}},
    {"an acceptor", set_acceptor, 3, {{4, 1, 0}, {4, 1, 4294967295}, {8, 2, 0}}},
    {"a backup", set_backup, 6, {{4, 1, 0}, {1, 1, 0}, {1, 1, 0}, {4, 1, 4294967295}, {8, 2, 0}, {8, 2, 0}}},
    {"a learner", set_learner, 3, {{4, 1, 4294967295}, {1, 1, 0}, {8, 2, 0}}},
};

static size_t numbers_for(const column *of, size_t instances)
{
    return of->in_a_cell == 0 ? 1 : of->in_a_cell * instances;
}

static void fill_lengths(const player *p, size_t instances, size_t *lengths)
{
    for (int i = 0; i < p->count; i++)
        lengths[i] = numbers_for(&p->columns[i], instances);
}

static uint64_t number_at(const uint8_t *bytes, size_t width)
{
    uint64_t wide;
    uint32_t narrow;
    if (width == 1)
        return bytes[0];
    if (width == 4) {
        memcpy(&narrow, bytes, sizeof narrow);
        return narrow;
    }
    memcpy(&wide, bytes, sizeof wide);
    return wide;
}

/* The numbers of a column up to so many are fresh, and all behind them is as it came. */
static int is_fresh(const column *of, const uint8_t *bytes, size_t numbers)
{
    for (size_t i = 0; i < numbers; i++)
        if (number_at(bytes + i * of->width, of->width) != of->fresh)
            return 0;
    for (size_t i = numbers * of->width; i < ROOM; i++)
        if (bytes[i] != CONTENT)
            return 0;
    return 1;
}

static void lend(const player *p)
{
    for (int i = 0; i < p->count; i++)
        memset(lent[i], CONTENT, ROOM);
}

static void told_of(const player *p, int holds, const char *what, uint32_t acceptors, uint32_t instances)
{
    char row[160];
    snprintf(row, sizeof row, "%s, %s, M = %lu, N = %lu", p->name, what, (unsigned long)acceptors, (unsigned long)instances);
    expect(holds, row);
}

static void is_set(const player *p, uint32_t acceptors, uint32_t instances)
{
    size_t lengths[COLUMNS];
    fill_lengths(p, instances, lengths);
    lend(p);
    int holds = p->call(acceptors, instances, lengths) == MYRTHAKEL_DONE;
    for (int i = 0; i < p->count; i++)
        holds = holds && is_fresh(&p->columns[i], lent[i], lengths[i]);
    told_of(p, holds, "set fresh", acceptors, instances);
}

static void is_refused(const player *p, const char *what, uint32_t acceptors, uint32_t instances, const size_t *lengths)
{
    lend(p);
    int holds = p->call(acceptors, instances, lengths) == MYRTHAKEL_NOT_ALLOWED;
    for (int i = 0; i < p->count; i++)
        holds = holds && is_fresh(&p->columns[i], lent[i], 0);
    told_of(p, holds, what, acceptors, instances);
}

static void wrong_settings(const player *p)
{
    static const uint32_t wrong_acceptors[] = {0, 1, 2, 4, 6, 8, 9, 13, 259, 1024, 65539, UINT32_MAX};
    static const uint32_t wrong_instances[] = {0, 1025, UINT32_MAX};
    size_t lengths[COLUMNS];
    fill_lengths(p, N, lengths);
    for (size_t i = 0; i < sizeof wrong_acceptors / sizeof *wrong_acceptors; i++)
        is_refused(p, "another M", wrong_acceptors[i], N, lengths);
    is_refused(p, "M and N in each other's place", N, M, lengths);
    for (size_t i = 0; i < sizeof wrong_instances / sizeof *wrong_instances; i++) {
        is_refused(p, "another N", M, wrong_instances[i], lengths);
        if (wrong_instances[i] <= 1025) {
            fill_lengths(p, wrong_instances[i], lengths);
            is_refused(p, "another N, of columns for it", M, wrong_instances[i], lengths);
            fill_lengths(p, N, lengths);
        }
    }
}

/* One column is of another length, and all others are right. The last has N's in its low 32 bits, and is never touched. */
static void wrong_lengths(const player *p, uint32_t instances)
{
    for (int i = 0; i < p->count; i++) {
        size_t lengths[COLUMNS];
        fill_lengths(p, instances, lengths);
        size_t right = lengths[i];
        lengths[i] = right - 1;
        is_refused(p, "a column shorter by one", M, instances, lengths);
        lengths[i] = right + 1;
        is_refused(p, "a column longer by one", M, instances, lengths);
        lengths[i] = right + (size_t)UINT64_C(4294967296);
        is_refused(p, "a column longer by 4,294,967,296", M, instances, lengths);
    }
}

int main(void)
{
    static const uint32_t allowed_acceptors[] = {3, 5, 7}, allowed_instances[] = {1, 2, 8, 1023, 1024};
    for (int i = 0; i < COLUMNS; i++)
        if (!(lent[i] = malloc(ROOM)))
            return 1;
    for (size_t i = 0; i < sizeof players / sizeof *players; i++) {
        for (size_t m = 0; m < 3; m++)
            for (size_t n = 0; n < 5; n++)
                is_set(&players[i], allowed_acceptors[m], allowed_instances[n]);
        wrong_settings(&players[i]);
        wrong_lengths(&players[i], 1);
        wrong_lengths(&players[i], N);
        wrong_lengths(&players[i], 1024);
    }
    return told();
}
