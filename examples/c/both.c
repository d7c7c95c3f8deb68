/*
 * Says how large a schedule is, compiles it, says how long its table is and how
 * many comparisons compiling made, runs it by the rules and by its table over a
 * list of events, from its own initial values and modes, and compares the two
 * runs. Where an event faults, it says which and on which side.
 * both SCHEDULE EVENTS
 * both SCHEDULE SEED COUNT: the events are COUNT practice events from SEED
 */
#include "zimtleiter.h"

#include <errno.h>
#include <stdio.h>
#include <stdlib.h>
#include <string.h>

/* A file's bytes. */
struct bytes {
    uint8_t *at;
    size_t length;
};

/* What a run returned. */
struct run {
    uint8_t refusal;
    uint64_t taken;
    uint64_t turned_away;
    uint64_t faulted;
    struct bytes records;
};

/* Never null, not even for no bytes. */
static uint8_t *room_for(size_t n)
{
    uint8_t *p = calloc(n + 1, 1);
    if (p == NULL) {
        fputs("both: no memory\n", stderr);
        exit(2);
    }
    return p;
}

/* At most 16 MiB of a file. */
static struct bytes read_file(const char *name)
{
    const size_t most = (size_t)1 << 24;
    struct bytes b = {room_for(most), 0};
    FILE *f = fopen(name, "rb");
    if (f == NULL) {
        perror(name);
        exit(2);
    }
    b.length = fread(b.at, 1, most, f);
    fclose(f);
    return b;
}

static size_t two(const uint8_t *p)
{
    return (size_t)p[0] * 256 + p[1];
}

/*
 * The initial values and modes of a schedule that zimtleiter_read_schedule
 * accepted: its sections stand where their lengths say.
 */
static struct bytes initial_start(const uint8_t *file)
{
    const uint8_t *variables = file + 5;
    const uint8_t *equations = variables + two(file + 3) + 2;
    const uint8_t *record = equations + 1;
    struct bytes s = {room_for(32 * 4 + 16), 0};
    for (int i = 0; i < variables[0]; i++) {
        memcpy(s.at + s.length, variables + 1 + 12 * i + 8, 4);
        s.length += 4;
    }
    for (int i = 0; i < equations[0]; i++) {
        if (record[2] == 2)
            s.at[s.length++] = record[3];
        record += 2 + two(record);
    }
    return s;
}

static void refused(const char *call, uint8_t number)
{
    printf("%s: refused, %u\n", call, number);
    exit(1);
}

static struct run print_run(const char *name, struct run r)
{
    if (r.refusal != 0)
        refused(name, r.refusal);
    printf("%s: %llu taken, %llu turned away, %llu faulted\n", name, (unsigned long long)r.taken,
           (unsigned long long)r.turned_away, (unsigned long long)r.faulted);
    return r;
}

/* Which event faulted, if one did, and on which side of its range the result fell. */
static void print_fault(struct run r, size_t size)
{
    for (size_t i = 0; i + size <= r.records.length; i += size) {
        uint8_t answer = r.records.at[i];
        if (answer == ZIMTLEITER_ABOVE || answer == ZIMTLEITER_BELOW) {
            printf("event %zu of %zu faulted: %s (%u)\n", i / size + 1, r.records.length / size,
                   answer == ZIMTLEITER_ABOVE ? "too high" : "too low", answer);
            return;
        }
    }
}

static struct run by_rules(struct bytes file, struct bytes start, struct bytes events, size_t room)
{
    struct run r = {0, 0, 0, 0, {room_for(room), room}};
    r.refusal = zimtleiter_rule_run(file.at, file.length, start.at, start.length, events.at, events.length,
                                    r.records.at, room, &r.taken, &r.turned_away, &r.faulted);
    return print_run("by the rules", r);
}

static struct run by_table(struct bytes table, struct bytes start, struct bytes events, size_t room)
{
    struct run r = {0, 0, 0, 0, {room_for(room), room}};
    r.refusal = zimtleiter_table_run(table.at, table.length, start.at, start.length, events.at, events.length,
                                     r.records.at, room, &r.taken, &r.turned_away, &r.faulted);
    return print_run("by the table", r);
}

/* What the schedule's table will have. */
static void print_size(struct bytes file)
{
    uint64_t locations, entries;
    uint8_t n = zimtleiter_size(file.at, file.length, &locations, &entries);
    if (n != 0)
        refused("the size", n);
    if (locations > 1024)
        puts("the schedule: over 1,024 locations");
    else
        printf("the schedule: %llu locations, %llu entries\n", (unsigned long long)locations, (unsigned long long)entries);
}

static struct bytes compiled(struct bytes file)
{
    struct bytes t = {room_for(ZIMTLEITER_TABLE_ROOM), 0};
    uint64_t length, comparisons;
    uint8_t n = zimtleiter_compile(file.at, file.length, t.at, ZIMTLEITER_TABLE_ROOM, &length, &comparisons);
    if (n != 0)
        refused("compiling", n);
    t.length = length;
    n = zimtleiter_read_table(t.at, t.length);
    if (n != 0)
        refused("reading the table", n);
    printf("compiled: a table of %zu bytes; comparisons: %llu\n", t.length, (unsigned long long)comparisons);
    return t;
}

static int same(struct run a, struct run b)
{
    return a.taken == b.taken && a.turned_away == b.turned_away && a.faulted == b.faulted &&
           memcmp(a.records.at, b.records.at, a.records.length) == 0;
}

static void usage(void)
{
    fputs("both SCHEDULE EVENTS, or both SCHEDULE SEED COUNT (a seed of 32 bits)\n", stderr);
    exit(2);
}

/* A decimal number up to a limit, and nothing else. */
static uint64_t number(const char *word, uint64_t most)
{
    char *end;
    if (*word < '0' || *word > '9')
        usage();
    errno = 0;
    unsigned long long n = strtoull(word, &end, 10);
    if (errno != 0 || *end != 0 || n > most)
        usage();
    return n;
}

/* The events of two words, a seed and a count. */
static struct bytes practice_events(const char *seed, const char *count)
{
    uint32_t from = (uint32_t)number(seed, UINT32_MAX);
    uint64_t many = number(count, UINT64_MAX);
    struct bytes e = {room_for(ZIMTLEITER_PRACTICE_ROOM), 0};
    uint64_t length;
    uint8_t n = zimtleiter_practice(from, many, e.at, ZIMTLEITER_PRACTICE_ROOM, &length);
    if (n != 0)
        refused("practice events", n);
    e.length = length;
    return e;
}

int main(int argc, char **argv)
{
    if (argc != 3 && argc != 4)
        usage();
    struct bytes file = read_file(argv[1]);
    struct bytes events = argc == 3 ? read_file(argv[2]) : practice_events(argv[2], argv[3]);
    uint8_t n = zimtleiter_read_schedule(file.at, file.length);
    if (n != 0)
        refused("reading the schedule", n);
    struct bytes start = initial_start(file.at);
    print_size(file);
    struct bytes table = compiled(file);
    size_t size = 9 + start.length;
    size_t room = events.length / 3 * size;
    struct run a = by_rules(file, start, events, room);
    struct run b = by_table(table, start, events, room);
    print_fault(a, size);
    int agree = same(a, b);
    printf("%zu records of %zu bytes: %s\n", events.length / 3, size, agree ? "the same" : "different");
    free(file.at);
    free(events.at);
    free(start.at);
    free(table.at);
    free(a.records.at);
    free(b.records.at);
    return agree ? 0 : 1;
}
