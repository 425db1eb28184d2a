/*
 * A small monitor: it gives its memory map to the page store, deals pages to two guests, and restarts one of them.
 * What it prints is in monitor.out. Exit status 0 if everything went as expected, 1 if not.
 */
#include <inttypes.h>
#include <stdbool.h>
#include <stdio.h>

#include "page_store.h"

#define LENGTH(list) (sizeof(list) / sizeof((list)[0]))

/* ---- What the monitor keeps: the pool, the state, and which guest has which pages. */

/* The words that the store is lent at every call, and how many of them. Nobody else writes them. */
static uint32_t pool[4096];
static size_t words;

/* The newest state. Every call gets it, and every answer's state takes its place. */
static page_store_state store;

/* A region of the memory map. */
typedef struct region {
    const char *name;
    uint64_t start; /* its first byte */
    uint64_t end;   /* the first byte behind it */
} region;

static const region memory_map[] = {
    {"bank 0", 0x80000000, 0x80100000},
    {"bank 1", 0x80100000, 0x80400000}, /* touches bank 0: to the store they are one piece of memory */
    {"sram", 0x90000200, 0x90008000},   /* begins inside a page: the store refuses it as it is */
};

/* A page that a guest has. The size code is kept with the base: a release needs both. */
typedef struct page {
    uint64_t base;
    uint64_t code;
} page;

#define MOST_PAGES 8

typedef struct guest {
    int number;
    size_t count;
    page pages[MOST_PAGES];
} guest;

/* ---- What is printed. */

/* The refusals in words, by number. */
static const char *const refusals[] = {
    "done",                                                  /* PAGE_STORE_DONE */
    "there is no such size code",                            /* PAGE_STORE_BAD_CODE */
    "not aligned, or the start is not below the end",        /* PAGE_STORE_BAD_ALIGNMENT */
    "it ends above 2^47",                                    /* PAGE_STORE_PAST_THE_END */
    "a part of it is seeded already",                        /* PAGE_STORE_OVERLAP */
    "there are 8 regions already",                           /* PAGE_STORE_REGIONS_FULL */
    "a part of it was never seeded",                         /* PAGE_STORE_NOT_SEEDED */
    "a part of it is free already",                          /* PAGE_STORE_ALREADY_FREE */
    "no page of that size is free",                          /* PAGE_STORE_OUT_OF_PAGES */
    "the pool has too few words left",                       /* PAGE_STORE_OUT_OF_ROOM */
    "state and pool are damaged, or do not belong together", /* PAGE_STORE_UNSOUND */
    "the pool has no words, or more than the limit",         /* PAGE_STORE_BAD_POOL */
};

static const char *const sizes[] = {"no size", "4 KiB", "16 KiB", "2 MiB", "1 GiB", "512 GiB", "128 TiB"};

/* Prints what was asked and what became of it. */
static void say(const char *what, uint64_t refusal)
{
    if (refusal == PAGE_STORE_DONE)
        printf("%s: done\n", what);
    else if (refusal < LENGTH(refusals))
        printf("%s: refused with %" PRIu64 ": %s\n", what, refusal, refusals[refusal]);
    else
        printf("%s: refused with %" PRIu64 ", a number that this program does not know\n", what, refusal);
}

static const char *size_name(uint64_t code)
{
    return code < LENGTH(sizes) ? sizes[code] : sizes[0];
}

/* The bytes of a guest's pages. */
static uint64_t bytes_of(const guest *g)
{
    static const uint64_t bytes[] = {0, 4096, 16384, 2097152, 1073741824, 549755813888, 140737488355328};
    uint64_t sum = 0;
    size_t i;

    for (i = 0; i < g->count; i++)
        sum += bytes[g->pages[i].code]; /* a page that was dealt has a code of the table */
    return sum;
}

/* Prints the store's report. What is not free is what the guests' lists have: if not, the monitor has lost count. */
static bool report(const guest *one, const guest *two)
{
    page_store_reported told = page_store_report(store, pool, words);

    if (told.refusal != PAGE_STORE_DONE) {
        say("report", told.refusal);
        return false;
    }
    printf("report: %" PRIu64 " bytes, %" PRIu64 " free, largest free page %s, %" PRIu64 " pool words used\n", told.seeded, told.free,
           size_name(told.largest), told.used);
    return told.seeded - told.free == bytes_of(one) + bytes_of(two);
}

/* ---- Seeding. */

/* The whole pages of 4 KiB in a region; it starts where it ends if there are none. */
static region whole_pages(const region *r)
{
    const uint64_t bytes = 4096;
    region inner = *r;

    inner.start = (r->start + bytes - 1) / bytes * bytes;
    inner.end = r->end / bytes * bytes;
    if (inner.end < inner.start)
        inner.end = inner.start;
    return inner;
}

/* Asks how many pool words suffice for the whole memory map for ever, and lends so many. There is no store yet: of the state
 * that is passed only the regions are looked at. */
static bool choose_words(void)
{
    static page_store_state planned;
    page_store_room room = {0, 1};
    size_t i, regions = 0;

    for (i = 0; i < LENGTH(memory_map); i++) {
        region inner = whole_pages(&memory_map[i]);

        if (inner.start == inner.end)
            continue;
        room = page_store_room_for(planned, inner.start, inner.end);
        if (room.refusal != PAGE_STORE_DONE) {
            say("room", room.refusal);
            return false;
        }
        planned.starts[regions] = inner.start;
        planned.ends[regions] = inner.end;
        regions++;
    }
    printf("room: %" PRIu64 " pool words suffice, %zu are there\n", room.words, LENGTH(pool));
    if (room.words > LENGTH(pool))
        return false;
    words = (size_t)room.words;
    return true;
}

/* Gives the memory from start to end to the store, and answers the refusal number. */
static uint64_t seed(const char *name, uint64_t start, uint64_t end)
{
    page_store_done done = page_store_seed(store, pool, words, start, end);

    store = done.state;
    printf("seed %" PRIx64 " to %" PRIx64 ", ", start, end);
    say(name, done.refusal);
    return done.refusal;
}

/* Seeds a region; where it is not aligned, the whole pages of it. */
static bool seed_region(const region *r)
{
    uint64_t refusal = seed(r->name, r->start, r->end);
    region inner = whole_pages(r);

    if (refusal == PAGE_STORE_BAD_ALIGNMENT && inner.start < inner.end)
        refusal = seed(inner.name, inner.start, inner.end);
    return refusal == PAGE_STORE_DONE || inner.start == inner.end;
}

/* ---- Dealing. */

/* What `deal` answers where the guest's list is full; no refusal of the store's. */
#define LIST_FULL UINT64_MAX

/* Deals a page of a size to a guest and notes it in the guest's list. Answers the refusal number, or LIST_FULL. */
static uint64_t deal(guest *g, uint64_t code)
{
    page_store_dealt dealt;

    if (g->count == MOST_PAGES) { /* asked before the page is taken: it could not be noted */
        printf("guest %d: its list of pages is full\n", g->number);
        return LIST_FULL;
    }
    dealt = page_store_acquire(store, pool, words, code);
    store = dealt.state;
    printf("guest %d, %s, ", g->number, size_name(code));
    if (dealt.refusal != PAGE_STORE_DONE) { /* ask the refusal, not the base: a page can lie at 0 */
        say("acquire", dealt.refusal);
        return dealt.refusal;
    }
    printf("acquire: %" PRIx64 "\n", dealt.base);
    g->pages[g->count].base = dealt.base;
    g->pages[g->count].code = code;
    g->count++;
    return PAGE_STORE_DONE;
}

/* Deals pages of these sizes, in order. */
static bool deal_all(guest *g, const uint64_t *codes, size_t count)
{
    size_t i;

    for (i = 0; i < count; i++)
        if (deal(g, codes[i]) != PAGE_STORE_DONE)
            return false;
    return true;
}

/* Gives back all pages of a guest that stops. Each leaves the list as it is given back, so that none is given back twice.
 * A monitor clears the page first: the store touches no memory, and the next guest must not read what this one left. */
static bool give_back_all(guest *g)
{
    while (g->count > 0) {
        page last = g->pages[g->count - 1];
        page_store_done done = page_store_release(store, pool, words, last.base, last.code);

        store = done.state;
        printf("guest %d, %s at %" PRIx64 ", ", g->number, size_name(last.code), last.base);
        say("release", done.refusal);
        if (done.refusal != PAGE_STORE_DONE)
            return false;
        g->count--;
    }
    return true;
}

/* ---- The monitor's day. */

/* A new store with the memory map in it. */
static bool start_store(void)
{
    page_store_done made;
    size_t i;

    if (!choose_words())
        return false;
    made = page_store_fresh(pool, words);
    store = made.state;
    say("fresh", made.refusal);
    if (made.refusal != PAGE_STORE_DONE)
        return false;
    for (i = 0; i < LENGTH(memory_map); i++)
        if (!seed_region(&memory_map[i]))
            return false;
    return true;
}

static bool start_guests(guest *one, guest *two)
{
    static const uint64_t ones[] = {PAGE_STORE_4K, PAGE_STORE_16K, PAGE_STORE_2M};
    static const uint64_t twos[] = {PAGE_STORE_4K, PAGE_STORE_16K, PAGE_STORE_4K};

    if (!deal_all(one, ones, LENGTH(ones)) || !deal_all(two, twos, LENGTH(twos)))
        return false;
    /* The other page of 2 MiB is split: this one cannot be had. A guest goes on with what it has. */
    return deal(two, PAGE_STORE_2M) == PAGE_STORE_OUT_OF_PAGES;
}

static bool restart_guest(guest *one)
{
    static const uint64_t ones[] = {PAGE_STORE_16K, PAGE_STORE_2M, PAGE_STORE_4K, PAGE_STORE_4K};

    return give_back_all(one) && deal_all(one, ones, LENGTH(ones));
}

static bool check_store(void)
{
    uint64_t sound = page_store_check(store, pool, words);

    printf("check: %s\n", sound == 1 ? "sound" : "NOT SOUND");
    return sound == 1;
}

int main(void)
{
    static guest one, two;

    one.number = 1;
    two.number = 2;
    if (start_store() && report(&one, &two) && start_guests(&one, &two) && report(&one, &two) && restart_guest(&one) &&
        report(&one, &two) && check_store())
        return 0;
    printf("the monitor stops: this was not expected\n");
    return 1;
}
