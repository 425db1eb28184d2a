/*
 * Two accidents, replayed on the store: a page that is given back twice after a guest was restarted, and a pool that runs dry in the
 * middle of a split. Prints one line at the end; stops with file and line where something is not as it should be.
 */
#include "watched.h"

#define MOST_PAGES 32

typedef struct page {
    uint64_t base;
    uint64_t code;
} page;

/* A guest and the list of its pages. */
typedef struct guest {
    size_t count;
    page pages[MOST_PAGES];
} guest;

/* ---- The guests' lists. */

static uint64_t bytes_of(uint64_t code)
{
    return code == PAGE_STORE_4K ? BYTES_4K : code == PAGE_STORE_16K ? BYTES_16K : BYTES_2M;
}

/* Deals a page to a guest if there is one; answers the refusal number. */
static uint64_t deal(watched *w, guest *g, uint64_t code)
{
    page_store_dealt dealt = acquire(w, code);

    if (dealt.refusal != PAGE_STORE_DONE)
        return dealt.refusal;
    CHECK(g->count < MOST_PAGES);
    CHECK(dealt.base % bytes_of(code) == 0);
    g->pages[g->count].base = dealt.base;
    g->pages[g->count].code = code;
    g->count++;
    return PAGE_STORE_DONE;
}

/* Gives back every page of a guest and empties its list. */
static void restart(watched *w, guest *g)
{
    size_t i;

    for (i = 0; i < g->count; i++)
        CHECK(release(w, g->pages[i].base, g->pages[i].code) == PAGE_STORE_DONE);
    g->count = 0;
}

static bool apart(const page *one, const page *two)
{
    return one->base + bytes_of(one->code) <= two->base || two->base + bytes_of(two->code) <= one->base;
}

/* Whether all pages of both guests are pairwise disjoint, whatever their sizes. */
static bool all_apart(const guest *one, const guest *two)
{
    page all[2 * MOST_PAGES];
    size_t count = 0, i, j;

    for (i = 0; i < one->count; i++)
        all[count++] = one->pages[i];
    for (i = 0; i < two->count; i++)
        all[count++] = two->pages[i];
    for (i = 0; i < count; i++)
        for (j = i + 1; j < count; j++)
            if (!apart(&all[i], &all[j]))
                return false;
    return true;
}

static uint64_t bytes_held(const guest *g)
{
    uint64_t sum = 0;
    size_t i;

    for (i = 0; i < g->count; i++)
        sum += bytes_of(g->pages[i].code);
    return sum;
}

/* Whether this page, with this size, is in the guest's list. */
static bool has(const guest *g, const page *p)
{
    size_t i;

    for (i = 0; i < g->count; i++)
        if (g->pages[i].base == p->base && g->pages[i].code == p->code)
            return true;
    return false;
}

/* ---- The first accident: given back twice. */

/* Deals to both guests in turn until nothing is left; every page dealt is apart from all others. */
static void deal_everything(watched *w, guest *one, guest *two)
{
    CHECK(deal(w, one, PAGE_STORE_16K) == PAGE_STORE_DONE);
    CHECK(deal(w, two, PAGE_STORE_16K) == PAGE_STORE_DONE);
    CHECK(deal(w, one, PAGE_STORE_16K) == PAGE_STORE_OUT_OF_PAGES);
    CHECK(deal(w, one, PAGE_STORE_4K) == PAGE_STORE_DONE);
    CHECK(deal(w, two, PAGE_STORE_4K) == PAGE_STORE_DONE);
    CHECK(deal(w, one, PAGE_STORE_4K) == PAGE_STORE_DONE);
    CHECK(deal(w, two, PAGE_STORE_4K) == PAGE_STORE_OUT_OF_PAGES);
    CHECK(all_apart(one, two));
    CHECK(bytes_held(one) + bytes_held(two) == 4 * BYTES_16K);
    CHECK(report(w).free == 0);
}

/* Guest 1 is restarted, and a list of its pages that nobody emptied gives them back once more. */
static void a_page_is_given_back_twice(void)
{
    watched w = seeded(1418, AT, AT + 4 * BYTES_16K);
    guest one = {0, {{0, 0}}}, two = {0, {{0, 0}}}, stale;
    size_t i;

    CHECK(deal(&w, &one, PAGE_STORE_4K) == PAGE_STORE_DONE);
    CHECK(deal(&w, &one, PAGE_STORE_16K) == PAGE_STORE_DONE);
    CHECK(deal(&w, &two, PAGE_STORE_16K) == PAGE_STORE_DONE);
    CHECK(deal(&w, &one, PAGE_STORE_4K) == PAGE_STORE_DONE);
    CHECK(deal(&w, &two, PAGE_STORE_4K) == PAGE_STORE_DONE);
    CHECK(all_apart(&one, &two));
    stale = one;
    restart(&w, &one);
    CHECK(stale.count == 3);
    for (i = 0; i < stale.count; i++) /* each changes nothing: watched.h compares the state and every pool word */
        CHECK(release(&w, stale.pages[i].base, stale.pages[i].code) == PAGE_STORE_ALREADY_FREE);
    CHECK(report(&w).free == 4 * BYTES_16K - bytes_held(&two));
    CHECK(sound(&w));
    deal_everything(&w, &one, &two);
    CHECK(sound(&w));
    give_up(&w);
}

/* Only a part of the stale page was dealt on: the rest is free, so the store still sees the second release. */
static void a_part_was_dealt_on(void)
{
    watched w = seeded(1418, AT, AT + 2 * BYTES_16K);
    guest one = {0, {{0, 0}}}, two = {0, {{0, 0}}}, stale;

    CHECK(deal(&w, &one, PAGE_STORE_16K) == PAGE_STORE_DONE);
    stale = one;
    restart(&w, &one);
    CHECK(deal(&w, &two, PAGE_STORE_4K) == PAGE_STORE_DONE);
    CHECK(!apart(&stale.pages[0], &two.pages[0]));
    CHECK(release(&w, stale.pages[0].base, stale.pages[0].code) == PAGE_STORE_ALREADY_FREE);
    CHECK(deal(&w, &one, PAGE_STORE_4K) == PAGE_STORE_DONE);
    CHECK(all_apart(&one, &two));
    give_up(&w);
}

/* Guest 1 has a page, is restarted, and the page is dealt to guest 2; the stale list still has it. */
static watched dealt_on(guest *one, guest *two, guest *stale)
{
    watched w = seeded(1418, AT, AT + BYTES_16K);

    one->count = 0;
    two->count = 0;
    CHECK(deal(&w, one, PAGE_STORE_4K) == PAGE_STORE_DONE);
    *stale = *one;
    restart(&w, one);
    CHECK(deal(&w, two, PAGE_STORE_4K) == PAGE_STORE_DONE);
    CHECK(has(two, &stale->pages[0]));
    return w;
}

/*
 * Between the two releases the page is dealt to guest 2. What the store can know: which memory is seeded, free and held. The page IS held now,
 * so the second release is accepted. What it cannot know: who holds it. "Nothing tells whose page it is: that the caller was dealt it is the
 * caller's to know."
 * Said plainly: for a caller that keeps no books THE ACCIDENT IS STILL POSSIBLE in this form. The page that guest 2 uses is free, the next
 * acquire deals it again, and two guests have it. A ledger that knows each page's guest is not part of this library.
 */
static void another_guest_has_it_now(void)
{
    guest one, two, stale;
    watched w = dealt_on(&one, &two, &stale);

    CHECK(release(&w, stale.pages[0].base, stale.pages[0].code) == PAGE_STORE_DONE);
    CHECK(deal(&w, &one, PAGE_STORE_4K) == PAGE_STORE_DONE);
    CHECK(!all_apart(&one, &two)); /* both lists have the page */
    CHECK(sound(&w));              /* and the store, which knows no guests, is sound */
    give_up(&w);
}

/* The same with a book: a guest's page is given back only if the guest's own list has it, and leaves the list with that. */
static void the_book_stops_it(void)
{
    guest one, two, stale;
    watched w = dealt_on(&one, &two, &stale);

    CHECK(!has(&one, &stale.pages[0])); /* so the store is not asked */
    CHECK(deal(&w, &one, PAGE_STORE_4K) == PAGE_STORE_DONE);
    CHECK(all_apart(&one, &two));
    give_up(&w);
}

/* ---- The second accident: the pool runs dry. */

/*
 * 2 MiB at 2^31. The seed opens the three nodes above that page: the root, the first 512 GiB, the third GiB. With the root's own word these are
 * 1 + (1 + 256) + (1 + 512) + (1 + 512) = 1,284 words. An acquire of 4 KiB splits the page: it opens the 2 MiB, 1 + 128 words, and the
 * first 16 KiB in it, 1 + 4 words: 1,418.
 */
#define SEEDED_WORDS 1284
#define WORDS_OF_2M 129
#define WORDS_OF_16K 5
#define SPLIT_WORDS (SEEDED_WORDS + WORDS_OF_2M + WORDS_OF_16K)

/* A pool that is too short for the split, also where the 2 MiB could be opened and only the 16 KiB could not: nothing happens. */
static void too_short_for_the_split(size_t words)
{
    watched w = seeded(words, AT, AT + BYTES_2M);
    bool first_half = words >= SEEDED_WORDS + WORDS_OF_2M;

    CHECK(w.state.used == SEEDED_WORDS);
    CHECK(acquire_refusal(&w, PAGE_STORE_4K) == PAGE_STORE_OUT_OF_ROOM);
    CHECK(sound(&w));
    CHECK(report(&w).free == BYTES_2M);
    CHECK(report(&w).used == SEEDED_WORDS);
    CHECK(dealt_base(&w, PAGE_STORE_2M) == AT); /* needs no opening */
    CHECK(acquire_refusal(&w, PAGE_STORE_4K) == PAGE_STORE_OUT_OF_PAGES);
    CHECK(release(&w, AT, PAGE_STORE_2M) == PAGE_STORE_DONE);
    CHECK(acquire_refusal(&w, PAGE_STORE_4K) == PAGE_STORE_OUT_OF_ROOM);
    CHECK(acquire_refusal(&w, PAGE_STORE_16K) == (first_half ? PAGE_STORE_DONE : PAGE_STORE_OUT_OF_ROOM));
    CHECK(report(&w).free == (first_half ? BYTES_2M - BYTES_16K : BYTES_2M));
    CHECK(sound(&w));
    give_up(&w);
}

static void the_pool_runs_dry_in_a_split(void)
{
    watched w;
    size_t words;

    for (words = SEEDED_WORDS; words < SPLIT_WORDS; words++)
        too_short_for_the_split(words);

    w = seeded(SPLIT_WORDS, AT, AT + BYTES_2M); /* the first length that is enough */
    CHECK(dealt_base(&w, PAGE_STORE_4K) == AT);
    CHECK(w.state.used == SPLIT_WORDS);
    give_up(&w);

    w = lend(SEEDED_WORDS - 1); /* and one word less than the seed needs */
    CHECK(fresh(&w) == PAGE_STORE_DONE);
    CHECK(seed(&w, AT, AT + BYTES_2M) == PAGE_STORE_OUT_OF_ROOM);
    CHECK(report(&w).seeded == 0);
    give_up(&w);
}

/* Two pages of 2 MiB, and a pool that lacks one word for splitting the second. The store goes on with what is open. */
static void room_for_one_split(void)
{
    const size_t words = SPLIT_WORDS + WORDS_OF_2M - 1;
    watched w = seeded(words, AT, AT + 2 * BYTES_2M);
    uint64_t i;

    CHECK(dealt_base(&w, PAGE_STORE_4K) == AT); /* the first split */
    for (i = 1; i < 128; i++)                   /* all other 16 KiB of the first 2 MiB */
        CHECK(dealt_base(&w, PAGE_STORE_16K) == AT + i * BYTES_16K);
    CHECK(w.state.used == SPLIT_WORDS);
    CHECK(acquire_refusal(&w, PAGE_STORE_16K) == PAGE_STORE_OUT_OF_ROOM); /* the second split */
    CHECK(sound(&w));
    CHECK(report(&w).free == BYTES_2M + 3 * BYTES_4K);
    CHECK(dealt_base(&w, PAGE_STORE_4K) == AT + BYTES_4K); /* other sizes are served */
    CHECK(dealt_base(&w, PAGE_STORE_2M) == AT + BYTES_2M);
    CHECK(release(&w, AT + BYTES_2M, PAGE_STORE_2M) == PAGE_STORE_DONE);

    CHECK(release(&w, AT + 5 * BYTES_16K, PAGE_STORE_16K) == PAGE_STORE_DONE);
    CHECK(dealt_base(&w, PAGE_STORE_16K) == AT + 5 * BYTES_16K); /* served again, and nothing new was opened */
    CHECK(w.state.used == SPLIT_WORDS);
    CHECK(acquire_refusal(&w, PAGE_STORE_16K) == PAGE_STORE_OUT_OF_ROOM);

    CHECK(release(&w, AT, PAGE_STORE_4K) == PAGE_STORE_DONE); /* everything comes back and is whole again */
    CHECK(release(&w, AT + BYTES_4K, PAGE_STORE_4K) == PAGE_STORE_DONE);
    for (i = 1; i < 128; i++)
        CHECK(release(&w, AT + i * BYTES_16K, PAGE_STORE_16K) == PAGE_STORE_DONE);
    CHECK(report(&w).free == 2 * BYTES_2M);
    CHECK(dealt_base(&w, PAGE_STORE_2M) == AT);
    CHECK(release(&w, AT, PAGE_STORE_2M) == PAGE_STORE_DONE);
    CHECK(dealt_base(&w, PAGE_STORE_4K) == AT); /* the same split, in words that are open already */
    CHECK(w.state.used == SPLIT_WORDS);
    CHECK(sound(&w));
    give_up(&w);
}

/* One word more, and the second split is served. */
static void room_for_two_splits(void)
{
    watched w = seeded(SPLIT_WORDS + WORDS_OF_2M, AT, AT + 2 * BYTES_2M);
    uint64_t i;

    CHECK(dealt_base(&w, PAGE_STORE_4K) == AT);
    for (i = 1; i <= 128; i++)
        CHECK(dealt_base(&w, PAGE_STORE_16K) == AT + i * BYTES_16K);
    CHECK(w.state.used == w.words);
    give_up(&w);
}

/* 16 KiB and two pages of 4 KiB behind it, and no word left: the lowest page of 4 KiB lies in the 16 KiB, which cannot be split, so those behind
 * it are not dealt before the 16 KiB are. */
static void the_lowest_page_wins(void)
{
    watched w = seeded(1418, AT, AT + BYTES_16K + 2 * BYTES_4K);

    CHECK(w.state.used == w.words);
    CHECK(acquire_refusal(&w, PAGE_STORE_4K) == PAGE_STORE_OUT_OF_ROOM);
    CHECK(dealt_base(&w, PAGE_STORE_16K) == AT);
    CHECK(dealt_base(&w, PAGE_STORE_4K) == AT + BYTES_16K);
    give_up(&w);
}

/* A dry pool is exchanged for a longer one: the words in use are copied, and the state stays. */
static void a_longer_pool_goes_on(void)
{
    watched dry = seeded(SEEDED_WORDS, AT, AT + BYTES_2M), longer = lend(SPLIT_WORDS);

    CHECK(acquire_refusal(&dry, PAGE_STORE_4K) == PAGE_STORE_OUT_OF_ROOM);
    memcpy(longer.pool, dry.pool, (size_t)dry.state.used * sizeof(uint32_t));
    longer.state = dry.state;
    CHECK(sound(&longer));
    CHECK(dealt_base(&longer, PAGE_STORE_4K) == AT);
    CHECK(release(&longer, AT, PAGE_STORE_4K) == PAGE_STORE_DONE);
    CHECK(dealt_base(&longer, PAGE_STORE_2M) == AT);
    give_up(&dry);
    give_up(&longer);
}

int main(void)
{
    RUN(a_page_is_given_back_twice);
    RUN(a_part_was_dealt_on);
    RUN(another_guest_has_it_now);
    RUN(the_book_stops_it);
    RUN(the_pool_runs_dry_in_a_split);
    RUN(room_for_one_split);
    RUN(room_for_two_splits);
    RUN(the_lowest_page_wins);
    RUN(a_longer_pool_goes_on);
    printf("accidents: %lu calls, %lu checks, all as they should be\n", calls, checks);
    return 0;
}
