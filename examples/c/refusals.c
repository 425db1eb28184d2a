/*
 * Breaks the store on purpose: every refusal number of every call, the order of the refusals, numbers and lengths at the limits, damaged
 * words and states. Each call is watched (watched.h). Prints one line at the end; stops with file and line where something is not as it should be.
 */
#include "watched.h"

#define TOP PAGE_STORE_MEMORY
#define ROOT UINT32_C(96) /* the word of a new root */

/* Numbers that are no size code; the fifth and sixth are 1 when they are cut to a byte or to 32 bits. */
static const uint64_t no_codes[] = {0, 7, 255, 256, 257, UINT64_C(0x100000001), UINT64_MAX};
#define NO_CODES (sizeof no_codes / sizeof no_codes[0])

/* A new store with no regions. */
static watched made(size_t words)
{
    watched w = lend(words);

    CHECK(fresh(&w) == PAGE_STORE_DONE);
    CHECK(w.state.used == 1);
    CHECK(w.pool[0] == ROOT);
    return w;
}

/* ---- The refusals of each call, by name. */

static void refusals_of_fresh(void)
{
    watched w = lend(0);

    CHECK(fresh(&w) == PAGE_STORE_BAD_POOL);
    give_up(&w);
    w = made(1); /* the shortest pool */
    CHECK(sound(&w));
    CHECK(report(&w).used == 1);
    give_up(&w);
}

static void refusals_of_seed(void)
{
    watched w = made(2048);
    uint64_t i;

    CHECK(seed(&w, AT + 1, AT + BYTES_4K) == PAGE_STORE_BAD_ALIGNMENT);
    CHECK(seed(&w, AT, AT + BYTES_4K + 512) == PAGE_STORE_BAD_ALIGNMENT);
    CHECK(seed(&w, AT, AT) == PAGE_STORE_BAD_ALIGNMENT);
    CHECK(seed(&w, AT + BYTES_4K, AT) == PAGE_STORE_BAD_ALIGNMENT);
    CHECK(seed(&w, UINT64_MAX, UINT64_MAX) == PAGE_STORE_BAD_ALIGNMENT);
    CHECK(seed(&w, 0, TOP + BYTES_4K) == PAGE_STORE_PAST_THE_END);
    CHECK(seed(&w, 0, UINT64_MAX - 4095) == PAGE_STORE_PAST_THE_END);
    CHECK(seed(&w, AT, AT + BYTES_16K) == PAGE_STORE_DONE);
    CHECK(seed(&w, AT, AT + BYTES_16K) == PAGE_STORE_OVERLAP);
    CHECK(seed(&w, AT - BYTES_4K, AT + BYTES_4K) == PAGE_STORE_OVERLAP);
    CHECK(seed(&w, 0, TOP) == PAGE_STORE_OVERLAP);
    CHECK(seed(&w, TOP - BYTES_4K, TOP) == PAGE_STORE_OUT_OF_ROOM);
    for (i = 1; i < PAGE_STORE_REGIONS; i++)
        CHECK(seed(&w, AT + i * BYTES_16K, AT + (i + 1) * BYTES_16K) == PAGE_STORE_DONE);
    CHECK(seed(&w, AT + 64 * BYTES_16K, AT + 65 * BYTES_16K) == PAGE_STORE_REGIONS_FULL);
    CHECK(report(&w).seeded == PAGE_STORE_REGIONS * BYTES_16K);
    give_up(&w);
}

static void refusals_of_acquire(void)
{
    watched w = made(1284); /* 2 MiB at 2^31 can be seeded, not split */
    uint64_t code;
    size_t i;

    for (code = PAGE_STORE_4K; code <= PAGE_STORE_128T; code++)
        CHECK(acquire_refusal(&w, code) == PAGE_STORE_OUT_OF_PAGES);
    CHECK(seed(&w, AT, AT + BYTES_2M) == PAGE_STORE_DONE);
    for (i = 0; i < NO_CODES; i++)
        CHECK(acquire_refusal(&w, no_codes[i]) == PAGE_STORE_BAD_CODE);
    CHECK(acquire_refusal(&w, PAGE_STORE_4K) == PAGE_STORE_OUT_OF_ROOM);
    CHECK(acquire_refusal(&w, PAGE_STORE_16K) == PAGE_STORE_OUT_OF_ROOM);
    CHECK(acquire_refusal(&w, PAGE_STORE_1G) == PAGE_STORE_OUT_OF_PAGES);
    CHECK(dealt_base(&w, PAGE_STORE_2M) == AT);
    CHECK(acquire_refusal(&w, PAGE_STORE_2M) == PAGE_STORE_OUT_OF_PAGES);
    give_up(&w);
}

static void refusals_of_release(void)
{
    watched w = seeded(1413, AT, AT + BYTES_16K); /* 16 KiB at 2^31 can be seeded, not split */
    size_t i;

    for (i = 0; i < NO_CODES; i++)
        CHECK(release(&w, AT, no_codes[i]) == PAGE_STORE_BAD_CODE);
    CHECK(release(&w, AT + 1, PAGE_STORE_4K) == PAGE_STORE_BAD_ALIGNMENT);
    CHECK(release(&w, AT + BYTES_4K, PAGE_STORE_16K) == PAGE_STORE_BAD_ALIGNMENT);
    CHECK(release(&w, TOP, PAGE_STORE_4K) == PAGE_STORE_PAST_THE_END);
    CHECK(release(&w, UINT64_MAX - 4095, PAGE_STORE_4K) == PAGE_STORE_PAST_THE_END); /* base + size wraps to 0 */
    CHECK(release(&w, TOP, PAGE_STORE_128T) == PAGE_STORE_PAST_THE_END);
    CHECK(release(&w, AT + BYTES_16K, PAGE_STORE_4K) == PAGE_STORE_NOT_SEEDED);
    CHECK(release(&w, AT, PAGE_STORE_2M) == PAGE_STORE_NOT_SEEDED);
    CHECK(release(&w, AT, PAGE_STORE_16K) == PAGE_STORE_ALREADY_FREE);
    CHECK(release(&w, AT + BYTES_4K, PAGE_STORE_4K) == PAGE_STORE_ALREADY_FREE); /* inside a larger free page */
    CHECK(dealt_base(&w, PAGE_STORE_16K) == AT);
    CHECK(release(&w, AT, PAGE_STORE_4K) == PAGE_STORE_OUT_OF_ROOM); /* a part of it: 5 words are wanted */
    CHECK(release(&w, AT, PAGE_STORE_16K) == PAGE_STORE_DONE);       /* as it was dealt: always */
    CHECK(release(&w, AT, PAGE_STORE_16K) == PAGE_STORE_ALREADY_FREE);
    CHECK(report(&w).free == BYTES_16K);
    give_up(&w);
}

/* The refusal number of a room_for; refused, it answers no words. */
static uint64_t room_refusal(const page_store_state *regions, uint64_t start, uint64_t end)
{
    page_store_room room = page_store_room_for(*regions, start, end);

    if (room.refusal != PAGE_STORE_DONE)
        CHECK(room.words == 0);
    return room.refusal;
}

/* A state of zeros but for `count` regions of 16 KiB, one behind the other. */
static page_store_state planned(uint64_t count)
{
    page_store_state plan;
    uint64_t i;

    memset(&plan, 0, sizeof plan);
    for (i = 0; i < count; i++) {
        plan.starts[i] = AT + i * BYTES_16K;
        plan.ends[i] = AT + (i + 1) * BYTES_16K;
    }
    return plan;
}

static void refusals_of_room_for(void)
{
    page_store_state none = planned(0), one = planned(1), full = planned(PAGE_STORE_REGIONS), damaged = planned(2);

    CHECK(room_refusal(&none, AT + 1, AT + BYTES_4K) == PAGE_STORE_BAD_ALIGNMENT);
    CHECK(room_refusal(&none, AT, AT + 1) == PAGE_STORE_BAD_ALIGNMENT);
    CHECK(room_refusal(&none, AT, AT) == PAGE_STORE_BAD_ALIGNMENT);
    CHECK(room_refusal(&none, 1, TOP + BYTES_4K) == PAGE_STORE_BAD_ALIGNMENT); /* before past the end */
    CHECK(room_refusal(&none, 0, TOP + BYTES_4K) == PAGE_STORE_PAST_THE_END);
    CHECK(room_refusal(&one, AT, AT + BYTES_4K) == PAGE_STORE_OVERLAP);
    CHECK(room_refusal(&full, 0, BYTES_4K) == PAGE_STORE_REGIONS_FULL);
    CHECK(room_refusal(&full, 0, TOP + BYTES_4K) == PAGE_STORE_PAST_THE_END); /* before regions full */
    CHECK(room_refusal(&full, AT, AT + BYTES_4K) == PAGE_STORE_REGIONS_FULL); /* before overlap */
    damaged.starts[0] = 0;
    damaged.ends[0] = 0;                                       /* a gap */
    CHECK(room_refusal(&damaged, 1, 0) == PAGE_STORE_UNSOUND); /* before alignment */
    damaged = planned(2);
    damaged.starts[1] = AT; /* shares memory with the first */
    CHECK(room_refusal(&damaged, 0, BYTES_4K) == PAGE_STORE_UNSOUND);
    damaged = planned(2);
    damaged.ends[1] += 1;
    CHECK(room_refusal(&damaged, 0, BYTES_4K) == PAGE_STORE_UNSOUND);
    one.used = UINT64_MAX; /* not looked at */
    CHECK(room_refusal(&one, 0, BYTES_4K) == PAGE_STORE_DONE);
}

/* ---- Which refusal comes first where two apply. */

static void order_of_seed(void)
{
    watched w = made(1413);
    uint64_t i;

    CHECK(seed(&w, 1, TOP + BYTES_4K) == PAGE_STORE_BAD_ALIGNMENT);       /* before past the end */
    CHECK(seed(&w, AT, AT + BYTES_16K) == PAGE_STORE_DONE);               /* no word is left */
    CHECK(seed(&w, AT, AT + BYTES_16K + BYTES_4K) == PAGE_STORE_OVERLAP); /* before out of room */
    CHECK(seed(&w, AT + BYTES_16K, AT + BYTES_16K + BYTES_4K) == PAGE_STORE_OUT_OF_ROOM);
    for (i = 1; i < PAGE_STORE_REGIONS; i++)
        CHECK(seed(&w, AT + i * BYTES_16K, AT + (i + 1) * BYTES_16K) == PAGE_STORE_DONE);
    CHECK(seed(&w, 0, TOP + BYTES_4K) == PAGE_STORE_PAST_THE_END);  /* before regions full */
    CHECK(seed(&w, AT, AT + BYTES_16K) == PAGE_STORE_REGIONS_FULL); /* before overlap */
    give_up(&w);
}

static void order_of_acquire(void)
{
    watched w = made(1);

    CHECK(acquire_refusal(&w, 7) == PAGE_STORE_BAD_CODE);                 /* before out of pages */
    CHECK(acquire_refusal(&w, PAGE_STORE_4K) == PAGE_STORE_OUT_OF_PAGES); /* before out of room */
    give_up(&w);
}

static void order_of_release(void)
{
    watched w = seeded(1418, AT, AT + 2 * BYTES_4K); /* half of a page of 16 KiB */

    CHECK(release(&w, AT + 1, 0) == PAGE_STORE_BAD_CODE);                      /* before alignment */
    CHECK(release(&w, UINT64_MAX, PAGE_STORE_4K) == PAGE_STORE_BAD_ALIGNMENT); /* before past the end */
    CHECK(release(&w, TOP, PAGE_STORE_4K) == PAGE_STORE_PAST_THE_END);         /* before not seeded */
    CHECK(release(&w, AT, PAGE_STORE_16K) == PAGE_STORE_NOT_SEEDED);           /* before already free */
    give_up(&w);
    w = seeded(1284, AT, AT + BYTES_2M);                              /* no word is left */
    CHECK(release(&w, AT, PAGE_STORE_4K) == PAGE_STORE_ALREADY_FREE); /* before out of room */
    give_up(&w);
}

/* Every call gets UNSOUND, and whatever else is wrong with what it asks comes behind. */
static void all_unsound(watched *w)
{
    CHECK(!sound(w));
    CHECK(seed(w, 1, 0) == PAGE_STORE_UNSOUND);
    CHECK(seed(w, AT + BYTES_2M, AT + 2 * BYTES_2M) == PAGE_STORE_UNSOUND);
    CHECK(acquire_refusal(w, UINT64_MAX) == PAGE_STORE_UNSOUND);
    CHECK(acquire_refusal(w, PAGE_STORE_4K) == PAGE_STORE_UNSOUND);
    CHECK(release(w, 1, 0) == PAGE_STORE_UNSOUND);
    CHECK(release(w, AT, PAGE_STORE_4K) == PAGE_STORE_UNSOUND);
    CHECK(report(w).refusal == PAGE_STORE_UNSOUND);
}

/* ---- Damage. */

/* A used pool word that was overwritten, each in turn; put right again, the store goes on. */
static void a_damaged_word(void)
{
    watched w = seeded(2048, AT, AT + 6 * BYTES_4K);
    size_t i;

    CHECK(dealt_base(&w, PAGE_STORE_4K) == AT);
    for (i = 0; i < w.state.used; i++) {
        uint32_t kept = w.pool[i];

        w.pool[i] = ~kept;
        all_unsound(&w);
        w.pool[i] = kept;
        CHECK(sound(&w));
    }
    w.pool[w.state.used] = ROOT; /* a word that is not in use may be anything */
    CHECK(sound(&w));
    CHECK(release(&w, AT, PAGE_STORE_4K) == PAGE_STORE_DONE);
    give_up(&w);
}

/* State numbers that do not fit the pool, each alone. */
static void a_damaged_state(void)
{
    watched w = seeded(2048, AT, AT + 6 * BYTES_4K);
    page_store_state kept = w.state;

    w.state.used = 0;
    all_unsound(&w);
    w.state.used = kept.used - 1;
    all_unsound(&w);
    w.state.used = UINT64_MAX;
    all_unsound(&w);
    w.state = kept;
    w.state.ends[0] = AT + 5 * BYTES_4K; /* a free page outside the regions */
    all_unsound(&w);
    w.state = kept;
    w.state.starts[7] = BYTES_4K; /* a place that should be zero */
    all_unsound(&w);
    w.state = kept;
    w.state.ends[0] = UINT64_MAX;
    all_unsound(&w);
    w.state = kept;
    CHECK(sound(&w));
    give_up(&w);
}

/* Only the newest state fits the pool: here the one before the acquire, which opened nodes. */
static void an_old_state(void)
{
    watched w = seeded(2048, AT, AT + BYTES_16K);
    page_store_state old = w.state, newest;

    CHECK(dealt_base(&w, PAGE_STORE_4K) == AT);
    newest = w.state;
    CHECK(newest.used == old.used + 5);
    w.state = old;
    all_unsound(&w);
    w.state = newest;
    CHECK(release(&w, AT, PAGE_STORE_4K) == PAGE_STORE_DONE);
    give_up(&w);
}

/* Damage that makes another sound store cannot be seen: here the word of a held page becomes that of a free one, and the page is dealt again. */
static void damage_that_cannot_be_seen(void)
{
    watched w = seeded(1418, AT, AT + BYTES_16K);
    const size_t word = 1414; /* the first 4 KiB page: the last block's first child */

    CHECK(dealt_base(&w, PAGE_STORE_4K) == AT);
    CHECK(dealt_base(&w, PAGE_STORE_4K) == AT + BYTES_4K);
    CHECK(w.pool[word] == 16 && w.pool[word + 2] == 25); /* held and free: level 1; with token and max 1 */
    w.pool[word] = 25;
    CHECK(sound(&w));
    CHECK(dealt_base(&w, PAGE_STORE_4K) == AT);
    give_up(&w);
}

/* Nor is an old state always: this one lacks a region whose pages are all held, so that nothing free lies outside its regions. */
static void an_old_state_that_cannot_be_seen(void)
{
    watched w = seeded(1413, AT, AT + BYTES_16K);
    page_store_state old = w.state;

    CHECK(seed(&w, AT + BYTES_16K, AT + 2 * BYTES_16K) == PAGE_STORE_DONE);
    CHECK(dealt_base(&w, PAGE_STORE_16K) == AT);
    w.state.starts[1] = 0;
    w.state.ends[1] = 0;
    CHECK(same_state(&w.state, &old));
    all_unsound(&w); /* the second region's page is free: seen */
    w.state.starts[1] = AT + BYTES_16K;
    w.state.ends[1] = AT + 2 * BYTES_16K;
    CHECK(dealt_base(&w, PAGE_STORE_16K) == AT + BYTES_16K);
    w.state = old;
    CHECK(sound(&w)); /* it is held: not seen */
    CHECK(release(&w, AT + BYTES_16K, PAGE_STORE_16K) == PAGE_STORE_NOT_SEEDED);
    give_up(&w);
}

/* ---- Lengths at the limits. */

/* No pool at all. */
static void no_pool(void)
{
    page_store_done made_none = page_store_fresh(NULL, 0);
    page_store_state zeros;
    page_store_state one;

    memset(&zeros, 0, sizeof zeros);
    one = zeros;
    one.used = 1;
    CHECK(made_none.refusal == PAGE_STORE_BAD_POOL);
    CHECK(same_state(&made_none.state, &zeros));
    CHECK(page_store_seed(zeros, NULL, 0, AT, AT + BYTES_4K).refusal == PAGE_STORE_UNSOUND);
    CHECK(page_store_seed(one, NULL, 0, AT, AT + BYTES_4K).refusal == PAGE_STORE_UNSOUND);
    CHECK(page_store_acquire(one, NULL, 0, PAGE_STORE_4K).refusal == PAGE_STORE_UNSOUND);
    CHECK(page_store_release(one, NULL, 0, AT, PAGE_STORE_4K).refusal == PAGE_STORE_UNSOUND);
    CHECK(page_store_report(one, NULL, 0).refusal == PAGE_STORE_UNSOUND);
    CHECK(page_store_check(one, NULL, 0) == 0);
    CHECK(page_store_check(zeros, NULL, 0) == 0);
}

/* The state that a refused fresh answers serves nothing. */
static void a_state_of_zeros(void)
{
    watched w = lend(16);

    all_unsound(&w);
    give_up(&w);
}

static void the_longest_pool(void)
{
    watched w = seeded(PAGE_STORE_POOL_LIMIT, AT, AT + BYTES_16K);

    CHECK(dealt_base(&w, PAGE_STORE_4K) == AT);
    CHECK(w.state.used == 1418);
    CHECK(sound(&w));
    give_up(&w);
}

/* Lengths above the limit, told of a pool of four words: they are refused before any word is looked at. Valgrind sees that none is read behind
 * them. */
static void longer_than_the_limit(void)
{
    static const size_t lengths[] = {PAGE_STORE_POOL_LIMIT + 1, UINT32_MAX, SIZE_MAX / 4, SIZE_MAX};
    watched w = made(4), zeros = lend(0);
    size_t i;

    before_call(&w);
    for (i = 0; i < sizeof lengths / sizeof lengths[0]; i++) {
        const size_t n = lengths[i];
        page_store_done none = page_store_fresh(w.pool, n);

        CHECK(none.refusal == PAGE_STORE_BAD_POOL);
        CHECK(same_state(&none.state, &zeros.state));
        CHECK(page_store_seed(w.state, w.pool, n, 0, TOP).refusal == PAGE_STORE_UNSOUND);
        CHECK(page_store_acquire(w.state, w.pool, n, PAGE_STORE_4K).refusal == PAGE_STORE_UNSOUND);
        CHECK(page_store_release(w.state, w.pool, n, AT, PAGE_STORE_4K).refusal == PAGE_STORE_UNSOUND);
        CHECK(page_store_report(w.state, w.pool, n).refusal == PAGE_STORE_UNSOUND);
        CHECK(page_store_check(w.state, w.pool, n) == 0);
        CHECK(same_words(&w, 0, GUARDS + w.words + GUARDS));
    }
    CHECK(sound(&w)); /* told with its own length it is sound */
    give_up(&w);
    give_up(&zeros);
}

/* ---- The words that suffice. */

/* 1 for the root, and the block of each node that the regions touch: 257 words of the root, 513 of 512 GiB and of 1 GiB, 129 of 2 MiB, 5 of
 * 16 KiB. */
static void words_that_suffice(void)
{
    page_store_state none = planned(0), one = planned(1);

    CHECK(page_store_room_for(none, AT, AT + BYTES_4K).words == 1418);
    CHECK(page_store_room_for(none, AT, AT + BYTES_16K).words == 1418);
    CHECK(page_store_room_for(none, AT, AT + BYTES_2M).words == 2053);                 /* 1284 + 129 + 128 * 5 */
    CHECK(page_store_room_for(none, AT, AT + 512 * BYTES_2M).words == 395012);         /* 1284 + 512 * 129 + 65536 * 5 */
    CHECK(page_store_room_for(one, AT + BYTES_16K, AT + 2 * BYTES_16K).words == 1423); /* one node of 16 KiB more */
    CHECK(page_store_room_for(one, 0, BYTES_4K).words == 2065);                        /* 1418 + 513 + 129 + 5 */
    CHECK(page_store_room_for(none, 0, TOP).words == UINT64_C(51674087938));           /* more than any pool has */
}

/* Deals all of 2 MiB as pages of 4 KiB; answers the first refusal number. */
static uint64_t deal_all_small(watched *w)
{
    uint64_t refusal;

    do
        refusal = acquire_refusal(w, PAGE_STORE_4K);
    while (refusal == PAGE_STORE_DONE);
    return refusal;
}

/* With as many words as room_for says, memory runs out first and every word is used; with one word less, the pool does. */
static void as_many_as_room_for_says(void)
{
    const size_t words = (size_t)page_store_room_for(planned(0), AT, AT + BYTES_2M).words;
    watched w = seeded(words, AT, AT + BYTES_2M);

    CHECK(deal_all_small(&w) == PAGE_STORE_OUT_OF_PAGES);
    CHECK(report(&w).free == 0);
    CHECK(w.state.used == words);
    give_up(&w);
    w = seeded(words - 1, AT, AT + BYTES_2M);
    CHECK(deal_all_small(&w) == PAGE_STORE_OUT_OF_ROOM);
    give_up(&w);
}

/* ---- Memory at the limits. */

/* A page can lie at 0: the refusal tells whether one was dealt, not the base. */
static void a_page_at_zero(void)
{
    watched w = seeded(1418, 0, BYTES_4K);
    page_store_dealt dealt = acquire(&w, PAGE_STORE_4K);

    CHECK(dealt.refusal == PAGE_STORE_DONE);
    CHECK(dealt.base == 0);
    CHECK(dealt.probes == 5);
    CHECK(report(&w).free == 0);
    dealt = acquire(&w, PAGE_STORE_4K); /* the same base, and no page */
    CHECK(dealt.refusal == PAGE_STORE_OUT_OF_PAGES && dealt.base == 0);
    CHECK(release(&w, 0, PAGE_STORE_4K) == PAGE_STORE_DONE);
    CHECK(release(&w, 0, PAGE_STORE_4K) == PAGE_STORE_ALREADY_FREE);
    give_up(&w);
}

static void all_memory(void)
{
    watched w = seeded(1, 0, TOP);
    page_store_dealt dealt;
    uint64_t code;

    CHECK(w.state.used == 1);
    CHECK(w.pool[0] == 110);
    CHECK(report(&w).free == TOP && report(&w).largest == PAGE_STORE_128T);
    dealt = acquire(&w, PAGE_STORE_128T);
    CHECK(dealt.refusal == PAGE_STORE_DONE && dealt.base == 0 && dealt.probes == 0);
    for (code = PAGE_STORE_4K; code <= PAGE_STORE_128T; code++)
        CHECK(acquire_refusal(&w, code) == PAGE_STORE_OUT_OF_PAGES);
    CHECK(release(&w, 0, PAGE_STORE_128T) == PAGE_STORE_DONE);
    give_up(&w);
}

static void the_last_page(void)
{
    watched w = seeded(2048, TOP - BYTES_4K, TOP);
    page_store_dealt dealt = acquire(&w, PAGE_STORE_4K);

    CHECK(dealt.refusal == PAGE_STORE_DONE);
    CHECK(dealt.base == UINT64_C(140737488351232));
    CHECK(dealt.probes == 1412);
    CHECK(release(&w, dealt.base, PAGE_STORE_4K) == PAGE_STORE_DONE);
    give_up(&w);
}

/* The example of the specification's journal, with the numbers that it prints. */
static void the_document(void)
{
    watched w = seeded(16384, 2147483648, 2147508224);
    page_store_dealt dealt = acquire(&w, PAGE_STORE_4K);
    page_store_reported told;

    CHECK(dealt.refusal == PAGE_STORE_DONE && dealt.base == 2147483648 && dealt.probes == 7);
    CHECK(acquire_refusal(&w, PAGE_STORE_16K) == PAGE_STORE_OUT_OF_PAGES);
    dealt = acquire(&w, PAGE_STORE_4K);
    CHECK(dealt.refusal == PAGE_STORE_DONE && dealt.base == 2147487744 && dealt.probes == 8);
    CHECK(release(&w, 2147483648, PAGE_STORE_4K) == PAGE_STORE_DONE);
    CHECK(release(&w, 2147483648, PAGE_STORE_4K) == PAGE_STORE_ALREADY_FREE);
    told = report(&w);
    CHECK(told.refusal == PAGE_STORE_DONE && told.seeded == 24576 && told.free == 20480);
    CHECK(told.largest == PAGE_STORE_4K && told.used == 1423);
    CHECK(sound(&w));
    give_up(&w);
}

/* A pool without guards that was never written, of exactly the words that are needed: Valgrind sees every read and write outside it,
 * and every look at a word that the store did not write. */
static void a_bare_pool(void)
{
    uint32_t *pool = (uint32_t *)malloc(1418 * sizeof *pool);
    page_store_done done;
    page_store_dealt dealt;

    CHECK(pool != NULL);
    done = page_store_fresh(pool, 1418);
    CHECK(done.refusal == PAGE_STORE_DONE);
    done = page_store_seed(done.state, pool, 1418, AT, AT + BYTES_2M);
    CHECK(done.refusal == PAGE_STORE_DONE);
    dealt = page_store_acquire(done.state, pool, 1418, PAGE_STORE_4K);
    CHECK(dealt.refusal == PAGE_STORE_DONE && dealt.state.used == 1418);
    CHECK(page_store_report(dealt.state, pool, 1418).free == BYTES_2M - BYTES_4K);
    CHECK(page_store_check(dealt.state, pool, 1418) == 1);
    CHECK(page_store_release(dealt.state, pool, 1418, AT, PAGE_STORE_4K).refusal == PAGE_STORE_DONE);
    free(pool);
}

static void every_number_was_reached(void)
{
    size_t i;

    for (i = PAGE_STORE_DONE; i <= PAGE_STORE_BAD_POOL; i++)
        CHECK(reached[i] > 0);
}

/* Each size by its name: of all memory, the second page lies its bytes behind the first. */
static void every_size(void)
{
    static const uint64_t codes[] = {PAGE_STORE_4K, PAGE_STORE_16K, PAGE_STORE_2M, PAGE_STORE_1G, PAGE_STORE_512G};
    static const uint64_t bytes[] = {BYTES_4K, BYTES_16K, BYTES_2M, UINT64_C(1) << 30, UINT64_C(1) << 39};
    size_t i;

    for (i = 0; i < sizeof codes / sizeof codes[0]; i++) {
        watched w = seeded(1418, 0, TOP);

        CHECK(dealt_base(&w, codes[i]) == 0);
        CHECK(report(&w).free == TOP - bytes[i]);
        CHECK(report(&w).largest == PAGE_STORE_512G);
        CHECK(dealt_base(&w, codes[i]) == bytes[i]);
        CHECK(release(&w, bytes[i], codes[i]) == PAGE_STORE_DONE);
        CHECK(release(&w, 0, codes[i]) == PAGE_STORE_DONE);
        CHECK(report(&w).largest == PAGE_STORE_128T);
        give_up(&w);
    }
}

/* Pages of 2 MiB alone open nothing below 1 GiB: 1 + 257 + 513 words, and 513 for each GiB touched. */
static void pages_of_2_mib_alone(void)
{
    const uint64_t gib = UINT64_C(1) << 30;
    const size_t words = 771 + 2 * 513;
    watched w = seeded(words, AT, AT + 2 * gib);
    uint64_t i;

    for (i = 0; i < 1024; i++)
        CHECK(dealt_base(&w, PAGE_STORE_2M) == AT + i * BYTES_2M);
    CHECK(w.state.used == words);
    CHECK(acquire_refusal(&w, PAGE_STORE_2M) == PAGE_STORE_OUT_OF_PAGES);
    give_up(&w);
}

int main(void)
{
    RUN(refusals_of_fresh);
    RUN(refusals_of_seed);
    RUN(refusals_of_acquire);
    RUN(refusals_of_release);
    RUN(refusals_of_room_for);
    RUN(order_of_seed);
    RUN(order_of_acquire);
    RUN(order_of_release);
    RUN(a_damaged_word);
    RUN(a_damaged_state);
    RUN(an_old_state);
    RUN(damage_that_cannot_be_seen);
    RUN(an_old_state_that_cannot_be_seen);
    RUN(no_pool);
    RUN(a_state_of_zeros);
    RUN(the_longest_pool);
    RUN(longer_than_the_limit);
    RUN(words_that_suffice);
    RUN(as_many_as_room_for_says);
    RUN(a_page_at_zero);
    RUN(all_memory);
    RUN(every_size);
    RUN(pages_of_2_mib_alone);
    RUN(the_last_page);
    RUN(the_document);
    RUN(a_bare_pool);
    RUN(every_number_was_reached);
    printf("refusals: %lu calls, %lu checks, all as they should be\n", calls, checks);
    return 0;
}
