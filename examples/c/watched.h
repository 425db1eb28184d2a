/*
 * What accidents.c and refusals.c share: a check that no compiler option turns off, and a store whose every call is watched.
 * After each call: the words before and behind the pool are intact; a refused call changed neither the state nor any pool word, and
 * answers zeros; an accepted one left the pool words that are not in use as they were.
 */
#ifndef WATCHED_H
#define WATCHED_H

#include <inttypes.h>
#include <stdbool.h>
#include <stdio.h>
#include <stdlib.h>
#include <string.h>

#include "page_store.h"

/* ---- Checks. */

static const char *test_name = "no test"; /* what is tested now; a failure names it */
static unsigned long checks, calls;       /* how many there were */

/* Runs a test under its name. */
#define RUN(test) (test_name = #test, test())

/* Stops the program with file and line where something is not so. <assert.h> is off where NDEBUG is defined; this is not. */
#define CHECK(what) check_that((what), #what, __FILE__, __LINE__)

static inline void check_that(bool holds, const char *what, const char *file, int line)
{
    checks++;
    if (holds)
        return;
    fprintf(stderr, "%s:%d: in %s, at call %lu, this is not so: %s\n", file, line, test_name, calls, what);
    exit(1);
}

/* ---- A watched store. */

#define GUARDS 65 /* words before the pool, and as many behind it; odd, so that the pool is aligned to 4 bytes and no more */
#define GUARD UINT32_C(0x5EA1ED00)   /* what stands there, plus the word's number */
#define RUBBISH UINT32_C(0xDEADBEEF) /* what stands in the pool before it is used: it need not be cleared */

typedef struct watched {
    page_store_state state;
    size_t words;
    uint32_t *block;  /* guards, the pool, guards */
    uint32_t *before; /* the block as it was before the call */
    uint32_t *pool;
} watched;

/* How often each refusal number was answered. */
static unsigned long reached[PAGE_STORE_BAD_POOL + 1];

static inline size_t block_bytes(const watched *w)
{
    return (GUARDS + w->words + GUARDS) * sizeof(uint32_t);
}

/* Memory for a pool of so many words, and no store in it yet. */
static inline watched lend(size_t words)
{
    watched w;
    size_t i;

    memset(&w.state, 0, sizeof w.state);
    w.words = words;
    w.block = (uint32_t *)malloc(block_bytes(&w));
    w.before = (uint32_t *)malloc(block_bytes(&w));
    CHECK(w.block != NULL && w.before != NULL);
    w.pool = w.block + GUARDS;
    for (i = 0; i < GUARDS + words + GUARDS; i++)
        w.block[i] = GUARD + (uint32_t)i;
    for (i = 0; i < words; i++)
        w.pool[i] = RUBBISH;
    return w;
}

static inline void give_up(watched *w)
{
    free(w->block);
    free(w->before);
}

static inline void before_call(watched *w)
{
    calls++;
    memcpy(w->before, w->block, block_bytes(w));
}

static inline bool same_state(const page_store_state *one, const page_store_state *two)
{
    return memcmp(one, two, sizeof *one) == 0;
}

/* Whether the words of the block from one number up to another are as they were. */
static inline bool same_words(const watched *w, size_t from, size_t to)
{
    return memcmp(w->block + from, w->before + from, (to - from) * sizeof(uint32_t)) == 0;
}

/* Watches an answer that hands back a state, and keeps that state. */
static inline void after_call(watched *w, uint64_t refusal, const page_store_state *after)
{
    const size_t behind = GUARDS + w->words;

    CHECK(refusal <= PAGE_STORE_BAD_POOL);
    reached[refusal]++;
    CHECK(same_words(w, 0, GUARDS));
    CHECK(same_words(w, behind, behind + GUARDS));
    if (refusal != PAGE_STORE_DONE) {
        CHECK(same_state(&w->state, after));
        CHECK(same_words(w, GUARDS, behind));
    } else {
        CHECK(1 <= after->used && after->used <= w->words);
        CHECK(same_words(w, GUARDS + after->used, behind));
    }
    w->state = *after;
}

/* ---- The calls, watched. */

static inline uint64_t fresh(watched *w)
{
    page_store_done done;

    before_call(w);
    memset(&w->state, 0, sizeof w->state); /* the one state that a refused fresh can answer */
    done = page_store_fresh(w->pool, w->words);
    after_call(w, done.refusal, &done.state);
    return done.refusal;
}

static inline uint64_t seed(watched *w, uint64_t start, uint64_t end)
{
    page_store_done done;

    before_call(w);
    done = page_store_seed(w->state, w->pool, w->words, start, end);
    after_call(w, done.refusal, &done.state);
    return done.refusal;
}

static inline page_store_dealt acquire(watched *w, uint64_t code)
{
    page_store_dealt dealt;

    before_call(w);
    dealt = page_store_acquire(w->state, w->pool, w->words, code);
    after_call(w, dealt.refusal, &dealt.state);
    if (dealt.refusal != PAGE_STORE_DONE)
        CHECK(dealt.base == 0 && dealt.probes == 0);
    return dealt;
}

static inline uint64_t release(watched *w, uint64_t base, uint64_t code)
{
    page_store_done done;

    before_call(w);
    done = page_store_release(w->state, w->pool, w->words, base, code);
    after_call(w, done.refusal, &done.state);
    return done.refusal;
}

/* A report writes nothing, refused or not. */
static inline page_store_reported report(watched *w)
{
    page_store_reported told;

    before_call(w);
    told = page_store_report(w->state, w->pool, w->words);
    CHECK(same_state(&w->state, &told.state));
    after_call(w, told.refusal, &told.state);
    CHECK(same_words(w, GUARDS, GUARDS + w->words));
    if (told.refusal != PAGE_STORE_DONE)
        CHECK(told.seeded == 0 && told.free == 0 && told.largest == 0 && told.used == 0);
    return told;
}

/* Whether the store is sound. A check writes nothing. */
static inline bool sound(watched *w)
{
    uint64_t answer;

    before_call(w);
    answer = page_store_check(w->state, w->pool, w->words);
    CHECK(answer <= 1);
    CHECK(same_words(w, 0, GUARDS + w->words + GUARDS));
    return answer == 1;
}

/* A new store in a pool of so many words, with one region. */
static inline watched seeded(size_t words, uint64_t start, uint64_t end)
{
    watched w = lend(words);

    CHECK(fresh(&w) == PAGE_STORE_DONE);
    CHECK(seed(&w, start, end) == PAGE_STORE_DONE);
    return w;
}

/* An acquire that is accepted; answers the base. */
static inline uint64_t dealt_base(watched *w, uint64_t code)
{
    page_store_dealt dealt = acquire(w, code);

    CHECK(dealt.refusal == PAGE_STORE_DONE);
    return dealt.base;
}

/* The refusal number of an acquire. */
static inline uint64_t acquire_refusal(watched *w, uint64_t code)
{
    return acquire(w, code).refusal;
}

/* ---- Sizes. */

#define BYTES_4K UINT64_C(4096)
#define BYTES_16K UINT64_C(16384)
#define BYTES_2M UINT64_C(2097152)
#define AT UINT64_C(0x80000000) /* where the tests have their memory: 2^31, at the start of a page of 1 GiB */

#endif
