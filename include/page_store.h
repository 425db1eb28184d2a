/*
 * The Vigatomo page store, for C11 and C++11 on x86-64. Link with libpage_store_c.a; no other library is needed.
 *
 * The store deals memory pages of six sizes and takes them back. It touches none of that memory: it reckons with addresses. Clearing a page
 * before another guest gets it is the caller's.
 *
 * The caller owns everything. The state is a value: pass the last one that you got, and keep the one that you get back, also when the call
 * is refused. The pool is an array of 32-bit words that you lend for the time of a call: `pool` points to `words` of them. Between calls
 * nobody may write it; its place and length may change, if its first `used` words are kept. The store keeps no pointer, allocates nothing,
 * writes nothing outside the pool, and has no globals: two stores are two states and two pools. It has no lock: at most one call at a time
 * on one store.
 *
 * Any numbers may be passed, in any state and over any pool words: each call returns. What cannot be tested is the pointer: it must be
 * aligned to 4 bytes, and `words` words must be there to be read and written. NULL with 0 words is refused as any empty pool is, and a
 * length above PAGE_STORE_POOL_LIMIT before any word is looked at.
 *
 * Every answer but check's begins with a refusal number, PAGE_STORE_DONE where the call did what was asked. A REFUSED CALL CHANGES
 * NOTHING: the state handed back is the one passed, no pool word is changed, and all other fields of the answer are 0. (fresh is passed no
 * state, and refused it hands back zeros; room_for hands no state back.)
 *
 * Each call but fresh and room_for first checks the whole used part of the pool, which took 5 to 12 ns for each used word where it was
 * measured: 0.1 to 0.2 ms at 16,384, 2.4 to 4.5 ms at 395,012. Unused words cost nothing. What is not sound gets PAGE_STORE_UNSOUND. Not all damage is seen: overwritten words,
 * or an old state, can happen to be another sound store.
 */
#ifndef PAGE_STORE_H
#define PAGE_STORE_H

#include <stddef.h>
#include <stdint.h>

#ifdef __cplusplus
extern "C" {
#define PAGE_STORE_ASSERT(what) static_assert(what, #what)
#else
#define PAGE_STORE_ASSERT(what) _Static_assert(what, #what)
#endif

/* ---- Refusal numbers. Where several apply, each call says which comes first; its comment leaves out `PAGE_STORE_`. */

/* Not refused: the call did what was asked. */
#define PAGE_STORE_DONE 0
/* acquire, release: the size code is none of PAGE_STORE_4K to PAGE_STORE_128T. */
#define PAGE_STORE_BAD_CODE 1
/* seed, room_for: start or end is no multiple of 4,096, or start is not below end. release: base is no multiple of the page's size. */
#define PAGE_STORE_BAD_ALIGNMENT 2
/* seed, room_for: end is above PAGE_STORE_MEMORY. release: the page would end above it. */
#define PAGE_STORE_PAST_THE_END 3
/* seed, room_for: some 4 KiB of it are seeded already. Nothing may be seeded twice. */
#define PAGE_STORE_OVERLAP 4
/* seed, room_for: there are PAGE_STORE_REGIONS regions already. Seed neighbouring memory as one region. */
#define PAGE_STORE_REGIONS_FULL 5
/* release: some 4 KiB of the page were never seeded. This page cannot have come from this store. */
#define PAGE_STORE_NOT_SEEDED 6
/* release: some 4 KiB of the page are free already. It was given back before, whole or in part, or never dealt: look for the second release. */
#define PAGE_STORE_ALREADY_FREE 7
/* acquire: no free page of that size. Smaller ones may be left; a release may bring one. */
#define PAGE_STORE_OUT_OF_PAGES 8
/* seed, acquire, release: the pool has too few words left for the nodes that the call would open. Nothing is lost: ask for another size, ask
 * again once pages were given back, or copy the used words to a longer pool and lend that. A pool that had as many words from fresh on as
 * page_store_room_for says of all its regions never gets here. */
#define PAGE_STORE_OUT_OF_ROOM 9
/* seed, acquire, release, report: the state and the pool do not belong together, or one of them was overwritten. All four are refused then
 * and nothing is repaired: pass the right state and words. A new store is no way out while guests have pages: it knows nothing of what was
 * dealt, and would deal it again. room_for: the state's regions are damaged. */
#define PAGE_STORE_UNSOUND 10
/* fresh: the pool has no words, or more than PAGE_STORE_POOL_LIMIT. */
#define PAGE_STORE_BAD_POOL 11

/* ---- Size codes. */

#define PAGE_STORE_4K 1
#define PAGE_STORE_16K 2
#define PAGE_STORE_2M 3
#define PAGE_STORE_1G 4
#define PAGE_STORE_512G 5
#define PAGE_STORE_128T 6

/* ---- Limits. */

/* The most regions of a state. */
#define PAGE_STORE_REGIONS 8
/* The most words of a pool. */
#define PAGE_STORE_POOL_LIMIT 1048576
/* Where memory ends: 2^47. */
#define PAGE_STORE_MEMORY UINT64_C(0x800000000000)

/* ---- What is passed and handed back. */

/* What the caller keeps between calls, beside the pool. Copy it as you like, but only the newest fits the pool; an old one is not always seen. */
typedef struct page_store_state {
    uint64_t used;                       /* pool words in use, from the first on */
    uint64_t starts[PAGE_STORE_REGIONS]; /* first byte of each region, in the order of their seeds; 0 where there is none */
    uint64_t ends[PAGE_STORE_REGIONS];   /* first byte behind it; 0 where there is none */
} page_store_state;

/* The answer of fresh, seed and release. */
typedef struct page_store_done {
    uint64_t refusal;
    page_store_state state; /* the state to keep */
} page_store_done;

/* The answer of acquire. */
typedef struct page_store_dealt {
    uint64_t refusal;
    page_store_state state; /* the state to keep */
    uint64_t base;          /* the page's first byte. 0 can be a page: ask `refusal`, not `base`, whether one was dealt */
    uint64_t probes;        /* how many children in the tree were looked at to find it, 1,412 at most */
} page_store_dealt;

/* The answer of report. */
typedef struct page_store_reported {
    uint64_t refusal;
    page_store_state state; /* the one passed */
    uint64_t seeded;        /* bytes of all regions */
    uint64_t free;          /* bytes that are free; the others are held */
    uint64_t largest;       /* size code of the largest free page, 0 if nothing is free */
    uint64_t used;          /* pool words in use */
} page_store_reported;

/* The answer of room_for. */
typedef struct page_store_room {
    uint64_t refusal;
    uint64_t words; /* how many pool words always suffice. Above PAGE_STORE_POOL_LIMIT no pool does: divide the memory between several stores */
} page_store_room;

/* ---- The calls. */

/*
 * Makes a new, empty store in the pool: writes its first word and looks at no other, so that the pool need not be cleared. Keep the state
 * that it answers. Whatever an earlier store had in this pool is forgotten, also what it had dealt: guests must have given everything back.
 * Refused: BAD_POOL; the state is then all zeros, and seed, acquire, release and report refuse it with UNSOUND.
 */
page_store_done page_store_fresh(uint32_t *pool, size_t words);

/*
 * Gives the store the memory from `start` to `end`, `end` not included: all of it is free from then on. Regions cannot be taken out again.
 * Regions that touch are one piece of memory: a page may lie across them.
 * Refused, the first that applies: UNSOUND, BAD_ALIGNMENT, PAST_THE_END, REGIONS_FULL, OVERLAP, OUT_OF_ROOM.
 */
page_store_done page_store_seed(page_store_state state, uint32_t *pool, size_t words, uint64_t start, uint64_t end);

/*
 * Deals the lowest free page of a size: `base` to `base` + size belongs to the caller until it is released, and is dealt to nobody else.
 * It is aligned to its size. The lowest address wins: a larger free page is split for it, even where a page of just this size is free
 * higher up, and OUT_OF_ROOM may come of that.
 * Refused, the first that applies: UNSOUND, BAD_CODE, OUT_OF_PAGES, OUT_OF_ROOM.
 */
page_store_dealt page_store_acquire(page_store_state state, uint32_t *pool, size_t words, uint64_t code);

/*
 * Takes a page back: one that was dealt, an aligned part of one, or several that together are a page of the size. Pages that are free beside
 * each other become larger ones again. Nothing tells whose page it is: that the caller was dealt it is the caller's to know.
 * Refused, the first that applies: UNSOUND, BAD_CODE, BAD_ALIGNMENT, PAST_THE_END, NOT_SEEDED, ALREADY_FREE, OUT_OF_ROOM.
 * OUT_OF_ROOM happens only where a part of a dealt page is given back; the page as it was dealt can always be.
 */
page_store_done page_store_release(page_store_state state, uint32_t *pool, size_t words, uint64_t base, uint64_t code);

/*
 * Tells how much memory there is, how much of it is free, and what the largest free page is. Writes nothing.
 * Refused: UNSOUND.
 */
page_store_reported page_store_report(page_store_state state, const uint32_t *pool, size_t words);

/*
 * 1 where state and pool are sound, 0 where they are not. Writes nothing, and is never refused.
 */
uint64_t page_store_check(page_store_state state, const uint32_t *pool, size_t words);

/*
 * How many pool words suffice for ever for the regions of a state and one more, from `start` to `end`: in a store made in a pool of at least so
 * many, no calls on these regions ever get OUT_OF_ROOM; in a smaller one some do. Ask before there is a store: pass a state of zeros for the
 * first region, and for further ones fill in `starts` and `ends` from the first place on. `used` is not looked at.
 * Refused, the first that applies: UNSOUND, BAD_ALIGNMENT, PAST_THE_END, REGIONS_FULL, OVERLAP.
 */
page_store_room page_store_room_for(page_store_state state, uint64_t start, uint64_t end);

/* ---- The proved side's sizes: every field has 8 bytes, and nothing lies between them. */

PAGE_STORE_ASSERT(sizeof(size_t) == 8);
PAGE_STORE_ASSERT(sizeof(page_store_state) == 8 * (1 + 2 * PAGE_STORE_REGIONS));
PAGE_STORE_ASSERT(sizeof(page_store_done) == 8 + sizeof(page_store_state));
PAGE_STORE_ASSERT(sizeof(page_store_dealt) == 24 + sizeof(page_store_state));
PAGE_STORE_ASSERT(sizeof(page_store_reported) == 40 + sizeof(page_store_state));
PAGE_STORE_ASSERT(sizeof(page_store_room) == 16);
#undef PAGE_STORE_ASSERT

#ifdef __cplusplus
}
#endif

#endif
