/*
 * goleuthan.h: word-level rights tables in a lent memory, for the supervisor's programmer.
 *
 * A table gives each 32-bit memory word, for each of up to four domains, one right: 0 none, 1 read, 2 read and write,
 * 3 execute and read. It lives in a pool: a memory of 32-bit words that the caller owns and lends for each call. The
 * library keeps nothing between calls, allocates nothing, and calls nothing but memcpy and memset. Every call returns,
 * whatever the numbers are and whatever the words hold. Each is proved to do what is said here.
 *
 * BUILDING. `rt lib --cpu=x86-64` in crates/goleuthan proves the library and writes out/libgoleuthan.a there, for any
 * x86-64. Without the word on the processor it is one for x86-64-v2.
 *
 * POINTERS. A lent memory is a pointer and a length, counted in words of four bytes. The pointer is not NULL, is a
 * multiple of 4, and its words are the caller's to lend: readable, and for a pointer that is not const writable, for
 * as long as the call runs. Where the length is 0 the pointer is not used, and may be NULL. Two memories lent to one
 * call do not overlap, unless both are const. No other thread writes a lent memory, or reads one that is not const,
 * during the call. No call asks for more; BUFFERS and STORES below say what checks and recovery rest on besides.
 *
 * THE POOL holds D roots of 1,024 words, then M middle places of 1,024 words, then L leaf places of 64 words, with D 1
 * to 4, M 0 to 8 and L 0 to 64. `words` is exactly 1024*D + 1024*M + 64*L, which is GOL_POOL_WORDS(d, m, l).
 *
 * ITS SHAPE is five words of the caller's, lent to each call that takes a pool, and only read: form, D, M, L, V. The
 * form is GOL_EIGHTS, which is 0: eight rights an entry. There is no other yet, and V is 0 in it. As in
 *
 *   static const uint32_t shape[GOL_SHAPE_WORDS] = {GOL_EIGHTS, 4, 8, 64, 0};
 *
 * The pool does not hold its shape: give each call the one that it was made fresh with.
 *
 * RESULTS go into the lent words `out`, in the order given at each call, as many of them as `out_len` has room for.
 * Words of `out` past the results stay as they were. An `out_len` of 0 asks for no result; `out` may be NULL then.
 *
 * NUMBERS. Each call returns 0 where it is done, or one of the numbers below. Each call names the numbers that it may
 * return, in their order: where several fit, the first is returned. On every refusal, that is on every number but 0 and
 * 100, the pool and all lent states are as they came, and the result words of `out` are 0, as many of them as fit.
 *
 *   1   a form or a V other than 0, D, M or L out of range, or a pool of another length
 *   2   a domain is D or more, the caller's or an owner's too   10  address or target not a multiple of the access size
 *   3   right above 3                                           11  gate address not a multiple of 4
 *   4   length 0                                                12  a new gate and 64 present
 *   5   rounded start plus rounded length above 2^32            13  no gate there to remove
 *   6   pool not sound, or a bad entry met on the walk          14  a switch gate to its own domain
 *   7   pool sound, not settled: tidy it first                  15  switch gate, stack full
 *   8   not enough middle or leaf places for these rights       16  return gate, stack empty
 *   9   no such access kind or size                             17  return gate, target differs
 *   18  gate count or region count above 64, depth above 16, next above 63
 *   19  the caller may not: on the list, as the call says; of a change, a word of it does not allow it
 *   20  a new region and 64 present
 *   100 the allowance of stores ran out before the end: a cut (see RECOVERY)
 *   101 a lent shape or state of the wrong length; the lengths of all of them are looked at before all else
 *
 * STATES. A lookaside buffer, a gate set, a call stack and a region list are words of the caller too, of these lengths
 * and layouts. Words of any value may come in; what they mean is decided by the rules below and by the numbers above.
 *
 *   Buffer, 257 words. Slot i, 0 to 63, is the four words from 4*i on: domain, level (1 root, 2 middle, 3 leaf), first
 *   byte of the block, entry. Word 256 is next, the slot that the next miss fills. All words 0 is an empty buffer. A
 *   slot whose level is not 1 to 3, or whose block is not a multiple of the level's size (4 MB, 4 KB, 64), counts as
 *   empty. Any other matches when its domain is the one asked, the address lies in its block, and its entry is good
 *   rights for its level: at level 1 and 2 bit 31 is set and bits 30 to 16 are zero, at level 3 any word is. The
 *   lowest slot that matches answers; one that does not match answers nothing.
 *
 *   Gate set, 193 words. Gate i, 0 to 63, is the three words from 3*i on: domain, address, gate. The gate is
 *   0xFFFFFFFF for a return gate, else the destination of a switch gate. Word 192 is the count: gates from that number
 *   on are idle and keep their words. All words 0 is an empty set.
 *
 *   Call stack, 34 words. Frame i, 0 to 15, is the two words from 2*i on: caller's domain, return address. Word 32 is
 *   the depth, word 33 the current domain. Frames from the depth on are idle and keep their words. All words 0 but the
 *   current domain is an empty stack.
 *
 *   Region list, 321 words. Region i, 0 to 63, is the five words from 5*i on: owner, lo, hi, given, rights. It holds
 *   the memory words lo <= w < hi (a memory word is a byte address / 4); where hi is not above lo it holds nothing. Bit
 *   k of given set: domain k, 0 to 15, has an export here, of the right in bits 2k+1 and 2k of rights. Bit k clear: it
 *   has none, whatever rights says; and a domain above 15 has none. Word 320 is the count: regions from that number on
 *   are idle, hold nothing and keep their words. All words 0 is an empty list.
 *
 * WHO MAY SET RIGHTS. gol_change is the supervisor's own and always allowed. gol_change_by asks the region list:
 *   - the earliest region that holds a word decides for it. A word that no region holds belongs to domain 0;
 *   - its owner may set any right for any domain, itself too;
 *   - a domain with an export there may set, for any domain but itself, a right no greater than the export: none is
 *     below all, read is below the other two, and these two do not compare. An export of none is an export: with it
 *     none may be set. A domain that was given no export sets nothing;
 *   - a change is allowed where every word that it covers allows it, by one of these rules or several. Else it is
 *     refused 19, and no word is written.
 * Regions that gol_make_region makes do not overlap. In a list that came from elsewhere they may: the earlier counts,
 * and so it does of two regions with the same lo and hi. Which domain calls is the supervisor's to know: `caller` is
 * believed. The list and the pool are two things: making or passing a region, or giving an export, gives nobody a right
 * and takes none away, so it needs no flush; and a right once set stays until another change.
 *
 * BUFFERS AND THEIR POOL. A slot that matches answers without a look at the pool. So that it says what the pool says:
 *   - a buffer serves one pool of one shape: the same pool and shape at every check. To serve another, empty it;
 *   - gol_fresh makes every buffer of the pool stale, and so does a reset: empty them all;
 *   - gol_change and gol_change_by, done or cut, may make each slot of `domain` stale whose block meets the region:
 *     flush that region for that domain (gol_flush_region) in every buffer of the pool before the next check. A refusal
 *     and gol_tidy need no flush;
 *   - whatever but these calls writes the pool's memory, or the buffer's, makes the buffer stale: empty it.
 * A stale slot gives verdicts by rights that the pool no longer gives. gol_flush_all empties a buffer; zeros do too.
 *
 * STORES. gol_change, gol_change_by and gol_tidy write each word of the pool by a single aligned 32-bit store, one
 * after the other in program order, and what RECOVERY says holds after each of them. gol_fresh writes in any order and
 * width, and so do the calls that write a buffer, a gate set, a call stack or a region list. The box must see to it
 * that the stores of a change or a tidying reach the memory that keeps the pool without power: each whole, one by one,
 * in this order.
 *   - On a microcontroller without a cache or write buffer before that memory nothing is needed, but that the write of
 *     a word is all or nothing when the power goes. A bus or memory that takes a word in halves does not give that.
 *   - With a cache or a write buffer before it, map the pool uncached, or write-through where no write joins or
 *     overtakes another, or have the platform flush each store before the next. Else a reset may find a table that
 *     is led to and not yet filled.
 *   - On x86-64 with write-back memory this is the order that other processors see, and NOT what a loss of power
 *     leaves in non-volatile memory behind a cache: the lines go back in any order. Map the pool uncached there.
 * The proof is about the program's stores. That the compiled library leaves them single and in order is tested, not
 * proved: rust/stepping watches it instruction by instruction. A library compiled for another machine wants the same.
 *
 * STACK, in bytes, of the library as it is compiled for x86-64: the most that a call takes, its arguments that are
 * passed on the stack and its return address included.
 *
 *   gol_fresh               24
 *   gol_change             912
 *   gol_change_by          928
 *   gol_tidy               832
 *   gol_lookup              64
 *   gol_list               872
 *   gol_check              120
 *   gol_flush_all           24
 *   gol_flush_domain         8
 *   gol_flush_region         8
 *   gol_set_switch_gate     16
 *   gol_set_return_gate      8
 *   gol_remove_gate          8
 *   gol_step               160
 *   gol_make_region         40
 *   gol_pass_region         32
 *   gol_give_export         40
 *
 * It takes no other memory than its stack and what is lent. The figures are measured, not proved: rust/stack makes the
 * calls on a painted stack, with full pools, deep tables and full states, and fails where one takes more than is said
 * here, or than 1,024. memcpy and memset are the box's own; they are counted as an ordinary C library has them, which
 * keeps nothing on the stack. A function that calls no other may use up to 128 bytes below the stack pointer, as the
 * ABI of x86-64 lets it; they are counted. So what interrupts a call must not use its stack, or must leave these bytes
 * alone. A library that is compiled for another machine takes other figures.
 *
 * RECOVERY after a brown-out. A change, the supervisor's or a caller's, or a tidying may stop after any of its stores,
 * by its allowance or by a loss of power. The pool is then sound: each word has its old right or, where the change
 * covers it, its new one, and nothing else. After a reset, in this order:
 *   1. empty each lookaside buffer (all words 0): it may hold entries that the pool no longer has;
 *   2. call gol_tidy with an allowance that suffices (0xFFFFFFFF always does): it gives no word another right, and
 *      after it the pool is settled, so that no change is refused 7;
 *   3. make the interrupted change again, if it is still wanted: the supervisor's at once, a caller's after 4;
 *   4. rebuild gate sets, call stacks and region lists, or begin with empty ones: one may have been written in part. A
 *      region written in part (five words, and the count) may let someone set what nobody gave. A list that stands in
 *      memory which keeps its words may be taken up as it is only where no call was writing it when the power went.
 * A cut without a reset asks for the same, but for 4: instead of 1, flushing what the change covers is enough.
 * A pool that was being made fresh when the power went must be made fresh again.
 */
#ifndef GOLEUTHAN_H
#define GOLEUTHAN_H

#include <stddef.h>
#include <stdint.h>

#ifdef __cplusplus
extern "C" {
#endif

/* The length of a pool in words. */
#define GOL_POOL_WORDS(d, m, l) (1024u * (d) + 1024u * (m) + 64u * (l))

/* The length of a shape in words, and the paper's form. */
#define GOL_SHAPE_WORDS 5u
#define GOL_EIGHTS 0u

/* The numbers of this face's own. */
#define GOL_DONE 0u
#define GOL_CUT 100u
#define GOL_WRONG_LENGTH 101u

/* Rights. */
#define GOL_NONE 0u
#define GOL_READ 1u
#define GOL_WRITE 2u
#define GOL_EXECUTE 3u

/* Kinds of access. */
#define GOL_LOAD 0u
#define GOL_STORE 1u
#define GOL_FETCH 2u

/* The lengths of the lent states in words, and the word of a return gate. */
#define GOL_BUFFER_WORDS 257u
#define GOL_GATES_WORDS 193u
#define GOL_STACK_WORDS 34u
#define GOL_REGIONS_WORDS 321u
#define GOL_RETURN_GATE 0xFFFFFFFFu

/*
 * Makes the pool fresh: no domain has a right anywhere. Every root word becomes 0x80000000, every other word 0.
 * Afterwards empty every lookaside buffer of this pool.
 * Returns 0, 101, or 1.
 */
uint32_t gol_fresh(uint32_t *pool, size_t words, const uint32_t *shape, size_t shape_len);

/*
 * The supervisor's own change, always allowed; gol_change_by makes a caller's.
 * Gives `domain` the right `right` on every word that has one of the `length` bytes from `start` on. The start is
 * rounded down to a multiple of 4; its low two bits are added to the length, which is then rounded up to a multiple of
 * 4. So 4 bytes at 0x1002 are the words at 0x1000 and 0x1004. Refusal 4 is on the length as given; 5 is given where one
 * of the bytes lies past 0xFFFFFFFF. Words outside keep their rights, and other domains too.
 * At most `allowance` words of the pool are written, each once; the allowance does not alter which, nor in which order.
 * Afterwards, done or cut, flush the same region for the domain in every lookaside buffer of this pool.
 * out[0]: the number of words written; 0 where it was cut or refused.
 * Returns 0, 101, 1 to 8 in this order, or 100 where more stores were wanted than allowed (exactly `allowance` were
 * made).
 */
uint32_t gol_change(uint32_t *pool, size_t words, const uint32_t *shape, size_t shape_len, uint32_t domain,
                    uint32_t start, uint32_t length, uint32_t right, uint32_t allowance, uint32_t *out,
                    size_t out_len);

/*
 * Makes a sound pool settled: gives up tables that the rights no longer need. No word's right changes, after any store.
 * No flush is needed.
 * out[0]: the number of words written; 0 where it was cut or refused.
 * Returns 0, 101, 1, 6, or 100 as gol_change does.
 */
uint32_t gol_tidy(uint32_t *pool, size_t words, const uint32_t *shape, size_t shape_len, uint32_t allowance,
                  uint32_t *out, size_t out_len);

/*
 * The right that `domain` has on the word at `address`, whose low two bits do not matter, and how far the answer
 * reaches: the longest stretch of that right around the word inside the deciding entry's block. The block is 4 MB for a
 * root entry, 4 KB for a middle table's and 64 bytes for a leaf's. Every byte of the stretch has the right; a byte
 * beside it that lies in the block has another. Where the stretch ends with the block, the right may go on in the next.
 * out[0]: the right. out[1]: the entry that decides. out[2]: the loads made: 1 root, 2 middle table, 3 leaf.
 * out[3]: the first byte of the stretch, a multiple of 4. out[4]: its last byte, so 0xFFFFFFFF at the end of memory.
 * To walk a region in one lookup for each stretch, go on at out[4] + 1, and stop when out[4] is 0xFFFFFFFF or not below
 * the region's last byte. Where a block begins there is a new stretch, of the same right or of another; the first
 * stretch and the last may reach beyond the region.
 * Returns 0, 101, 1, 2, or 6 where the walk meets a bad entry. On a refusal all five are 0, first and last byte too.
 */
uint32_t gol_lookup(const uint32_t *pool, size_t words, const uint32_t *shape, size_t shape_len, uint32_t domain,
                    uint32_t address, uint32_t *out, size_t out_len);

/*
 * The longest runs of one right other than none, by domain and then address, from run number `from` on (the first is
 * number 0). Each is four words of `runs`: domain, first byte, last byte, right. As many are written as have four
 * whole words; words of `runs` past them stay as they were. For a listing in parts, go on with `from` plus the runs
 * that fitted.
 * out[0]: how many runs there are in all, whatever `from` and `runs_len` are; 0xFFFFFFFF stands for that number and any
 * greater one. On a refusal `runs` is as it came.
 * Returns 0, 101, 1, or 6.
 */
uint32_t gol_list(const uint32_t *pool, size_t words, const uint32_t *shape, size_t shape_len, uint32_t from,
                  uint32_t *runs, size_t runs_len, uint32_t *out, size_t out_len);

/*
 * Checks an access of `domain` through a lookaside buffer: the lowest slot that matches answers with 0 loads; else the
 * pool is walked, and the entry that decides is kept in slot next, which moves on, whether the access passes or not.
 * kind: 0 load, 1 store, 2 fetch. size: 1, 2 or 4 bytes, 4 for a fetch. `address` is a multiple of the size.
 * A load passes on rights 1, 2 and 3, a store on 2, a fetch on 3.
 * out[0]: the verdict: 1 pass, 0 deny. out[1]: the loads made, 0 where a slot answered, else 1 to 3.
 * Returns 0, 101, 1, 18, 2, 9, 10, or 6 where no slot matches and the walk meets a bad entry. A deny returns 0.
 */
uint32_t gol_check(const uint32_t *pool, size_t words, const uint32_t *shape, size_t shape_len, uint32_t *buffer,
                   size_t buffer_len, uint32_t domain, uint32_t kind, uint32_t size, uint32_t address, uint32_t *out,
                   size_t out_len);

/*
 * Empties every slot of a buffer. An emptied slot is zero in its four words; next stays.
 * Returns 0, 101, or 18.
 */
uint32_t gol_flush_all(uint32_t *buffer, size_t buffer_len);

/*
 * Empties the slots of `domain`, which may be any number. Slots that count as empty are left as they are.
 * Returns 0, 101, or 18.
 */
uint32_t gol_flush_domain(uint32_t *buffer, size_t buffer_len, uint32_t domain);

/*
 * Empties the slots of `domain`, which may be any number, whose block meets the region, which is rounded and refused as
 * gol_change does it. Left as they are: slots of other domains, slots whose block does not meet the region, slots that
 * count as empty, and next. After a change in a domain this is the flush to make, with the same three numbers.
 * Returns 0, 101, 18, 4, or 5.
 */
uint32_t gol_flush_region(uint32_t *buffer, size_t buffer_len, uint32_t domain, uint32_t start, uint32_t length);

/*
 * Sets a switch gate for `domain` at `address`, to the domain `destination`: in the place of the gate that stands
 * there, else after the last. There is no pool; `d` is the number of domains.
 * Returns 0, 101, 1, 18, 2 (domain or destination), 11, 14, or 12.
 */
uint32_t gol_set_switch_gate(uint32_t d, uint32_t *gates, size_t gates_len, uint32_t domain, uint32_t address,
                             uint32_t destination);

/*
 * Sets a return gate for `domain` at `address`, as gol_set_switch_gate does.
 * Returns 0, 101, 1, 18, 2, 11, or 12.
 */
uint32_t gol_set_return_gate(uint32_t d, uint32_t *gates, size_t gates_len, uint32_t domain, uint32_t address);

/*
 * Removes the gate for `domain` at `address`, the earlier of two. Later gates move down by one; the place that comes
 * free keeps its words.
 * Returns 0, 101, 1, 18, 2, 11, or 13.
 */
uint32_t gol_remove_gate(uint32_t d, uint32_t *gates, size_t gates_len, uint32_t domain, uint32_t address);

/*
 * One fetch step at `address`, by the gate that stands there for the current domain. It walks the pool and uses no
 * buffer.
 *   No gate: the fetch is checked in the current domain. `target` must be a multiple of 4 and is not used.
 *   Switch gate: the fetch is checked in the destination; on pass the current domain and `target`, the address to
 *   return to, are pushed, and the destination becomes current.
 *   Return gate: the fetch is checked in the current domain; on pass `target` must equal the top frame's return
 *   address; the frame is popped, and its domain becomes current.
 * A deny leaves the stack as it came.
 * out[0]: the verdict: 1 pass, 0 deny.
 * Returns 0, 101, 1, 18, 2 (the current domain, or one in a frame or gate held), 10, then by the gate: 15, then 6
 * where the walk meets a bad entry; on pass of a return gate 16, then 17. A deny returns 0.
 */
uint32_t gol_step(const uint32_t *pool, size_t words, const uint32_t *shape, size_t shape_len, const uint32_t *gates,
                  size_t gates_len, uint32_t *stack, size_t stack_len, uint32_t address, uint32_t target, uint32_t *out,
                  size_t out_len);

/*
 * Makes a region for `owner`, after the last, with no export given. It is rounded and refused as gol_change does it.
 * There is no pool; `d` is the number of domains.
 * Returns 0, 101, 1, 18, 2 (caller or owner), 4, 5, 19 (the caller is not 0, or the region shares a memory word with
 * one held), or 20.
 */
uint32_t gol_make_region(uint32_t d, uint32_t *regions, size_t regions_len, uint32_t caller, uint32_t owner,
                         uint32_t start, uint32_t length);

/*
 * Passes the region of exactly these words, the earlier of two, from the caller to `owner`. Its exports end: given and
 * rights become 0, also where the owner stays the same.
 * Returns 0, 101, 1, 18, 2 (caller or owner), 4, 5, or 19 (no region held has exactly these words, or it is not the
 * caller's).
 */
uint32_t gol_pass_region(uint32_t d, uint32_t *regions, size_t regions_len, uint32_t caller, uint32_t owner,
                         uint32_t start, uint32_t length);

/*
 * Gives `receiver` an export of `right` in the caller's region of exactly these words, the earlier of two: in the place
 * of the one that it had there, if it had one. Other exports stay.
 * Returns 0, 101, 1, 18, 2 (caller or receiver), 3, 4, 5, or 19 (as gol_pass_region; or the receiver is the caller).
 */
uint32_t gol_give_export(uint32_t d, uint32_t *regions, size_t regions_len, uint32_t caller, uint32_t receiver,
                         uint32_t right, uint32_t start, uint32_t length);

/*
 * The change that gol_change makes, where `caller` may: every word that it covers allows it, by WHO MAY SET RIGHTS. It
 * makes the same stores in the same order, and asks for the same flush, for `domain`. The list is only read.
 * out[0]: the number of words written; 0 where it was cut or refused.
 * Returns 0, 101, 1, 18, 2 (caller or domain), 3, 4, 5, 19, 6, 7, 8, or 100 as gol_change does.
 */
uint32_t gol_change_by(uint32_t *pool, size_t words, const uint32_t *shape, size_t shape_len, const uint32_t *regions,
                       size_t regions_len, uint32_t caller, uint32_t domain, uint32_t start, uint32_t length,
                       uint32_t right, uint32_t allowance, uint32_t *out, size_t out_len);

#ifdef __cplusplus
}
#endif

#endif
