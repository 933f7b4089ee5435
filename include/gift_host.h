/* GIFT-128 and GIFT-64 for hosts: the functions of libgift_host.a, which `tools/built library` writes for x86-64 Linux.
 *
 * Every function is proved to answer as said here for all lengths, numbers, bytes and records. There is nothing to set up
 * or tear down, and nothing is kept between calls: all memory is the host's, and is lent for the length of one call. Calls
 * on different memory may run at the same time. The library takes no heap and under one KiB of stack (2.4 KiB for CMAC, 2.7 KiB for bundles,
 * 19 KiB where the plain engine is called, 26 KiB for many blocks of GIFT-128, 31 KiB for streams), and calls nothing but memcpy and memset.
 *
 * For kernels and hypervisors: it is code for baseline x86-64, uses SSE2 registers and the red zone, and has no unwind tables.
 *
 * Which call: a block by itself, and many blocks each by itself, is ECB and not authenticated. For messages use counter mode
 * (gift_stream_piece) with a CMAC over what was encrypted (gift_mac, gift_mac_check), for settings a bundle. docs/SECURITY.md says more, and what
 * is wiped and what is not. gift_refusals.h has the refusals as texts.
 *
 * A call answers 0 (GIFT_DONE) or the number of a refusal. Refusals are tried in the order given with each function, and
 * the first that applies is the one given. After a refusal everything lent is as it was before the call.
 *
 * What the host owes, since no callee can test it:
 *   - a pointer is not null and is aligned for its type, also with length 0, where it may point anywhere else;
 *   - as many elements as the length says lie there, in less than 2^63 bytes, each with a value; what a call only writes (the buffer of a take, a
 *     tag, the output of many blocks, of a piece and of a writer) needs none before it;
 *   - during the call nobody else writes to them, or even reads them where the pointer is not to const;
 *   - two buffers of one call do not overlap, unless both are const.
 * A wrong length, number or record is no such fault: it is refused.
 *
 * The library and this header have an edition, a number that rises whenever a record, an argument or a count changes:
 * a host that finds another one linked than it was compiled for must not call anything else.
 *
 * Where the compiler has no headers of its own, declare uint8_t, uint16_t, uint32_t and size_t and define GIFT_HOST_NO_INCLUDES first.
 */
#ifndef GIFT_HOST_H
#define GIFT_HOST_H

#ifndef GIFT_HOST_NO_INCLUDES
#include <stddef.h>
#include <stdint.h>
#endif

#ifdef __cplusplus
extern "C" {
#endif

/* Marks a result that must be looked at: after a refusal nothing was done. */
#if defined(__GNUC__) || defined(__clang__)
#define GIFT_HOST_LOOK __attribute__((warn_unused_result))
#else
#define GIFT_HOST_LOOK
#endif

#define GIFT_HOST_EDITION 5 /* of this header */

/* The edition of the library that is linked. */
uint32_t gift_host_edition(void);

#define GIFT_BLOCK_SIZE 16 /* bytes of a block */
#define GIFT_KEY_SIZE 16   /* bytes of a key */
#define GIFT_WORDS 80      /* round words of a key */

/* The numbers given back. */
#define GIFT_DONE 0
#define GIFT_BAD_KEY_LENGTH 1    /* the key is not of 16 bytes */
#define GIFT_BAD_BLOCK_LENGTH 2  /* a block, take buffer or tag is not of 16 bytes, or a nonce not of 12; many blocks: input not a multiple of 16; GIFT-64: 8 */
#define GIFT_BAD_OUTPUT_LENGTH 3 /* the output is not as long as the input */
#define GIFT_BAD_WORD_COUNT 4    /* the round words, or the numbers of pairs, are not 80 */
#define GIFT_BAD_LANE 5          /* a lane number above 15 */
#define GIFT_LANE_NOT_IDLE 6     /* opening a lane that is not idle */
#define GIFT_LANE_NOT_FINISHED 7 /* taking from a lane that is not finished */
#define GIFT_TOO_MANY_TURNS 8    /* more than 1,024 turns asked */
#define GIFT_BAD_DIRECTION 9     /* a direction that is neither 0 nor 1 */
#define GIFT_BAD_BENCH 10        /* not sixteen records, last served above 15, or a record that is not sound */
#define GIFT_BAD_STATE 10        /* the same number: a gift_mac_state that claims more than 16 held bytes, or a gift_stream more than 15 unused ones */
#define GIFT_NOT_THE_OWNER 11    /* opening with owner 0; taking from or closing a busy lane with another number than its owner's */
#define GIFT_TOO_FEW_COUNTERS 12 /* a piece needs more counters than the stream has left */
#define GIFT_BAD_ORDER 13        /* an order that is neither 0 nor 1 */
#define GIFT_BAD_BUNDLE_LENGTH 20 /* a bundle under 24 bytes, over 65,536, or with a total length that is not the buffer's */
#define GIFT_BAD_TAG 21           /* a bundle's tag is not the CMAC of all before it */
#define GIFT_MALFORMED 22         /* a bundle breaks the layout */
#define GIFT_MUST_KNOW 23         /* a bundle has a setting that must be known, of a kind that the reader does not know */
#define GIFT_BAD_LIST 24          /* rows and pool are no list of settings of the writer's edition that one bundle can hold */
#define GIFT_SHORT_OUTPUT 25      /* the output is shorter than the bundle, or rows lent are fewer than the ids that differ */

/* The orders: how the sixteen bytes of a block are seen as its 128 bits, and these as bytes again. In either, the rounds and the key
 * are the same, and bit i of word j (gift_state) is bit 4i+j of the block. What the library did before edition 5 is order 0. */
#define GIFT_ORDER_NUMBER 0 /* one number, the first byte the most significant: the GIFT paper */
#define GIFT_ORDER_WORDS 1  /* word j is bytes 4j to 4j+3, the most significant first: GIFT-COFB */

/* ---- one block, in place ---- */

/* By a key, in an order. Refusals: 13, 1, 2. */
GIFT_HOST_LOOK uint32_t gift_encrypt_by_key(uint32_t order, const uint8_t *key, size_t key_len, uint8_t *block, size_t block_len);
GIFT_HOST_LOOK uint32_t gift_decrypt_by_key(uint32_t order, const uint8_t *key, size_t key_len, uint8_t *block, size_t block_len);

/* The same by the plain engine, which does document 01's steps one by one on 32 nibbles: for an auditor to read, and for a host
 * that holds one engine to the other. It knows order 0 alone; there the two are proved to give the same number and bytes, whatever is lent. It takes some 28
 * times as long as gift_encrypt_by_key, and 35 times as long as gift_decrypt_by_key (one block, x86-64, the kit's clang 22 at
 * -O3, by speed/bench). Refusals: 1, 2. */
GIFT_HOST_LOOK uint32_t gift_plain_encrypt_by_key(const uint8_t *key, size_t key_len, uint8_t *block, size_t block_len);
GIFT_HOST_LOOK uint32_t gift_plain_decrypt_by_key(const uint8_t *key, size_t key_len, uint8_t *block, size_t block_len);

/* By 80 round words: those of gift_expand, which saves expanding the key for every block, or any others. Refusals: 13, 4, 2. */
GIFT_HOST_LOOK uint32_t gift_encrypt_by_words(uint32_t order, const uint32_t *words, size_t words_len, uint8_t *block, size_t block_len);
GIFT_HOST_LOOK uint32_t gift_decrypt_by_words(uint32_t order, const uint32_t *words, size_t words_len, uint8_t *block, size_t block_len);

/* Fills words with the 80 round words of a key. Refusals: 1, 4. */
GIFT_HOST_LOOK uint32_t gift_expand(const uint8_t *key, size_t key_len, uint32_t *words, size_t words_len);

/* Looks at round words in the GIFT paper's letters, and makes words of such letters: V of round 1, U of round 1, V of round 2, .. U of round 40, eighty
 * numbers. gift_pairs fills pairs with what 80 words stand for, gift_words fills words with those that stand for 80 such numbers: each undoes the other,
 * for any numbers at all, so every 80 words stand for exactly one list of pairs. The calls by words and a lane that holds them do the paper's rounds with
 * these pairs. Of the words of a key the pairs are the key's. Whoever makes its own words can hold them so to the paper.
 * Refusals: 4 if what is given (words; for gift_words pairs) is not 80 numbers, 3 if what is to be filled is not as long. */
GIFT_HOST_LOOK uint32_t gift_pairs(const uint32_t *words, size_t words_len, uint32_t *pairs, size_t pairs_len);
GIFT_HOST_LOOK uint32_t gift_words(const uint32_t *pairs, size_t pairs_len, uint32_t *words, size_t words_len);

/* ---- many blocks, from one buffer to another ---- */

/* Block n of the output from block n of the input, each by itself. Length 0 is done and writes nothing. Refusals: 13, 1, 2, 3. */
GIFT_HOST_LOOK uint32_t gift_encrypt_blocks(uint32_t order, const uint8_t *key, size_t key_len, const uint8_t *input, size_t input_len,
                             uint8_t *output, size_t output_len);
GIFT_HOST_LOOK uint32_t gift_decrypt_blocks(uint32_t order, const uint8_t *key, size_t key_len, const uint8_t *input, size_t input_len,
                             uint8_t *output, size_t output_len);

/* The same by 80 round words, those of gift_expand or any others: for a host that keeps them. From 64 bytes on four to
 * twelve blocks are done at once, and from 1,024 on sixty-four, here and in the calls by a key. Refusals: 13, 4, 2, 3. */
GIFT_HOST_LOOK uint32_t gift_encrypt_blocks_by_words(uint32_t order, const uint32_t *words, size_t words_len, const uint8_t *input, size_t input_len,
                                      uint8_t *output, size_t output_len);
GIFT_HOST_LOOK uint32_t gift_decrypt_blocks_by_words(uint32_t order, const uint32_t *words, size_t words_len, const uint8_t *input, size_t input_len,
                                      uint8_t *output, size_t output_len);

/* ---- the bench: sixteen lanes that take turns ----
 *
 * A bench is sixteen lane records, lent as one array, and the number of the lane last served. A fresh one has all records
 * zero and the last served number GIFT_FRESH_LAST. The host keeps both. It passes the last served number by value;
 * only gift_turn moves it, and gives the new one back.
 *
 * A lane belongs to the guest that opened it, by a number from 1 to 65535 that the host gives each of its guests: its owner,
 * until it is idle again. The library believes the number that a call passes; that a guest passes its own and no other is
 * the host's affair. What a take (gift_take) and a close (gift_close) give:
 *
 *     the lane is   with its owner's number                 with any other number, 0 too
 *     idle          take 7; close done, nothing changed     the same: take 7, close done for anyone
 *     running       take 7; close done                      11; 11
 *     finished      take 2 or done; close done              11 even with a wrong buffer; 11
 *
 * A busy lane is released by its owner's take or close, and by nothing else. Of the others a guest learns which lanes are busy
 * and how many turns were made, but no byte of a key or block: in two runs from a fresh bench whose calls differ only in such
 * bytes of other guests, every number given back and every turn told is the same, and so is what stands in the guest's own
 * take buffers. (The records themselves are the host's, and are not to be shown to guests.)
 *
 * A record is sound if it is all zero, which is idle, or if its owner is not 0, its direction and its order are 0 or 1 and it is
 * running with count 0 to 7 or finished with count 8. Every call looks at all of every record and refuses with 10 if one is not
 * sound; none repairs it. A take and a close leave the record all zero: no round word or block stays in it. What a call
 * itself had on the stack or in registers is not wiped: the round words of a lane that was opened or turned may lie below
 * the caller's frame until something else is written there.
 */

#define GIFT_LANES 16          /* records of a bench */
#define GIFT_FRESH_LAST 15     /* the last served number of a fresh bench */
#define GIFT_MOST_TURNS 1024   /* that one call may ask for */
#define GIFT_TURNS_OF_A_LANE 8 /* from its opening until it is finished */

#define GIFT_ENCRYPT 0
#define GIFT_DECRYPT 1

#define GIFT_IDLE 0
#define GIFT_RUNNING 1
#define GIFT_FINISHED 2

/* A block's four words: bit i of word j is bit 4i+j of the block. */
typedef struct gift_state {
    uint32_t s0, s1, s2, s3;
} gift_state;

/* One lane: 344 bytes, aligned to 4, none of them padding. */
typedef struct gift_lane {
    uint8_t phase;              /* at 0: GIFT_IDLE, GIFT_RUNNING or GIFT_FINISHED */
    uint8_t direction;          /* at 1: GIFT_ENCRYPT or GIFT_DECRYPT */
    uint16_t owner;             /* at 2: the guest that opened it */
    uint16_t count;             /* at 4: its own turns since it was opened */
    uint16_t order;             /* at 6: GIFT_ORDER_NUMBER or GIFT_ORDER_WORDS: how a take writes its block */
    uint32_t words[GIFT_WORDS]; /* at 8: its round words */
    gift_state state;           /* at 328: its block, as far as it has come */
} gift_lane;

/* What a call for turns tells. */
typedef struct gift_turns {
    uint32_t code; /* 0, or the refusal */
    uint32_t made; /* how many turns were made; 0 on a refusal */
    uint32_t last; /* the last served number from now on; the one passed, if no turn was made */
} gift_turns;

/* Opens an idle lane on a key and a block, which is read in the order passed: it runs from here, with count 0, for the guest
 * whose number is passed as owner. Key and block are not needed after the call: the record holds the key's round words, the
 * block and its order. Refusals: 10, 5, 6, 11, 9, 13, 1, 2. */
GIFT_HOST_LOOK uint32_t gift_open_lane(gift_lane *lanes, size_t lanes_len, uint32_t last, uint32_t lane, uint16_t owner,
                        uint32_t direction, uint32_t order, const uint8_t *key, size_t key_len, const uint8_t *block, size_t block_len);

/* Makes as many turns as are asked for, or fewer if no lane runs any more. Each serves the first running lane after the last
 * served one, in cyclic order, by five rounds, and its eighth finishes it. Asking for 0 is done. An opened lane that is not
 * closed by its owner is finished no later than the 128th turn made after its opening, whatever the other lanes do and
 * the other guests try. That holds if the host passes the `last` that this call gave back to every later call: a host that
 * passes an old one serves the same lanes again and again, and starves the others. Refusals: 10, 8. */
GIFT_HOST_LOOK gift_turns gift_turn(gift_lane *lanes, size_t lanes_len, uint32_t last, uint32_t asked);

/* Writes the 16 bytes of a finished lane, in the order that it was opened in, to its owner, and its record is all zero afterwards.
 * Refusals: 10, 5, 11, 7, 2. */
GIFT_HOST_LOOK uint32_t gift_take(gift_lane *lanes, size_t lanes_len, uint32_t last, uint32_t lane, uint16_t owner, uint8_t *out,
                   size_t out_len);

/* Makes the owner's lane idle, its record all zero, however far it has come; closing an idle lane changes nothing, whoever
 * does it. Refusals: 10, 5, 11. */
GIFT_HOST_LOOK uint32_t gift_close(gift_lane *lanes, size_t lanes_len, uint32_t last, uint32_t lane, uint16_t owner);

/* ---- CMAC (NIST SP 800-38B) over GIFT-128: a tag of 16 bytes ---- */

#define GIFT_TAG_SIZE 16 /* bytes of a tag */

/* What the host keeps between pieces: 356 bytes, aligned to 4, none of them padding. It goes in by value and comes back. */
typedef struct gift_mac_state {
    uint32_t words[GIFT_WORDS]; /* at 0: round words */
    uint8_t chain[16];          /* at 320: the chaining block */
    uint8_t held[16];           /* at 336: bytes held back, a full block too until more comes; zero from `count` on, as the library leaves it */
    uint32_t count;             /* at 352: how many are held, 0 to 16; bytes past them do not count */
} gift_mac_state;

/* What a start or a piece tells: the state from now on. */
typedef struct gift_mac_told {
    uint32_t code; /* 0, or the refusal */
    gift_mac_state state;
} gift_mac_told;

/* What a check tells. */
typedef struct gift_mac_checked {
    uint32_t code; /* 0, or the refusal */
    uint8_t yes;   /* 1 if all 16 bytes are the message's tag, else 0; on a refusal 0 */
} gift_mac_checked;

/* Writes the tag of a whole message, of any length. Refusals: 1, 2. */
GIFT_HOST_LOOK uint32_t gift_mac(const uint8_t *key, size_t key_len, const uint8_t *message, size_t message_len, uint8_t *tag, size_t tag_len);

/* Whether a tag is the message's. It looks at all 16 bytes whatever they are. Refusals: 1, 2. */
GIFT_HOST_LOOK gift_mac_checked gift_mac_check(const uint8_t *key, size_t key_len, const uint8_t *message, size_t message_len, const uint8_t *tag,
                                size_t tag_len);

/* A message in pieces, cut anywhere: start, as many pieces as there are, empty ones too, and the tag of the state, which is the whole message's.
 * A start by a refused key gives a state that is all zero. Refusal: 1. */
GIFT_HOST_LOOK gift_mac_told gift_mac_start(const uint8_t *key, size_t key_len);

/* `state = gift_mac_piece(state, piece, len).state`; a refused piece gives the state back as it was. Refusal: 10. */
GIFT_HOST_LOOK gift_mac_told gift_mac_piece(gift_mac_state state, const uint8_t *piece, size_t piece_len);

/* Writes the tag of what was fed so far. It ends nothing: the state may be fed on. Refusals: 10, 2. */
GIFT_HOST_LOOK uint32_t gift_mac_tag(gift_mac_state state, uint8_t *tag, size_t tag_len);

/* ---- counter mode of NIST SP 800-38A, fed in pieces ----
 *
 * A counter block is 12 bytes of the host's, which stay, and a counter of 32 bits, the most significant byte first, which rises by 1 and never
 * carries into them. The host keeps the stream and lends it for each piece. There is one state for each position of a stream, so that two may be
 * compared byte for byte: where no byte is unused the block is zero, and where the last counter is used the counter is 0 and spent is 1.
 * Encrypting and decrypting are the same.
 *
 * The same key and the same 12 bytes must not meet the same counter twice, in two streams or in one that was kept and used again: the library
 * cannot see that.
 */

#define GIFT_NONCE_SIZE 12 /* bytes of the host's in a counter block */

/* A stream: 360 bytes, aligned to 4, none of them padding. */
typedef struct gift_stream {
    uint32_t words[GIFT_WORDS];     /* at 0: the round words */
    uint8_t nonce[GIFT_NONCE_SIZE]; /* at 320: the host's 12 bytes */
    uint32_t counter;               /* at 332: the next counter */
    uint8_t block[GIFT_BLOCK_SIZE]; /* at 336: the block of the key stream that was made last, zero if it is used up */
    uint32_t unused;                /* at 352: how many of its bytes, the last ones, are not used yet: 0 to 15, more is refused with 10 */
    uint32_t spent;                 /* at 356: 0 while there is a counter left */
} gift_stream;

/* What a start tells. */
typedef struct gift_stream_started {
    uint32_t code; /* 0, or the refusal */
    gift_stream stream;
} gift_stream_started;

/* A stream at its first counter. Refused, it gives one that is all zero and spent. Refusals: 1, 2 (not 12 bytes). */
GIFT_HOST_LOOK gift_stream_started gift_stream_start(const uint8_t *key, size_t key_len, const uint8_t *nonce, size_t nonce_len, uint32_t counter);

/* A piece of any length, 0 too, from one buffer to another of the same length, and the stream moves on. However a message is cut, the same bytes are
 * written, and the stream is the same in the end. 12 exactly if the piece needs more new blocks than counters are left: the bytes unused are served
 * even if none is, and an empty piece is never refused with 12. Refusals: 10, 3, 12. */
GIFT_HOST_LOOK uint32_t gift_stream_piece(gift_stream *stream, const uint8_t *input, size_t input_len, uint8_t *output, size_t output_len);

/* ---- GIFT-64: blocks of 8 bytes, keys of 16; numbers and orders as above ---- */

#define GIFT64_BLOCK_SIZE 8 /* bytes of a block */

/* One block by a key, in place. Refusals: 1, 2. */
GIFT_HOST_LOOK uint32_t gift64_encrypt_by_key(const uint8_t *key, size_t key_len, uint8_t *block, size_t block_len);
GIFT_HOST_LOOK uint32_t gift64_decrypt_by_key(const uint8_t *key, size_t key_len, uint8_t *block, size_t block_len);

/* The same by the plain engine, on 16 nibbles. The two are proved to give the same number and bytes, whatever is lent. Refusals: 1, 2. */
GIFT_HOST_LOOK uint32_t gift64_plain_encrypt_by_key(const uint8_t *key, size_t key_len, uint8_t *block, size_t block_len);
GIFT_HOST_LOOK uint32_t gift64_plain_decrypt_by_key(const uint8_t *key, size_t key_len, uint8_t *block, size_t block_len);

/* Many blocks by a key, from one buffer to another; the key is expanded once. Length 0 is done and writes nothing. Refusals: 1, 2, 3. */
GIFT_HOST_LOOK uint32_t gift64_encrypt_blocks(const uint8_t *key, size_t key_len, const uint8_t *input, size_t input_len,
                               uint8_t *output, size_t output_len);
GIFT_HOST_LOOK uint32_t gift64_decrypt_blocks(const uint8_t *key, size_t key_len, const uint8_t *input, size_t input_len,
                               uint8_t *output, size_t output_len);

/* ---- the settings bundle ----
 *
 * All numbers are big-endian. n is the number of settings, 0 to 256; a bundle has 24 to 65,536 bytes.
 *
 *     at 0        2 bytes   edition, at least 1
 *     at 2        2         n
 *     at 4        4         total length
 *     at 8 + 12i  12        the entry of setting i: id (4), offset of its body (4), length of its body (2), kind (1), must-know 0 or 1 (1)
 *     at 8 + 12n            the bodies in table order, without gaps
 *     at the end  16        CMAC (gift_mac) over all before
 *
 * Ids rise strictly. Edition 1 has kind 0 (one byte, 0 or 1) and kind 1 (a number of 8 bytes); edition 2 adds kind 2 (text of 0 to 255 bytes of
 * any value). A reader of one edition reads bundles of every edition. A setting of a kind that it does not know, in a bundle of a later edition, is
 * unknown if its must-know is 0; if it is 1 the bundle is refused with 23.
 *
 * Proved of all bytes: two readers never show two values for one id; if both accept, what is absent for one is absent for the other; what the reader
 * of edition 2 accepts, that of edition 1 accepts or refuses with 23; on bundles of edition 1 they agree wholly. What a writer wrote, a reader of its
 * edition reads back exactly. docs/BUNDLE.md says it at length.
 */

#define GIFT_BUNDLE_MOST 65536 /* bytes of a bundle, at most */
#define GIFT_BUNDLE_SETTINGS 256 /* settings of a bundle, at most */

/* How a setting stands. There is no default: a value that is not there is not told as 0. */
#define GIFT_REFUSED 0 /* no answer: the bundle was refused, or these are not the bytes that were looked through */
#define GIFT_ABSENT 1  /* the bundle does not have it */
#define GIFT_UNKNOWN 2 /* the bundle has it, and the reader does not know its kind */
#define GIFT_VALUE 3   /* its kind, and its body, `length` bytes of the bundle at `at` */

/* What is told of a setting: 20 bytes. What does not apply is 0; look at `state` first. */
typedef struct gift_told {
    uint32_t state;
    uint32_t id; /* of the entry that is told of */
    uint32_t kind;
    uint32_t at;
    uint32_t length;
} gift_told;

/* What asking for one id tells. */
typedef struct gift_asked {
    uint32_t code; /* 0, or the refusal, and then told.state is GIFT_REFUSED */
    gift_told told;
} gift_asked;

/* One id of a bundle, by a reader of edition 1 or 2. Tag and layout are tested whole in every call. Refusals: 1, 20, 21, 22, 23. */
GIFT_HOST_LOOK gift_asked gift_bundle_ask_1(const uint8_t *key, size_t key_len, const uint8_t *bundle, size_t bundle_len, uint32_t id);
GIFT_HOST_LOOK gift_asked gift_bundle_ask_2(const uint8_t *key, size_t key_len, const uint8_t *bundle, size_t bundle_len, uint32_t id);

/* A bundle that was looked through: the number given, by which edition's reader, its settings, and its bytes. On a refusal the last two are 0. */
typedef struct gift_bundle {
    uint32_t code;
    uint32_t reader;
    uint32_t count;
    uint32_t size;
} gift_bundle;

/* Looks a bundle through once, tag and layout. Refusals: 1, 20, 21, 22, 23. */
GIFT_HOST_LOOK gift_bundle gift_bundle_open_1(const uint8_t *key, size_t key_len, const uint8_t *bundle, size_t bundle_len);
GIFT_HOST_LOOK gift_bundle gift_bundle_open_2(const uint8_t *key, size_t key_len, const uint8_t *bundle, size_t bundle_len);

/* One id of a bundle that was looked through, by what that gave and the same bytes: what gift_bundle_ask tells, for a pass over the table. If the bundle
 * was refused, or has another length, the state is GIFT_REFUSED whatever is asked: a host that forgot to look at the code gets no answer. That the bytes
 * are still those that were looked through is the host's affair. */
GIFT_HOST_LOOK gift_told gift_bundle_look(gift_bundle seen, const uint8_t *bundle, size_t bundle_len, uint32_t id);

/* The setting at place i of the table, ids rising, from 0 on; past the last one the state is GIFT_ABSENT. */
GIFT_HOST_LOOK gift_told gift_bundle_entry(gift_bundle seen, const uint8_t *bundle, size_t bundle_len, uint32_t i);

/* A setting for the writer; its body is the next `length` bytes of the pool. */
typedef struct gift_row {
    uint32_t id;
    uint32_t kind;
    uint32_t must_know; /* 0 or 1 */
    uint32_t length;
} gift_row;

/* What writing tells. */
typedef struct gift_written {
    uint32_t code;  /* 0, or the refusal */
    uint32_t total; /* bytes of the bundle; 0 on a refusal */
} gift_written;

/* Writes a list of settings as a bundle of edition 1 or 2. The rows are passed as numbers, `(const uint32_t *)rows, 4 * count`; a number of numbers that
 * is no multiple of 4, and a pool that is not as long as the rows say, are 24. Bytes of the output past the total stay. Refusals: 1, 24, 25. */
GIFT_HOST_LOOK gift_written gift_bundle_write_1(const uint8_t *key, size_t key_len, const uint32_t *rows, size_t rows_len, const uint8_t *pool, size_t pool_len,
                                 uint8_t *out, size_t out_len);
GIFT_HOST_LOOK gift_written gift_bundle_write_2(const uint8_t *key, size_t key_len, const uint32_t *rows, size_t rows_len, const uint8_t *pool, size_t pool_len,
                                 uint8_t *out, size_t out_len);

/* A setting that two bundles answer differently, by the reader of edition 2: its id, and how it stands in the first and in the second. A value's body is `length` bytes
 * of its own bundle at `at`; what does not apply is 0. */
typedef struct gift_difference {
    uint32_t id;
    struct {
        uint32_t state;  /* GIFT_ABSENT, GIFT_UNKNOWN, GIFT_VALUE */
        uint32_t kind;
        uint32_t at;
        uint32_t length;
    } first, second;
} gift_difference;

#define GIFT_DIFFERENCES 512 /* rows that are always enough */

/* What comparing tells. */
typedef struct gift_compared {
    uint32_t code;   /* 0, or the first refusal that applies */
    uint32_t first;  /* the first bundle's number: 0, 1, 20, 21, 22, 23 */
    uint32_t second; /* the second's */
    uint32_t count;  /* how many ids differ; 0 if a bundle is refused */
} gift_compared;

/* Compares two bundles by one key: a row for each id whose two answers differ, ids rising, each once. Unknown is the same as unknown, a value is its kind and body, and
 * must-know is no part of it. The rows are passed as numbers, `(uint32_t *)rows, 9 * count`. Refusals: the first bundle's number, the second's, 25 if the rows lent are fewer
 * than `count`, which is told all the same; then no row is written. Rows past the count stay. */
GIFT_HOST_LOOK gift_compared gift_bundle_differ(const uint8_t *key, size_t key_len, const uint8_t *first, size_t first_len, const uint8_t *second, size_t second_len,
                                 uint32_t *rows, size_t rows_len);

/* The layout above, held to the compiler's where it can say so. */
#if defined(__cplusplus) && __cplusplus >= 201103L
#define GIFT_HOST_HOLDS(test) static_assert(test, #test)
#elif defined(__STDC_VERSION__) && __STDC_VERSION__ >= 201112L
#define GIFT_HOST_HOLDS(test) _Static_assert(test, #test)
#endif
#ifdef GIFT_HOST_HOLDS
GIFT_HOST_HOLDS(sizeof(gift_state) == 16);
GIFT_HOST_HOLDS(sizeof(gift_lane) == 344);
GIFT_HOST_HOLDS(sizeof(gift_turns) == 12);
GIFT_HOST_HOLDS(sizeof(gift_mac_state) == 356);
GIFT_HOST_HOLDS(sizeof(gift_mac_told) == 360);
GIFT_HOST_HOLDS(sizeof(gift_mac_checked) == 8);
GIFT_HOST_HOLDS(sizeof(gift_stream) == 360);
GIFT_HOST_HOLDS(sizeof(gift_stream_started) == 364);
GIFT_HOST_HOLDS(sizeof(gift_told) == 20);
GIFT_HOST_HOLDS(sizeof(gift_asked) == 24);
GIFT_HOST_HOLDS(sizeof(gift_bundle) == 16);
GIFT_HOST_HOLDS(sizeof(gift_row) == 16);
GIFT_HOST_HOLDS(sizeof(gift_written) == 8);
GIFT_HOST_HOLDS(sizeof(gift_difference) == 36);
GIFT_HOST_HOLDS(sizeof(gift_compared) == 16);
#ifdef offsetof
GIFT_HOST_HOLDS(offsetof(gift_lane, direction) == 1);
GIFT_HOST_HOLDS(offsetof(gift_lane, owner) == 2);
GIFT_HOST_HOLDS(offsetof(gift_lane, count) == 4);
GIFT_HOST_HOLDS(offsetof(gift_lane, order) == 6);
GIFT_HOST_HOLDS(offsetof(gift_lane, words) == 8);
GIFT_HOST_HOLDS(offsetof(gift_lane, state) == 328);
GIFT_HOST_HOLDS(offsetof(gift_mac_state, chain) == 320);
GIFT_HOST_HOLDS(offsetof(gift_mac_state, held) == 336);
GIFT_HOST_HOLDS(offsetof(gift_mac_state, count) == 352);
GIFT_HOST_HOLDS(offsetof(gift_mac_checked, yes) == 4);
GIFT_HOST_HOLDS(offsetof(gift_stream_started, stream) == 4);
GIFT_HOST_HOLDS(offsetof(gift_stream, nonce) == 320);
GIFT_HOST_HOLDS(offsetof(gift_stream, counter) == 332);
GIFT_HOST_HOLDS(offsetof(gift_stream, block) == 336);
GIFT_HOST_HOLDS(offsetof(gift_stream, unused) == 352);
GIFT_HOST_HOLDS(offsetof(gift_stream, spent) == 356);
#endif
#undef GIFT_HOST_HOLDS
#endif

#ifdef __cplusplus
}
#endif

#endif
