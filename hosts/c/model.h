/* Documents 01 and 02 as plain C: the published ciphers, the bench, and the number that each call gives back. What abuse.c holds the library to.
 * It shares nothing with the library but the form of a lane record, and writes document 01's numbers as numbers. */
#include <stddef.h>
#include <stdint.h>

#include "../../include/gift_host.h"

/* ---- the published cipher ---- */

typedef struct {
    uint8_t b[128]; /* b[i] is bit i of the block's number */
} bits;

typedef struct {
    uint32_t u, v;
} pair; /* what a round takes from the key */

static const uint8_t sbox[16] = {0x1, 0xa, 0x4, 0xc, 0x6, 0xf, 0x3, 0x9, 0x2, 0xd, 0xb, 0x7, 0x5, 0x0, 0x8, 0xe};

static unsigned P(unsigned i)
{
    return 4 * (i / 16) + 32 * ((3 * ((i % 16) / 4) + i % 4) % 4) + i % 4;
}

/* Which bit of the bytes, counted from the last byte's lowest, is b(q): in order 0 bit q, and in order 1 (2026-09) bit i of word j with q = 4i+j, word j
 * being bytes 4j to 4j+3, the most significant first. */
static unsigned place(unsigned order, unsigned q)
{
    return order == 0 ? q : 32 * (3 - q % 4) + q / 4;
}

static bits bits_of_bytes(unsigned order, const uint8_t *bytes)
{
    bits x;
    for (unsigned q = 0; q < 128; q++) {
        unsigned i = place(order, q);
        x.b[q] = bytes[15 - i / 8] >> (i % 8) & 1;
    }
    return x;
}

static void bytes_of_bits(unsigned order, bits x, uint8_t *bytes)
{
    for (unsigned n = 0; n < 16; n++)
        bytes[n] = 0;
    for (unsigned q = 0; q < 128; q++) {
        unsigned i = place(order, q);
        bytes[15 - i / 8] |= (uint8_t)(x.b[q] << (i % 8));
    }
}

/* steps 3 and 4, which undo themselves */
static void add_key_and_constant(bits *x, pair k, unsigned constant)
{
    for (unsigned i = 0; i < 32; i++) {
        x->b[4 * i + 2] ^= (uint8_t)(k.u >> i & 1);
        x->b[4 * i + 1] ^= (uint8_t)(k.v >> i & 1);
    }
    x->b[127] ^= 1;
    for (unsigned i = 0; i < 6; i++)
        x->b[4 * i + 3] ^= (uint8_t)(constant >> i & 1);
}

static unsigned nibble(const bits *x, unsigned i)
{
    return x->b[4 * i] | x->b[4 * i + 1] << 1 | x->b[4 * i + 2] << 2 | x->b[4 * i + 3] << 3;
}

static void set_nibble(bits *x, unsigned i, unsigned to)
{
    for (unsigned j = 0; j < 4; j++)
        x->b[4 * i + j] = to >> j & 1;
}

static void do_round(bits *x, pair k, unsigned constant)
{
    bits y;
    for (unsigned i = 0; i < 32; i++)
        set_nibble(x, i, sbox[nibble(x, i)]);
    for (unsigned i = 0; i < 128; i++)
        y.b[P(i)] = x->b[i];
    add_key_and_constant(&y, k, constant);
    *x = y;
}

static void undo_round(bits *x, pair k, unsigned constant)
{
    bits y;
    uint8_t inverse[16];
    for (unsigned n = 0; n < 16; n++)
        inverse[sbox[n]] = (uint8_t)n;
    add_key_and_constant(x, k, constant);
    for (unsigned i = 0; i < 128; i++)
        y.b[i] = x->b[P(i)];
    for (unsigned i = 0; i < 32; i++)
        set_nibble(&y, i, inverse[nibble(&y, i)]);
    *x = y;
}

/* the constant of a round, from 0: stepped once before each use */
static unsigned constant_of(unsigned round)
{
    unsigned c = 0;
    for (unsigned i = 0; i <= round; i++)
        c = (c << 1 & 0x3f) | ((c >> 5 ^ c >> 4 ^ 1) & 1);
    return c;
}

/* so many rounds from one on, done or undone; pairs has all forty */
static void rounds(bits *x, unsigned direction, const pair *pairs, unsigned from, unsigned count)
{
    for (unsigned i = 0; i < count; i++) {
        unsigned r = direction == 0 ? from + i : from + count - 1 - i;
        if (direction == 0)
            do_round(x, pairs[r], constant_of(r));
        else
            undo_round(x, pairs[r], constant_of(r));
    }
}

static uint16_t rotated16(uint16_t x, unsigned n)
{
    return (uint16_t)(x >> n | x << (16 - n));
}

static void pairs_of_key(const uint8_t *key, pair *pairs)
{
    uint16_t k[8];
    for (unsigned i = 0; i < 8; i++)
        k[7 - i] = (uint16_t)(key[2 * i] << 8 | key[2 * i + 1]);
    for (unsigned r = 0; r < 40; r++) {
        uint16_t k0 = k[0], k1 = k[1];
        pairs[r].u = (uint32_t)k[5] << 16 | k[4];
        pairs[r].v = (uint32_t)k[1] << 16 | k[0];
        for (unsigned i = 0; i < 6; i++)
            k[i] = k[i + 2];
        k[7] = rotated16(k1, 2);
        k[6] = rotated16(k0, 12);
    }
}

static void model_by_key(unsigned order, unsigned direction, const uint8_t *key, const uint8_t *from, uint8_t *to)
{
    pair pairs[40];
    bits x = bits_of_bytes(order, from);
    pairs_of_key(key, pairs);
    rounds(&x, direction, pairs, 0, 40);
    bytes_of_bits(order, x, to);
}

/* ---- what round words stand for ----
 * Words 2r and 2r+1 are V and U of round r, kept as the block's words stand after that round. Within five rounds those are not moved along with
 * the nibbles: k rounds in, place i holds what belongs to nibble N(..N(i)), N taken k times, where N(n) is the nibble to which bit 3 of nibble n
 * moves. After five rounds that is nibble i again. */

static unsigned nibble_at(unsigned k, unsigned i)
{
    while (k-- > 0)
        i = P(4 * i + 3) / 4;
    return i;
}

static uint32_t arranged(unsigned k, uint32_t w)
{
    uint32_t kept = 0;
    for (unsigned i = 0; i < 32; i++)
        kept |= (w >> nibble_at(k, i) & 1) << i;
    return kept;
}

static uint32_t stands_for(unsigned k, uint32_t kept)
{
    uint32_t w = 0;
    for (unsigned i = 0; i < 32; i++)
        w |= (kept >> i & 1) << nibble_at(k, i);
    return w;
}

static void model_expand(const uint8_t *key, uint32_t *words)
{
    pair pairs[40];
    pairs_of_key(key, pairs);
    for (unsigned r = 0; r < 40; r++) {
        words[2 * r] = arranged(r % 5 + 1, pairs[r].v);
        words[2 * r + 1] = arranged(r % 5 + 1, pairs[r].u);
    }
}

/* the pairs that words stand for, in a row, V first; and the words of such a row */
static void model_pairs(const uint32_t *words, uint32_t *row)
{
    for (unsigned i = 0; i < 80; i++)
        row[i] = stands_for(i / 2 % 5 + 1, words[i]);
}

static void model_words(const uint32_t *row, uint32_t *words)
{
    for (unsigned i = 0; i < 80; i++)
        words[i] = arranged(i / 2 % 5 + 1, row[i]);
}

/* so many rounds from one on, by words; both are multiples of five */
static void rounds_by_words(bits *x, unsigned direction, const uint32_t *words, unsigned from, unsigned count)
{
    pair pairs[40];
    for (unsigned r = from; r < from + count; r++) {
        pairs[r].v = stands_for(r % 5 + 1, words[2 * r]);
        pairs[r].u = stands_for(r % 5 + 1, words[2 * r + 1]);
    }
    rounds(x, direction, pairs, from, count);
}

static void model_by_words(unsigned order, unsigned direction, const uint32_t *words, const uint8_t *from, uint8_t *to)
{
    bits x = bits_of_bytes(order, from);
    rounds_by_words(&x, direction, words, 0, 40);
    bytes_of_bits(order, x, to);
}

/* ---- packing: bit i of word j is b(4i+j) ---- */

static gift_state packed(bits x)
{
    uint32_t s[4] = {0, 0, 0, 0};
    for (unsigned i = 0; i < 128; i++)
        s[i % 4] |= (uint32_t)x.b[i] << i / 4;
    return (gift_state){s[0], s[1], s[2], s[3]};
}

static bits unpacked(gift_state state)
{
    const uint32_t s[4] = {state.s0, state.s1, state.s2, state.s3};
    bits x;
    for (unsigned i = 0; i < 128; i++)
        x.b[i] = s[i % 4] >> i / 4 & 1;
    return x;
}

/* ---- the bench: what each call does where nothing refuses it ---- */

#define LANES 16 /* as document 02 has it, 2026-05 */

static void model_open(gift_lane *lane, uint16_t owner, uint32_t direction, uint32_t order, const uint8_t *key, const uint8_t *block)
{
    lane->phase = 1;
    lane->owner = owner;
    lane->direction = (uint8_t)direction;
    lane->count = 0;
    lane->order = (uint16_t)order;
    model_expand(key, lane->words);
    lane->state = packed(bits_of_bytes(order, block));
}

static void model_serve(gift_lane *lane)
{
    bits x = unpacked(lane->state);
    unsigned offset = lane->direction == 0 ? 5u * lane->count : 35 - 5u * lane->count;
    rounds_by_words(&x, lane->direction, lane->words, offset, 5);
    lane->state = packed(x);
    lane->count++;
    if (lane->count == 8)
        lane->phase = 2;
}

/* how many turns are made */
static uint32_t model_turn(gift_lane *lanes, uint32_t *last, uint32_t asked)
{
    for (uint32_t made = 0; made < asked; made++) {
        uint32_t step = 1;
        while (step <= LANES && lanes[(*last + step) % LANES].phase != 1)
            step++;
        if (step > LANES)
            return made;
        *last = (*last + step) % LANES;
        model_serve(&lanes[*last]);
    }
    return asked;
}

/* all zero */
static void model_close(gift_lane *lane)
{
    *lane = (gift_lane){0};
}

static void model_take(gift_lane *lane, uint8_t *out)
{
    bytes_of_bits(lane->order, unpacked(lane->state), out);
    model_close(lane);
}

/* ---- the numbers given back, in each call's order ---- */

/* a call that takes an order tries it before its own */
static uint32_t in_order(uint32_t order, uint32_t own)
{
    return order > 1 ? 13 : own;
}

static uint32_t key_number(size_t key_len, size_t block_len)
{
    return key_len != 16 ? 1 : block_len != 16 ? 2 : 0;
}

static uint32_t words_number(size_t words_len, size_t block_len)
{
    return words_len != 80 ? 4 : block_len != 16 ? 2 : 0;
}

static uint32_t expand_number(size_t key_len, size_t words_len)
{
    return key_len != 16 ? 1 : words_len != 80 ? 4 : 0;
}

static uint32_t row_number(size_t given_len, size_t out_len)
{
    return given_len != 80 ? 4 : out_len != 80 ? 3 : 0;
}

static uint32_t many_number(size_t key_len, size_t input_len, size_t output_len)
{
    return key_len != 16 ? 1 : input_len % 16 != 0 ? 2 : output_len != input_len ? 3 : 0;
}

static uint32_t many_words_number(size_t words_len, size_t input_len, size_t output_len)
{
    return words_len != 80 ? 4 : input_len % 16 != 0 ? 2 : output_len != input_len ? 3 : 0;
}

static int sound(const gift_lane *lane)
{
    if (lane->phase == 0) {
        const uint8_t *byte = (const uint8_t *)lane;
        for (size_t i = 0; i < sizeof *lane; i++)
            if (byte[i] != 0)
                return 0;
        return 1;
    }
    if (lane->owner == 0 || lane->direction > 1 || lane->order > 1)
        return 0;
    switch (lane->phase) {
    case 1: return lane->count <= 7;
    case 2: return lane->count == 8;
    default: return 0;
    }
}

static uint32_t bench_number(const gift_lane *lanes, size_t lanes_len, uint32_t last)
{
    if (lanes_len != LANES || last >= LANES)
        return 10;
    for (unsigned i = 0; i < LANES; i++)
        if (!sound(&lanes[i]))
            return 10;
    return 0;
}

static uint32_t lane_number(const gift_lane *lanes, size_t lanes_len, uint32_t last, uint32_t lane)
{
    uint32_t number = bench_number(lanes, lanes_len, last);
    return number != 0 ? number : lane >= LANES ? 5 : 0;
}

static uint32_t open_number(const gift_lane *lanes, size_t lanes_len, uint32_t last, uint32_t lane, uint16_t owner, uint32_t direction,
                            uint32_t order, size_t key_len, size_t block_len)
{
    uint32_t number = lane_number(lanes, lanes_len, last, lane);
    if (number != 0)
        return number;
    return lanes[lane].phase != 0 ? 6 : owner == 0 ? 11 : direction > 1 ? 9 : in_order(order, key_number(key_len, block_len));
}

static uint32_t turn_number(const gift_lane *lanes, size_t lanes_len, uint32_t last, uint32_t asked)
{
    uint32_t number = bench_number(lanes, lanes_len, last);
    return number != 0 ? number : asked > 1024 ? 8 : 0;
}

/* a close's */
static uint32_t close_number(const gift_lane *lanes, size_t lanes_len, uint32_t last, uint32_t lane, uint16_t owner)
{
    uint32_t number = lane_number(lanes, lanes_len, last, lane);
    if (number != 0)
        return number;
    return lanes[lane].phase != 0 && lanes[lane].owner != owner ? 11 : 0;
}

static uint32_t take_number(const gift_lane *lanes, size_t lanes_len, uint32_t last, uint32_t lane, uint16_t owner, size_t out_len)
{
    uint32_t number = close_number(lanes, lanes_len, last, lane, owner);
    if (number != 0)
        return number;
    return lanes[lane].phase != 2 ? 7 : out_len != 16 ? 2 : 0;
}

/* ---- CMAC of NIST SP 800-38B, fed byte by byte ---- */

static void xor_block(uint8_t *to, const uint8_t *with)
{
    for (unsigned i = 0; i < 16; i++)
        to[i] ^= with[i];
}

/* X << 1, with R if the first bit was 1 */
static void model_subkey(uint8_t *x)
{
    bits from = bits_of_bytes(0, x), to;
    to.b[0] = 0;
    for (unsigned i = 1; i < 128; i++)
        to.b[i] = from.b[i - 1];
    bytes_of_bits(0, to, x);
    if (from.b[127])
        x[15] ^= 0x87;
}

static void model_start(gift_mac_state *s, const uint8_t *key)
{
    *s = (gift_mac_state){0};
    if (key != NULL)
        model_expand(key, s->words);
}

static void model_piece(gift_mac_state *s, const uint8_t *bytes, size_t len)
{
    for (size_t i = 0; i < len; i++) {
        if (s->count == 16) {
            xor_block(s->chain, s->held);
            model_by_words(0, 0, s->words, s->chain, s->chain);
            s->count = 0;
        }
        s->held[s->count++] = bytes[i];
    }
    for (unsigned i = s->count; i < 16; i++)
        s->held[i] = 0;
}

static void model_tag(const gift_mac_state *s, uint8_t *tag)
{
    uint8_t key[16] = {0}, block[16] = {0};
    model_by_words(0, 0, s->words, key, key);
    model_subkey(key);
    if (s->count < 16) {
        model_subkey(key);
        block[s->count] = 0x80;
    }
    for (unsigned i = 0; i < s->count; i++)
        block[i] = s->held[i];
    xor_block(block, key);
    xor_block(block, s->chain);
    model_by_words(0, 0, s->words, block, tag);
}

static void model_mac(const uint8_t *key, const uint8_t *message, size_t len, uint8_t *tag)
{
    gift_mac_state s;
    model_start(&s, key);
    model_piece(&s, message, len);
    model_tag(&s, tag);
}

static uint32_t state_number(const gift_mac_state *s)
{
    return s->count > 16 ? 10 : 0;
}

static uint32_t tag_number(const gift_mac_state *s, size_t tag_len)
{
    return s->count > 16 ? 10 : tag_len != 16 ? 2 : 0;
}

/* ---- counter mode of NIST SP 800-38A, byte by byte ---- */

static void model_stream_start(gift_stream *s, const uint8_t *key, const uint8_t *nonce, uint32_t counter)
{
    *s = (gift_stream){0};
    if (key == NULL) {
        s->spent = 1;
        return;
    }
    model_expand(key, s->words);
    for (unsigned i = 0; i < 12; i++)
        s->nonce[i] = nonce[i];
    s->counter = counter;
}

static void model_stream_piece(gift_stream *s, const uint8_t *input, size_t len, uint8_t *output)
{
    for (size_t n = 0; n < len; n++) {
        if (s->unused == 0) {
            for (unsigned i = 0; i < 16; i++)
                s->block[i] = i < 12 ? s->nonce[i] : (uint8_t)(s->counter >> 8 * (15 - i));
            model_by_words(0, 0, s->words, s->block, s->block);
            s->unused = 16;
            if (++s->counter == 0)
                s->spent = 1;
        }
        output[n] = (uint8_t)(input[n] ^ s->block[16 - s->unused--]);
        for (unsigned i = 0; s->unused == 0 && i < 16; i++)
            s->block[i] = 0;
    }
}

static uint32_t stream_start_number(size_t key_len, size_t nonce_len)
{
    return key_len != 16 ? 1 : nonce_len != 12 ? 2 : 0;
}

static uint32_t stream_piece_number(const gift_stream *s, size_t input_len, size_t output_len)
{
    uint64_t left = s->spent ? 0 : ((uint64_t)1 << 32) - s->counter;
    return s->unused > 15 ? 10 : output_len != input_len ? 3 : input_len > s->unused + 16 * left ? 12 : 0;
}

/* ---- GIFT-64, on the first 64 of the bits: U is k1 and V is k0, the two halves of GIFT-128's V ---- */

static unsigned P64(unsigned i)
{
    return 4 * (i / 16) + 16 * ((3 * ((i % 16) / 4) + i % 4) % 4) + i % 4;
}

static void add_key_and_constant_64(bits *x, pair k, unsigned constant)
{
    for (unsigned i = 0; i < 16; i++) {
        x->b[4 * i + 1] ^= (uint8_t)(k.v >> (16 + i) & 1);
        x->b[4 * i] ^= (uint8_t)(k.v >> i & 1);
    }
    x->b[63] ^= 1;
    for (unsigned i = 0; i < 6; i++)
        x->b[4 * i + 3] ^= (uint8_t)(constant >> i & 1);
}

static void do_round_64(bits *x, pair k, unsigned constant)
{
    bits y;
    for (unsigned i = 0; i < 16; i++)
        set_nibble(x, i, sbox[nibble(x, i)]);
    for (unsigned i = 0; i < 64; i++)
        y.b[P64(i)] = x->b[i];
    add_key_and_constant_64(&y, k, constant);
    *x = y;
}

static void undo_round_64(bits *x, pair k, unsigned constant)
{
    bits y;
    add_key_and_constant_64(x, k, constant);
    for (unsigned i = 0; i < 64; i++)
        y.b[i] = x->b[P64(i)];
    for (unsigned i = 0; i < 16; i++) {
        unsigned n = 0;
        while (sbox[n] != nibble(&y, i))
            n++;
        set_nibble(&y, i, n);
    }
    *x = y;
}

static void model_64(unsigned direction, const uint8_t *key, const uint8_t *from, uint8_t *to)
{
    pair pairs[40];
    bits x;
    pairs_of_key(key, pairs);
    for (unsigned i = 0; i < 64; i++)
        x.b[i] = from[7 - i / 8] >> (i % 8) & 1;
    for (unsigned r = 0; r < 28; r++) {
        if (direction == 0)
            do_round_64(&x, pairs[r], constant_of(r));
        else
            undo_round_64(&x, pairs[27 - r], constant_of(27 - r));
    }
    for (unsigned n = 0; n < 8; n++) {
        to[7 - n] = 0;
        for (unsigned i = 0; i < 8; i++)
            to[7 - n] |= (uint8_t)(x.b[8 * n + i] << i);
    }
}

static uint32_t key_number_64(size_t key_len, size_t block_len)
{
    return key_len != 16 ? 1 : block_len != 8 ? 2 : 0;
}

static uint32_t many_number_64(size_t key_len, size_t input_len, size_t output_len)
{
    return key_len != 16 ? 1 : input_len % 8 != 0 ? 2 : output_len != input_len ? 3 : 0;
}
