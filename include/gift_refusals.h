/* What a refusal of libgift_host.a means, as a text for a log or a person. Only a header: nothing of it is in the library. */
#ifndef GIFT_REFUSALS_H
#define GIFT_REFUSALS_H

#include "gift_host.h"

/* The text of a number that a call gave back; it lives as long as the program. */
static inline const char *gift_refusal_text(uint32_t code)
{
    switch (code) {
    case GIFT_DONE: return "done";
    case GIFT_BAD_KEY_LENGTH: return "the key is not of 16 bytes";
    case GIFT_BAD_BLOCK_LENGTH: return "a block, take buffer or tag is not of 16 bytes (GIFT-64: 8), a nonce not of 12, or many blocks are not whole ones";
    case GIFT_BAD_OUTPUT_LENGTH: return "the output is not as long as the input";
    case GIFT_BAD_WORD_COUNT: return "the round words, or the numbers of pairs, are not 80";
    case GIFT_BAD_LANE: return "there is no lane of that number";
    case GIFT_LANE_NOT_IDLE: return "the lane is not idle";
    case GIFT_LANE_NOT_FINISHED: return "the lane is not finished";
    case GIFT_TOO_MANY_TURNS: return "more than 1,024 turns are asked for";
    case GIFT_BAD_DIRECTION: return "the direction is neither 0 nor 1";
    case GIFT_BAD_BENCH: return "the bench, stream or tag state is not sound"; /* GIFT_BAD_STATE is the same number */
    case GIFT_NOT_THE_OWNER: return "the lane is another guest's, or the guest's number is 0";
    case GIFT_TOO_FEW_COUNTERS: return "the stream has too few counters left";
    case GIFT_BAD_ORDER: return "the word order is neither 0 nor 1";
    case GIFT_BAD_BUNDLE_LENGTH: return "the bundle is under 24 bytes, over 65,536, or not as long as it says";
    case GIFT_BAD_TAG: return "the bundle's tag is not the right one";
    case GIFT_MALFORMED: return "the bundle breaks the layout";
    case GIFT_MUST_KNOW: return "the bundle has a setting that must be known and is not";
    case GIFT_BAD_LIST: return "the settings are no list that a bundle of this edition can hold";
    case GIFT_SHORT_OUTPUT: return "the output is shorter than the bundle, or the rows lent are too few";
    default: return "no number of this library";
    }
}

#endif
