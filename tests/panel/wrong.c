/* Stands in the place of lend.c and calls the block with a fault planted between, so that it is seen that `checks` finds such a thing. Each fault has a
   macro; with none, nothing is wrong. */
#include "izk.h"

#ifdef WRONG_SWITCH
#define SWITCH(sealed) ((uint8_t)(sealed))
#else
#define SWITCH(sealed) (sealed)
#endif

#ifdef WRONG_TABLE
#define TABLE(table) ((uint32_t)(table))
#else
#define TABLE(table) (table)
#endif

static uint8_t wrong_serve(const uint8_t *frame, size_t frame_len, uint64_t sealed, uint8_t *image, size_t image_len, uint8_t *out, size_t out_len,
                           size_t *len)
{
    uint8_t number = izk_serve(frame, frame_len, SWITCH(sealed), image, image_len, out, out_len, len);
#ifdef WRONG_LENGTH
    if (number != 0)
        *len = 1;
#endif
#ifdef WRONG_BEHIND
    if (number == 0 && *len < out_len)
        out[*len] = 0;
#endif
#ifdef WRONG_IMAGE
    if (number == 11)
        image[6] = 1;
#endif
/* volatile, so that the compiler does not leave it out */
#ifdef WRONG_PAST
    (void)*(const volatile uint8_t *)(frame + frame_len);
#endif
#ifdef WRONG_BEFORE
    (void)*(const volatile uint8_t *)(image - 1);
#endif
    return number;
}

static uint8_t wrong_held_parts(const uint8_t *image, size_t image_len, uint64_t table, uint8_t *parts, uint8_t *missing)
{
    uint8_t number = izk_held_parts(image, image_len, TABLE(table), parts, missing);
#ifdef WRONG_MISSING
    if (number != 0)
        *missing = 255;
#endif
    return number;
}

#define izk_serve wrong_serve
#define izk_held_parts wrong_held_parts
#include "lend.c"
