/* Calls of the block's two functions, with every lent buffer at the edge of memory that cannot be touched.

   The archive's code is not compiled with the sanitizers, so they do not see what it reads and writes. The machine does: each buffer is lent first so
   that it ends where an inaccessible page begins, then so that it begins where one ends, and a byte read or written past either edge ends the program.
   Both calls begin with the same bytes, and what they come to must be the same. */
#ifndef LEND_H
#define LEND_H

#include <stddef.h>
#include <stdint.h>

/* No buffer that is lent is longer than this. A multiple of every size that pages have, so that it is whole pages on any machine. */
#define LEND_MAX 65536

struct call {
    const uint8_t *frame;
    size_t frame_len;
    uint64_t sealed;
    uint8_t *image;
    size_t image_len;
    uint8_t *out;
    size_t out_len;
};

/* What a call came to. `alike` is 0 where the two placings came to different things, or a buffer that is only to be read changed. */
struct served {
    uint8_t number;
    size_t len;
    int alike;
};

struct held {
    uint8_t number, parts, missing;
    int alike;
};

/* The call's image and output become what the block left of them. The lent length is all ones before. */
struct served lend_serve(const struct call *call);

/* The two lent numbers are all ones before. */
struct held lend_held(const uint8_t *image, size_t image_len, uint64_t table);

#endif
