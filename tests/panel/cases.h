/* Calls with what they must come to, for the programs `checks` and `stack`. */
#ifndef CASES_H
#define CASES_H

#include "lend.h"

/* So many bytes of an image at an offset, written in hexadecimal; no text, no bytes. */
struct laid {
    size_t at;
    const char *hex;
};

/* A frame and a reply are written without their two end bytes, and a ~ at their end stands for the checksum. What is left out is 0, or none. */
struct row {
    const char *name;
    const char *before; /* frames that are served before it, unsealed, with a space between */
    const char *frame;
    size_t as_is; /* so many bytes of the frame are lent as they stand, with no end bytes */
    uint64_t sealed;
    uint8_t number;
    const char *reply;
    struct laid laid[3]; /* all that the call changes in the image */
    struct laid spoilt; /* what is other than in a fresh image of address 1, before anything is served */
    long image_by, out_by; /* how many bytes more are lent than the usual 23,817 and 269 */
};

/* A question for the parts held. */
struct question {
    const char *name;
    const char *parts; /* those that are written before, in this order: two bytes each in hexadecimal, table and part */
    uint64_t table;
    uint8_t number, held, missing;
    struct laid spoilt;
    long image_by;
};

extern const struct row rows[];
extern const size_t rows_n;
extern const struct question questions[];
extern const size_t questions_n;

/* The byte of two digits. */
uint8_t byte_of(const char *hex);

/* The frame of a text, with its end bytes; how many bytes. */
size_t frame_of(const char *text, uint8_t *to);

/* The text of a frame from its contents, a ~ for the checksum. */
void text_of(const uint8_t *contents, size_t n, char *to);

void lay(const struct laid *laid, uint8_t *image);

/* Readies the call of a row, its output with a pattern in it. The next that is readied has the same buffers. */
const struct call *readied(const struct row *row);

/* Readies the image of a question: parts are written as their frames say, and a frame that is refused ends the program. */
const uint8_t *readied_image(const struct question *question);

#endif
