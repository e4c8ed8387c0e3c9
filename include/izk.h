/* The IZK-3 block for a host that is written in C: serve a frame, and ask which parts of a table are held.

   For Linux on x86-64. The archive is crates/panel/out/libpanel.a, made and proved by `rt lib --cpu x86-64` in crates/panel;
   link it as

       cc -I include prog.c crates/panel/out/libpanel.a

   Of the C library it uses memcpy and memset. It allocates nothing, makes no system call, has no state of its own and keeps
   nothing between two calls: all that there is stands in the buffers that the host lends. Frames, commands and the image are
   described in docs/PROTOCOL.md; what is proved of the two functions, in docs/PROMISES.md. What this page says of the stack
   is measured, and not proved. */
#ifndef IZK_H
#define IZK_H

#include <stddef.h>
#include <stdint.h>

#define IZK_IMAGE_LEN 23817 /* bytes of an image, no more and no fewer */
#define IZK_FRAME_MAX 269   /* bytes of the longest frame, request or reply, with its end bytes 0Dh 0Ah */
#define IZK_OUT_MIN 269     /* bytes that an output must have, however short the reply will be */
#define IZK_STACK 1024      /* bytes of stack that a call is to find: what was measured, and a margin */

/* The numbers that come back. They are checked in this order, and the first check that fails gives the number.

    No.  izk_serve  izk_held_parts  Meaning
     0      x             x         done
     1      x             x         the image is not usable: not of IZK_IMAGE_LEN bytes, another mark or version, address 0,
                                    a row count above 21 or a table's word above 2047. So is an image of version 1
     2      x                       the output is shorter than IZK_OUT_MIN
     3      x                       the frame is shorter than 9 bytes, longer than IZK_FRAME_MAX or of even length
     4      x                       the frame does not begin with 3Ah, or does not end with 0Dh 0Ah
     5      x                       a character between these is not 0..9, A..F or a..f
     6      x                       the checksum is wrong
     7      x                       the frame is for another address than the image's
     8      x                       the command is not served
    16      x                       sealed, and the command writes: 51, 53, 59, 62, 76 or 77
     9      x                       the length of the body is not the command's
    10      x             x         no such channel, table or part, or a wrong count of rows
    11      x                       a value is one that the command does not take

   Buffers. A pointer and the length behind it are one buffer. Every length is taken: one that is wrong is refused with its
   number, as above, as long as the memory is there. No byte past a buffer is read or written. Bytes need no alignment; *len
   is a size_t like any other, with a size_t's alignment.

   Left to the host, and undefined where it is not kept:
   - no pointer is null, also not with length 0;
   - a pointer leads to as many bytes as its length says, and len, parts and missing each to one number of their type;
   - frame, image, out and *len are apart from one another, and so are image, *parts and *missing: no byte is in two of them;
   - while a call runs, nobody else touches what it was lent. So no two threads serve on one image at once. Calls that have
     no buffer in common may run at the same time.

   What is said of the image holds once a call has returned. One that is cut off, by a loss of power, can leave a write half
   done.

   A fresh image has the bytes 49h 5Ah 4Bh 00h 02h, then its address, 1..255, then zeros up to IZK_IMAGE_LEN. There is no
   function for it here: the host lays it out, as the example does. After that, the host only lends it. An image of version 1
   must be moved first, and there is no function here for that either: docs/PROTOCOL.md has how it becomes one of version 2.
   How frames are found among the bytes of a line stands there too, under "Frames off a noisy line".
   Nor have the volume at a level and the checker of a table file a function here yet.

   Stack. Of the calls of tests/panel/cases.c, none of izk_serve was measured to take more than 552 bytes, and none of
   izk_held_parts more than 72, with the return address and what arguments the caller pushes counted in; tests/panel/stack.c
   measures again, and IZK_STACK leaves a margin. That was on an x86-64 machine with glibc 2.36: another library's memcpy and
   memset may take other amounts. With lazy binding the first call takes, besides, what the loader needs; linking with
   -Wl,-z,now avoids that. */

#ifdef __cplusplus
extern "C" {
#endif

/* Serves a frame on an image.

   frame, frame_len   one whole frame as it came, from 3Ah to 0Dh 0Ah; it is only read
   sealed             the key switch: 0 is unsealed, any other number sealed. It counts for this call alone and is stored nowhere. It
                      has 64 bits so that no integer of 64 bits or fewer, but 0, becomes 0 on its way
   image, image_len   the block's memory
   out, out_len       where the reply goes
   len                where its length goes; what was there before does not matter

   Returns 0, or 1 to 8, 16 or 9 to 11 as above.
   Done: the reply is out[0] .. out[*len - 1], at most IZK_FRAME_MAX bytes, end bytes included, and the rest of out is as it
   was. If the command writes, the image changed in the cell that it names, with a part's bit in its table's word and, where
   what was written has one, its signature word; if it reads, not at all.
   Refused: *len is 0, image and out are as they were, and nothing is to be sent. */
uint8_t izk_serve(const uint8_t *frame, size_t frame_len, uint64_t sealed, uint8_t *image, size_t image_len,
                  uint8_t *out, size_t out_len, size_t *len);

/* Says how many of the eleven parts of a table are held, and the lowest that is missing.

   image, image_len   the block's memory; it is only read
   table              1..8 or 11..18. All 64 bits count: 258 is refused 10, and is not table 2
   parts, missing     where the two numbers go; what was there before does not matter

   Returns 0, or 1, or 10.
   Done: *parts is how many of the eleven are held, and *missing the lowest part that is not, or 0 if all are.
   Refused: both are 0. */
uint8_t izk_held_parts(const uint8_t *image, size_t image_len, uint64_t table, uint8_t *parts, uint8_t *missing);

#ifdef __cplusplus
}
#endif

/* Example: a program that asks a fresh block of address 1 for its mask, and how many parts of table 12 it holds.

#include "izk.h"

static uint8_t image[IZK_IMAGE_LEN] = {0x49, 0x5A, 0x4B, 0x00, 0x02, 1};

int main(void)
{
    static const uint8_t frame[] = {':', '0', '1', '3', '2', 'C', 'D', '\r', '\n'};
    uint8_t out[IZK_OUT_MIN], parts, missing;
    size_t len;
    if (izk_serve(frame, sizeof frame, 0, image, sizeof image, out, sizeof out, &len) != 0)
        return 1;
    // out[0] to out[len - 1] would now be sent: :013200CD and the end bytes, so len is 11
    if (izk_held_parts(image, sizeof image, 12, &parts, &missing) != 0)
        return 1;
    return len == 11 && parts == 0 && missing == 1 ? 0 : 1;
}
*/

#endif
