#include "lend.h"
#include "izk.h"
#include "plain.h"
#include "say.h"

/* The sanitizer asks this, where there is one. Nothing is allocated here, and its look for leaks can take seconds at the end of each run. */
const char *__asan_default_options(void);

const char *__asan_default_options(void)
{
    return "detect_leaks=0";
}

enum edge { AT_END, AT_START };

enum { FRAME, IMAGE, OUT, FIRST, SECOND, ROOMS };

/* Each has LEND_MAX bytes, with as many on either side that cannot be touched. */
static uint8_t *rooms[ROOMS];

static uint8_t *new_room(void)
{
    uint8_t *all = mmap(NULL, 4 * LEND_MAX, PROT_READ | PROT_WRITE, MAP_PRIVATE | MAP_ANONYMOUS, -1, 0);
    if ((uintptr_t)all == UINTPTR_MAX)
        say_stop("there is no memory for a room");
    all += (LEND_MAX - (uintptr_t)all % LEND_MAX) % LEND_MAX;
    if (mprotect(all, LEND_MAX, PROT_NONE) != 0 || mprotect(all + 2 * LEND_MAX, LEND_MAX, PROT_NONE) != 0)
        say_stop("a page cannot be made inaccessible");
    return all + LEND_MAX;
}

/* Where a buffer of n bytes is lent. One of no bytes begins at the page that cannot be touched. */
static uint8_t *place(int room, size_t n, enum edge edge)
{
    if (rooms[room] == NULL)
        rooms[room] = new_room();
    return rooms[room] + (edge == AT_END ? LEND_MAX - n : 0);
}

static uint8_t *placed(int room, const uint8_t *bytes, size_t n, enum edge edge)
{
    return memcpy(place(room, n, edge), bytes, n);
}

/* One call; what it leaves of image and output is laid down beside, so that a second one can begin with the same bytes. */
static struct served serve_at(enum edge edge, const struct call *call, uint8_t *image_then, uint8_t *out_then)
{
    uint8_t *frame = placed(FRAME, call->frame, call->frame_len, edge);
    uint8_t *image = placed(IMAGE, call->image, call->image_len, edge);
    uint8_t *out = placed(OUT, call->out, call->out_len, edge);
    uint8_t *number_lent = place(FIRST, sizeof(size_t), edge);
    struct served got;
    memset(number_lent, 255, sizeof(size_t));
    got.number = izk_serve(frame, call->frame_len, call->sealed, image, call->image_len, out, call->out_len, (size_t *)(void *)number_lent);
    memcpy(&got.len, number_lent, sizeof(size_t));
    memcpy(image_then, image, call->image_len);
    memcpy(out_then, out, call->out_len);
    got.alike = memcmp(frame, call->frame, call->frame_len) == 0;
    return got;
}

struct served lend_serve(const struct call *call)
{
    static uint8_t image[2][LEND_MAX], out[2][LEND_MAX];
    struct served got = serve_at(AT_END, call, image[0], out[0]);
    struct served again = serve_at(AT_START, call, image[1], out[1]);
    got.alike = got.alike && again.alike && got.number == again.number && got.len == again.len &&
                memcmp(image[0], image[1], call->image_len) == 0 && memcmp(out[0], out[1], call->out_len) == 0;
    memcpy(call->image, image[0], call->image_len);
    memcpy(call->out, out[0], call->out_len);
    return got;
}

static struct held held_at(enum edge edge, const uint8_t *image, size_t image_len, uint64_t table)
{
    uint8_t *lent = placed(IMAGE, image, image_len, edge);
    uint8_t *parts = place(FIRST, 1, edge), *missing = place(SECOND, 1, edge);
    struct held got;
    *parts = *missing = 255;
    got.number = izk_held_parts(lent, image_len, table, parts, missing);
    got.parts = *parts;
    got.missing = *missing;
    got.alike = memcmp(lent, image, image_len) == 0;
    return got;
}

struct held lend_held(const uint8_t *image, size_t image_len, uint64_t table)
{
    struct held got = held_at(AT_END, image, image_len, table), again = held_at(AT_START, image, image_len, table);
    got.alike = got.alike && again.alike && got.number == again.number && got.parts == again.parts && got.missing == again.missing;
    return got;
}
