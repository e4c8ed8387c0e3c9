/* Serves a stream of frames, as the program `frames` writes it, on one image through the block's C functions.

       drive check             a digest of all that came of it, first as the stream has them and then each kind alone, how many frames and kinds there
                               are, and how many got another number than their kind says
       drive whole ROUNDS      nanoseconds a frame for the stream as it is
       drive kinds ROUNDS      the same for each kind alone, a line each, and last for asking which parts are held

   The stream is on standard input. Times are the processor's for this thread, each the median of its rounds. Ends with 1 where a number was wrong. */
#include "izk.h"
#include "plain.h"

enum {
    IMAGE_BYTES = 23817,
    LAST_COUNT = 713 + 7 * 64, /* the last of what an image is judged by: how many rows error table 8 has */
    OUT_BYTES = 269,
    STREAM_BYTES = 1 << 28,
    FRAMES_MOST = 1000000,
    ROUNDS_MOST = 99,
    ALIKE_MOST = 4000, /* so many frames of a kind, and so many calls a round, over and over the same frames */
    CALLS = 40000,
    HELD_CALLS = 100000,
    KINDS_END = 79
};

struct frame {
    const uint8_t *bytes;
    uint16_t length, kind;
};

static uint8_t stream[STREAM_BYTES];
static struct frame all[FRAMES_MOST], alike[ALIKE_MOST];
static size_t frames;
static _Alignas(64) uint8_t image[IMAGE_BYTES];
static _Alignas(64) uint8_t out[OUT_BYTES];
static uint64_t digest = 14695981039346656037u;
static uint64_t looked, wrong, sink;

static void put(const char *text) {
    size_t n = 0;
    while (text[n] != 0) n++;
    if (write(1, text, n) != (long)n) exit(1);
}

static void put_number(uint64_t number, unsigned base, unsigned least) {
    char text[24];
    size_t at = sizeof text - 1;
    text[at] = 0;
    while (number != 0 || least != 0) {
        text[--at] = "0123456789abcdef"[number % base];
        number /= base;
        if (least != 0) least--;
    }
    put(text + at);
}

/* A line with nanoseconds for each of so many calls, to two places. */
static void put_time(uint64_t nanoseconds, size_t calls) {
    uint64_t hundredths = nanoseconds * 100 / calls;
    put_number(hundredths / 100, 10, 1);
    put(".");
    put_number(hundredths % 100, 10, 2);
    put("\n");
}

static _Noreturn void fail(const char *why) {
    put("drive: ");
    put(why);
    put("\n");
    exit(2);
}

static int same(const char *a, const char *b) {
    while (*a != 0 && *a == *b) a++, b++;
    return *a == *b;
}

/* FNV-1a at 64 bits. */
static void mix(const uint8_t *bytes, size_t n) {
    for (size_t i = 0; i < n; i++) digest = (digest ^ bytes[i]) * 1099511628211u;
}

static void mix_number(uint64_t number) {
    for (unsigned i = 0; i < 8; i++) {
        uint8_t byte = (uint8_t)(number >> (8 * i));
        mix(&byte, 1);
    }
}

static uint64_t now(void) {
    struct timespec time;
    if (clock_gettime(THREAD_TIME, &time) != 0) fail("there is no clock of a thread's time");
    return (uint64_t)time.tv_sec * 1000000000u + (uint64_t)time.tv_nsec;
}

static unsigned two(const uint8_t *bytes) {
    return bytes[0] | (unsigned)bytes[1] << 8;
}

static void load(void) {
    size_t size = 0, at = 0;
    long n = 1;
    while (size < sizeof stream && n > 0) {
        n = read(0, stream + size, sizeof stream - size);
        if (n > 0) size += (size_t)n;
    }
    if (n != 0) fail("the stream is too long, or cannot be read");
    while (at < size) {
        if (frames == FRAMES_MOST) fail("there are too many frames");
        if (size - at < 4 || size - at - 4 < two(stream + at + 2)) fail("the stream ends inside a record");
        all[frames].kind = (uint16_t)two(stream + at);
        all[frames].length = (uint16_t)two(stream + at + 2);
        all[frames].bytes = stream + at + 4;
        at += 4u + all[frames].length;
        frames++;
    }
    if (frames == 0) fail("there is no frame");
}

/* There is no C entry for it: the mark, version 2, the address, and nothing written. */
static void lay_out(void) {
    static const uint8_t head[] = {0x49, 0x5A, 0x4B, 0x00, 0x02, 1};
    memset(image, 0, sizeof image);
    memcpy(image, head, sizeof head);
}

/* Frames as they are served and timed. Only those of kind 16 are sealed. */
static void serve(const struct frame *these, size_t n, size_t room) {
    for (size_t i = 0; i < n; i++) {
        size_t len;
        sink += izk_serve(these[i].bytes, these[i].length, these[i].kind == 16, image, sizeof image, out, room, &len);
        sink += len;
    }
}

/* The same, with all that comes of it digested. Where `kind` is not 0, it is the number, or the command, that each of them stands for. */
static void serve_and_look(const struct frame *these, size_t n, size_t room, unsigned kind) {
    for (size_t i = 0; i < n; i++) {
        unsigned expected = kind != 0 ? kind : these[i].kind;
        size_t len = SIZE_MAX;
        memset(out, 0xAA, sizeof out);
        uint8_t number = izk_serve(these[i].bytes, these[i].length, these[i].kind == 16, image, sizeof image, out, room, &len);
        wrong += number != (expected < 50 ? expected : 0);
        looked++;
        mix(&number, 1);
        mix_number(len);
        mix(out, sizeof out);
    }
}

static void ask(size_t n) {
    for (size_t i = 0; i < n; i++) {
        uint8_t parts, missing;
        sink += izk_held_parts(image, sizeof image, i % 20, &parts, &missing);
        sink += (uint64_t)parts + missing;
    }
}

/* The first frames of a kind. With 1 and 2 any frame is refused, so for these they are such as are served otherwise. */
static size_t choose(unsigned kind) {
    size_t n = 0;
    for (size_t i = 0; i < frames && n < ALIKE_MOST; i++) {
        if (all[i].kind == kind || (kind < 3 && all[i].kind >= 50)) alike[n++] = all[i];
    }
    return n;
}

static uint64_t median(uint64_t *times, unsigned n) {
    for (unsigned i = 1; i < n; i++) {
        uint64_t time = times[i];
        unsigned at = i;
        for (; at > 0 && times[at - 1] > time; at--) times[at] = times[at - 1];
        times[at] = time;
    }
    return times[n / 2];
}

static void whole(unsigned rounds) {
    uint64_t times[ROUNDS_MOST];
    for (unsigned round = 0; round < rounds; round++) {
        uint64_t began = now();
        serve(all, frames, sizeof out);
        times[round] = now() - began;
    }
    put("whole ");
    put_time(median(times, rounds), frames);
}

/* Each kind alone: looked at once, and where there are rounds, timed. */
static unsigned by_kind(unsigned rounds) {
    uint64_t times[ROUNDS_MOST];
    unsigned kinds = 0;
    for (unsigned kind = 1; kind < KINDS_END; kind++) {
        size_t n = choose(kind), room = kind == 2 ? OUT_BYTES - 1 : OUT_BYTES;
        if (n == 0) continue;
        kinds++;
        uint8_t count = image[LAST_COUNT];
        if (kind == 1) image[LAST_COUNT] = 22;
        serve_and_look(alike, n, room, kind);
        size_t times_over = CALLS / n + 1;
        for (unsigned round = 0; round < rounds; round++) {
            uint64_t began = now();
            for (size_t i = 0; i < times_over; i++) serve(alike, n, room);
            times[round] = now() - began;
        }
        if (kind == 1) image[LAST_COUNT] = count;
        if (rounds == 0) continue;
        put_number(kind, 10, 1);
        put(" ");
        put_time(median(times, rounds), n * times_over);
    }
    for (unsigned round = 0; round < rounds; round++) {
        uint64_t began = now();
        ask(HELD_CALLS);
        times[round] = now() - began;
    }
    if (rounds != 0) {
        put("held ");
        put_time(median(times, rounds), HELD_CALLS);
    }
    return kinds;
}

static void look_at_image(void) {
    mix(image, sizeof image);
    for (unsigned table = 0; table < 30; table++) {
        uint8_t parts = 0xAA, missing = 0xAA;
        uint8_t number = izk_held_parts(image, sizeof image, table, &parts, &missing);
        mix(&number, 1);
        mix(&parts, 1);
        mix(&missing, 1);
    }
}

int main(int words, char **word) {
    unsigned rounds = 0;
    if (words == 3) {
        for (const char *digit = word[2]; *digit >= '0' && *digit <= '9' && rounds <= ROUNDS_MOST; digit++) rounds = rounds * 10 + (unsigned)(*digit - '0');
    }
    int check = words == 2 && same(word[1], "check");
    int timed = words == 3 && (same(word[1], "whole") || same(word[1], "kinds")) && rounds > 0 && rounds <= ROUNDS_MOST;
    if (!check && !timed) fail("check | whole ROUNDS | kinds ROUNDS, and at most 99 rounds");
    load();
    lay_out();
    serve_and_look(all, frames, sizeof out, 0);
    look_at_image();
    if (check) {
        unsigned kinds = by_kind(0);
        look_at_image();
        put("digest ");
        put_number(digest, 16, 16);
        put(", ");
        put_number(frames, 10, 1);
        put(" frames, ");
        put_number(kinds, 10, 1);
        put(" kinds, ");
        put_number(wrong, 10, 1);
        put(" of ");
        put_number(looked, 10, 1);
        put(" numbers wrong\n");
    } else if (same(word[1], "whole")) {
        whole(rounds);
    } else {
        by_kind(rounds);
    }
    return wrong != 0 || sink == 42; /* what was added up is looked at, so that no call can be left out */
}
