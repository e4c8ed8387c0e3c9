/* A program of the panel's kind: a script on standard input, a line for each call. tests/PANEL.md has the records. Each call is made twice, with its
   buffers at the two edges of memory that cannot be touched; lend.h says why. */
#include "izk.h"
#include "lend.h"
#include "plain.h"
#include "say.h"

#define SCRIPT_MAX 65536
#define IMAGE_ROOM 24000
#define OUT_ROOM 400

static uint8_t script[SCRIPT_MAX];
static uint8_t image[IMAGE_ROOM];
static size_t image_len = IZK_IMAGE_LEN;
static uint8_t out[OUT_ROOM];
static size_t out_len = IZK_OUT_MIN;

/* The same script goes to the model, which counts in the same way. */
static uint64_t digest(const uint8_t *bytes, size_t n)
{
    uint64_t sum = 1;
    for (size_t i = 0; i < n; i++)
        sum = (257 * sum + bytes[i] + 1) % 4294967291u;
    return sum;
}

/* So many bytes as one number, high byte first. */
static uint64_t value(const uint8_t *bytes, size_t n)
{
    uint64_t sum = 0;
    for (size_t i = 0; i < n; i++)
        sum = 256 * sum + bytes[i];
    return sum;
}

static size_t least(uint64_t a, size_t b)
{
    return a < b ? (size_t)a : b;
}

static void say_letter(uint8_t letter)
{
    const char text[2] = {(char)letter, 0};
    say(text);
}

static void say_next(uint64_t n)
{
    say(" ");
    say_number(n);
}

/* Two calls that should be one and are not show in the line, which then is not the model's. */
static void say_last(int alike)
{
    if (!alike)
        say(" !");
    say_end();
}

static void serve(uint8_t letter, uint64_t sealed, const uint8_t *frame, size_t frame_len)
{
    const struct call call = {frame, frame_len, sealed, image, image_len, out, out_len};
    struct served got = lend_serve(&call);
    say_letter(letter);
    say_next(got.number);
    say_next(got.len);
    say_next(digest(image, image_len));
    say_next(digest(out, out_len));
    say_last(got.alike);
}

static void ask(uint8_t letter, uint64_t table)
{
    struct held got = lend_held(image, image_len, table);
    say_letter(letter);
    say_next(got.number);
    say_next(got.parts);
    say_next(got.missing);
    say_last(got.alike);
}

/* The block has no C entry for this: it is laid out here as izk.h says. */
static void fresh(uint8_t address)
{
    static const uint8_t mark[] = {0x49, 0x5A, 0x4B, 0x00, 0x02};
    unsigned number = image_len != IZK_IMAGE_LEN ? 1 : address == 0 ? 11 : 0;
    if (number == 0) {
        memset(image, 0, image_len);
        memcpy(image, mark, sizeof mark);
        image[sizeof mark] = address;
    }
    say("F");
    say_next(number);
    say_next(digest(image, image_len));
    say_end();
}

static void poke(uint64_t at, uint8_t byte)
{
    if (at < IMAGE_ROOM)
        image[at] = byte;
}

/* How many bytes a record has with its letter and, where a frame stands at its end, with the two bytes of its length; 0 for a letter of no record. */
static size_t head(uint8_t letter)
{
    switch (letter) {
    case 'F': case 'W': return 2;
    case 'K': case 'S': return 3;
    case 'L': case 'O': return 4;
    case 'H': case 'P': return 5;
    case 'J': return 9;
    case 'Z': return 11;
    default: return 0;
    }
}

/* How many bytes the record has; 0 where none begins here, or the script's end cuts it short. */
static size_t whole(const uint8_t *record, size_t left)
{
    size_t n = head(record[0]);
    if (n == 0 || n > left)
        return 0;
    if (record[0] == 'K' || record[0] == 'S' || record[0] == 'Z')
        n += (size_t)value(record + n - 2, 2);
    return n > left ? 0 : n;
}

static void carry_out(const uint8_t *record, size_t n)
{
    switch (record[0]) {
    case 'L': image_len = least(value(record + 1, 3), IMAGE_ROOM); break;
    case 'P': poke(value(record + 1, 3), record[4]); break;
    case 'W': memset(image, record[1], IMAGE_ROOM); break;
    case 'O':
        out_len = least(value(record + 1, 2), OUT_ROOM);
        memset(out, record[3], OUT_ROOM);
        break;
    case 'F': fresh(record[1]); break;
    case 'S': serve('S', 0, record + 3, n - 3); break;
    case 'K': serve('K', 1, record + 3, n - 3); break;
    case 'Z': serve('Z', value(record + 1, 8), record + 11, n - 11); break;
    case 'H': ask('H', value(record + 1, 4)); break;
    default: ask('J', value(record + 1, 8)); break;
    }
}

static size_t read_script(void)
{
    size_t n = 0;
    while (n < SCRIPT_MAX) {
        long more = read(0, script + n, SCRIPT_MAX - n);
        if (more < 0)
            say_stop("standard input cannot be read");
        if (more == 0)
            break;
        n += (size_t)more;
    }
    return n;
}

int main(void)
{
    size_t end = read_script(), at = 0;
    while (at < end) {
        size_t n = whole(script + at, end - at);
        if (n == 0) {
            say("?");
            say_end();
            return 0;
        }
        carry_out(script + at, n);
        at += n;
    }
    return 0;
}
