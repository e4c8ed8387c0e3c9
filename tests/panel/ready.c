/* Readies the calls of cases.h. */
#include "cases.h"
#include "izk.h"
#include "plain.h"
#include "say.h"

static const char digits[] = "0123456789ABCDEF";
static uint8_t image[LEND_MAX], out[LEND_MAX], frame[LEND_MAX];

static unsigned digit(char c)
{
    unsigned d = 0;
    while (d < 15 && digits[d] != c && digits[d] != c - 32)
        d++;
    return d;
}

uint8_t byte_of(const char *hex)
{
    return (uint8_t)(16 * digit(hex[0]) + digit(hex[1]));
}

static char *put_byte(char *to, unsigned byte)
{
    *to++ = digits[byte / 16];
    *to++ = digits[byte % 16];
    return to;
}

size_t frame_of(const char *text, uint8_t *to)
{
    size_t n = strlen(text);
    memcpy(to, text, n);
    if (n > 0 && text[n - 1] == '~') {
        unsigned sum = 0;
        char checksum[2];
        for (size_t i = 1; i + 1 < n; i += 2)
            sum += byte_of(text + i);
        put_byte(checksum, (256 - sum % 256) % 256);
        memcpy(to + n - 1, checksum, 2);
        n++;
    }
    memcpy(to + n, "\r\n", 2);
    return n + 2;
}

void text_of(const uint8_t *contents, size_t n, char *to)
{
    *to++ = ':';
    for (size_t i = 0; i < n; i++)
        to = put_byte(to, contents[i]);
    memcpy(to, "~", 2);
}

void lay(const struct laid *laid, uint8_t *to)
{
    for (const char *hex = laid->hex; hex && *hex; hex += 2)
        to[laid->at + (size_t)(hex - laid->hex) / 2] = byte_of(hex);
}

/* Of the bytes that a call is lent, and at least of those of an image. */
static void make_fresh(size_t image_len, const struct laid *spoilt)
{
    static const struct laid fresh = {0, "495A4B000201"};
    memset(image, 0, image_len > IZK_IMAGE_LEN ? image_len : IZK_IMAGE_LEN);
    lay(&fresh, image);
    lay(spoilt, image);
}

/* What is served before a case has to be done, or the case says nothing. */
static void serve_first(const char *text)
{
    const struct call call = {frame, frame_of(text, frame), 0, image, IZK_IMAGE_LEN, out, IZK_OUT_MIN};
    if (lend_serve(&call).number != 0) {
        say(text);
        say_stop(": is refused, and the case behind it is not tried");
    }
}

static void serve_each(const char *texts)
{
    while (texts && *texts) {
        char one[600];
        size_t n = 0;
        while (texts[n] && texts[n] != ' ')
            n++;
        memcpy(one, texts, n);
        one[n] = 0;
        serve_first(one);
        texts += n + (texts[n] == ' ');
    }
}

static size_t by(size_t usual, long more)
{
    return (size_t)((long)usual + more);
}

const struct call *readied(const struct row *row)
{
    static struct call call;
    call.image = image;
    call.image_len = by(IZK_IMAGE_LEN, row->image_by);
    call.out = out;
    call.out_len = by(IZK_OUT_MIN, row->out_by);
    make_fresh(call.image_len, &row->spoilt);
    serve_each(row->before);
    for (size_t i = 0; i < call.out_len; i++)
        out[i] = (uint8_t)(7 * i + 3);
    call.frame_len = row->as_is;
    if (row->as_is)
        memcpy(frame, row->frame, row->as_is);
    else if (row->frame)
        call.frame_len = frame_of(row->frame, frame);
    call.frame = frame;
    call.sealed = row->sealed;
    return &call;
}

/* Each part is written with other bytes, and with others the second time. */
static void write_part(uint8_t table, uint8_t part, size_t turn)
{
    uint8_t contents[132] = {1, 59, table, part};
    char text[300];
    for (size_t i = 4; i < sizeof contents; i++)
        contents[i] = (uint8_t)(i + part + 5 * turn);
    text_of(contents, sizeof contents, text);
    serve_first(text);
}

const uint8_t *readied_image(const struct question *question)
{
    make_fresh(by(IZK_IMAGE_LEN, question->image_by), &question->spoilt);
    for (const char *hex = question->parts; hex && *hex; hex += 4)
        write_part(byte_of(hex), byte_of(hex + 2), (size_t)(hex - question->parts));
    return image;
}
