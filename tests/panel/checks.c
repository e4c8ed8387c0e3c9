/* Checks the block's two functions from C: each case of cases.h, and the loops below, which make cases of the same kind. Of every call the number, the
   length, every byte of the image and every byte of the output are judged. Prints a line for each check that fails, and how many passed. */
#include "cases.h"
#include "izk.h"
#include "plain.h"
#include "say.h"

static uint64_t passed, failed;

/* A check that fails begins its line here: what it is, and where a loop made it, its place in the loop. */
static void begin_failed(const char *name, const uint64_t *at)
{
    say(name);
    if (at) {
        say(" ");
        say_number(*at);
    }
    say(": got number ");
}

static void say_value(const char *what, uint64_t n)
{
    say(what);
    say_number(n);
}

/* The first place where two buffers differ, if they do. */
static void say_difference(const char *what, const uint8_t *got, const uint8_t *wanted, size_t n)
{
    for (size_t i = 0; i < n; i++) {
        if (got[i] != wanted[i]) {
            say_value(what, i);
            say_value(" is ", got[i]);
            say_value(" and not ", wanted[i]);
            return;
        }
    }
}

static void end_failed(int alike)
{
    if (!alike)
        say("; the two placings differ, or what is only to be read changed");
    say_end();
}

static void check(const struct row *row, const uint64_t *at)
{
    static uint8_t image[LEND_MAX], out[LEND_MAX];
    const struct call *call = readied(row);
    size_t len = 0;
    struct served got;
    memcpy(image, call->image, call->image_len);
    memcpy(out, call->out, call->out_len);
    for (size_t i = 0; i < sizeof row->laid / sizeof row->laid[0]; i++)
        lay(&row->laid[i], image);
    if (row->reply)
        len = frame_of(row->reply, out);
    got = lend_serve(call);
    if (got.number == row->number && got.len == len && got.alike && memcmp(call->image, image, call->image_len) == 0 &&
        memcmp(call->out, out, call->out_len) == 0) {
        passed++;
        return;
    }
    failed++;
    begin_failed(row->name, at);
    say_number(got.number);
    say_value(" and length ", got.len);
    say_value(", not ", row->number);
    say_value(" and ", len);
    say_difference("; image byte ", call->image, image, call->image_len);
    say_difference("; output byte ", call->out, out, call->out_len);
    end_failed(got.alike);
}

static void ask(const struct question *question, const uint64_t *at)
{
    struct held got = lend_held(readied_image(question), (size_t)(IZK_IMAGE_LEN + question->image_by), question->table);
    if (got.number == question->number && got.parts == question->held && got.missing == question->missing && got.alike) {
        passed++;
        return;
    }
    failed++;
    begin_failed(question->name, at);
    say_number(got.number);
    say_value(", parts ", got.parts);
    say_value(", missing ", got.missing);
    say_value(", not ", question->number);
    say_value(", ", question->held);
    say_value(", ", question->missing);
    end_failed(got.alike);
}

/* Frames of every length, none of them with a right end. */
static void lengths(void)
{
    static char text[LEND_MAX];
    memset(text, '0', sizeof text);
    for (uint64_t n = 1; n <= LEND_MAX; n = n < 300 ? n + 1 : 2 * n + 1) {
        const struct row row = {.name = "a frame of length", .frame = text, .as_is = n, .number = n < 9 || n > 269 || n % 2 == 0 ? 3 : 4};
        check(&row, &n);
    }
}

static int is_digit(uint64_t c)
{
    return (c >= '0' && c <= '9') || (c >= 'A' && c <= 'F') || (c >= 'a' && c <= 'f');
}

/* P1 with every character in the place of its last, D. */
static void characters(void)
{
    for (uint64_t c = 0; c < 256; c++) {
        char text[] = ":0132C?\r\n";
        int right = c == 'D' || c == 'd';
        const struct row row = {.name = "the character", .frame = text, .as_is = 9,
            .number = right ? 0 : is_digit(c) ? 6 : 5, .reply = right ? ":013200CD" : NULL};
        text[6] = (char)c;
        check(&row, &c);
    }
}

/* Every address, asked of a block at address 1 and of one at that address. */
static void addresses(void)
{
    for (uint64_t a = 1; a < 256; a++) {
        const uint8_t contents[] = {(uint8_t)a, 50}, answered[] = {(uint8_t)a, 50, 0};
        char text[16], reply[16], hex[16];
        const struct row of_1 = {.name = "block 1 at address", .frame = text, .number = a == 1 ? 0 : 7, .reply = a == 1 ? ":013200~" : NULL};
        const struct row of_a = {.name = "the block of address", .frame = text, .spoilt = {5, hex}, .reply = reply};
        text_of(contents, sizeof contents, text);
        text_of(answered, sizeof answered, reply);
        memcpy(hex, text + 1, 2);
        hex[2] = 0;
        check(&of_1, &a);
        check(&of_a, &a);
    }
}

static int is_one_of(uint64_t c, const uint8_t *list, size_t n)
{
    for (size_t i = 0; i < n; i++)
        if (list[i] == c)
            return 1;
    return 0;
}

static const uint8_t reading[] = {50, 54, 55, 60, 61, 63, 64, 78}, writing[] = {51, 53, 59, 62, 76, 77};

/* Every command with no data, which but for 50 and 78 is too short. */
static void commands(uint64_t sealed)
{
    for (uint64_t c = 0; c < 256; c++) {
        const uint8_t contents[] = {1, (uint8_t)c};
        int reads = is_one_of(c, reading, sizeof reading), writes = is_one_of(c, writing, sizeof writing);
        struct row row = {.name = sealed ? "sealed, the command" : "unsealed, the command", .sealed = sealed};
        char text[16];
        text_of(contents, sizeof contents, text);
        row.frame = text;
        row.number = !reads && !writes ? 8 : writes && sealed ? 16 : 9;
        if (c == 50 || c == 78) {
            row.number = 0;
            row.reply = c == 50 ? ":013200~" : ":014E000000000000000000~";
        }
        check(&row, &c);
    }
}

/* Every case again, sealed by this number: what writes and passes 1 to 8 is refused, and all else comes to what it came to. */
static void sealed_by(uint64_t sealed)
{
    for (size_t i = 0; i < rows_n; i++) {
        struct row row = rows[i];
        row.sealed = sealed;
        if ((row.number == 0 || row.number > 8) && is_one_of(byte_of(row.frame + 3), writing, sizeof writing)) {
            row.number = 16;
            row.reply = NULL;
            memset(row.laid, 0, sizeof row.laid);
        }
        check(&row, &sealed);
    }
}

/* Every table of a fresh image; and numbers that no table has, some of which would be a table's if they were cut, on an image where those have parts. */
static void tables(void)
{
    static const uint64_t none[] = {0, 9, 10, 19, 255, 256, 258, 268, 65538, 4294967296u, 4294967298u, 4294967308u, 9223372036854775810u, UINT64_MAX};
    for (uint64_t table = 1; table <= 18; table++) {
        const struct question question = {.name = "fresh, table", .table = table, .missing = 1};
        if (table != 9 && table != 10)
            ask(&question, &table);
    }
    for (size_t i = 0; i < sizeof none / sizeof none[0]; i++) {
        const struct question question = {.name = "table", .parts = "0201010B0C01", .table = none[i], .number = 10};
        ask(&question, &none[i]);
    }
}

int main(void)
{
    /* sealed is any number but 0, also one of which a part is 0 */
    static const uint64_t switches[] = {1, 2, 128, 256, 65536, 2147483648u, 4294967296u, 9223372036854775808u, UINT64_MAX};
    for (size_t i = 0; i < rows_n; i++)
        check(&rows[i], NULL);
    for (size_t i = 0; i < questions_n; i++)
        ask(&questions[i], NULL);
    tables();
    lengths();
    characters();
    addresses();
    commands(0);
    commands(1);
    commands(256);
    for (size_t i = 0; i < sizeof switches / sizeof switches[0]; i++)
        sealed_by(switches[i]);
    say_number(passed);
    say_value(" passed, ", failed);
    say(" failed");
    say_end();
    return failed ? 1 : 0;
}
