#include "say.h"
#include "plain.h"

static char line[512];
static size_t filled;

static void write_out(void)
{
    size_t done = 0;
    while (done < filled) {
        long n = write(1, line + done, filled - done);
        if (n <= 0)
            exit(2);
        done += (size_t)n;
    }
    filled = 0;
}

static void say_letter(char c)
{
    if (filled == sizeof line)
        write_out();
    line[filled++] = c;
}

void say(const char *text)
{
    while (*text)
        say_letter(*text++);
}

void say_number(uint64_t n)
{
    char digits[21];
    size_t at = sizeof digits - 1;
    digits[at] = 0;
    do {
        digits[--at] = (char)('0' + (int)(n % 10));
        n /= 10;
    } while (n);
    say(digits + at);
}

void say_end(void)
{
    say_letter('\n');
    write_out();
}

void say_stop(const char *why)
{
    say(why);
    say_end();
    exit(2);
}
