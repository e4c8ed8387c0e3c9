/* Measures how much stack a call takes, for IZK_STACK of izk.h: each case of cases.h is called on a stack of its own that is painted before, and what
   is no longer paint was taken, from the arguments and the return address that the caller lays on it down to the lowest byte that was written.
   Prints the largest of each function, and fails where one is above IZK_STACK. */
#include "cases.h"
#include "izk.h"
#include "plain.h"
#include "say.h"

#define ROOM 65536

static _Alignas(16) uint8_t stack[ROOM];

/* Calls a function of eight arguments, or of six at the most, with the stack pointer at `top`, and returns what it returns. The seventh and the eighth
   go on the stack; rbp, which the function gives back as it was, keeps the way home. */
uint8_t call_on(uint8_t *top, const uint64_t arguments[8], void (*function)(void));

__asm__(".text\n"
        ".type call_on, @function\n"
        ".globl call_on\n"
        "call_on:\n"
        "    pushq %rbp\n"
        "    movq %rsp, %rbp\n"
        "    movq %rdi, %rsp\n"
        "    movq %rsi, %r10\n"
        "    movq %rdx, %rax\n"
        "    pushq 56(%r10)\n"
        "    pushq 48(%r10)\n"
        "    movq (%r10), %rdi\n"
        "    movq 8(%r10), %rsi\n"
        "    movq 16(%r10), %rdx\n"
        "    movq 24(%r10), %rcx\n"
        "    movq 32(%r10), %r8\n"
        "    movq 40(%r10), %r9\n"
        "    callq *%rax\n"
        "    movq %rbp, %rsp\n"
        "    popq %rbp\n"
        "    retq\n"
        ".size call_on, . - call_on\n");

static uint64_t address(const void *at)
{
    return (uint64_t)(uintptr_t)at;
}

/* A byte that is written may have the paint's value, so one colour alone could show too little. */
static size_t taken(int colour, const uint64_t arguments[8], void (*function)(void), uint8_t *number)
{
    size_t untouched = 0;
    memset(stack, colour, ROOM);
    *number = call_on(stack + ROOM, arguments, function);
    while (untouched < ROOM && stack[untouched] == colour)
        untouched++;
    return ROOM - untouched;
}

static size_t larger(size_t a, size_t b)
{
    return a > b ? a : b;
}

static size_t of_row(const struct row *row)
{
    size_t most = 0;
    for (int colour = 0x5A; colour <= 0xA5; colour += 0xA5 - 0x5A) {
        const struct call *call = readied(row);
        size_t len = 0;
        const uint64_t arguments[8] = {address(call->frame), call->frame_len, call->sealed, address(call->image), call->image_len,
            address(call->out), call->out_len, address(&len)};
        uint8_t number;
        most = larger(most, taken(colour, arguments, (void (*)(void))izk_serve, &number));
        if (number != row->number)
            say_stop("a call on another stack came to another number");
    }
    return most;
}

static size_t of_question(const struct question *question)
{
    size_t most = 0;
    for (int colour = 0x5A; colour <= 0xA5; colour += 0xA5 - 0x5A) {
        const uint8_t *image = readied_image(question);
        uint8_t parts = 0, missing = 0, number;
        const uint64_t arguments[8] = {address(image), (uint64_t)(IZK_IMAGE_LEN + question->image_by), question->table, address(&parts),
            address(&missing)};
        most = larger(most, taken(colour, arguments, (void (*)(void))izk_held_parts, &number));
        if (number != question->number)
            say_stop("a question on another stack came to another number");
    }
    /* this function has no seventh and eighth argument, and they were laid on the stack all the same */
    return most - 2 * sizeof(uint64_t);
}

static int too_much(const char *function, size_t most)
{
    say(function);
    say(" takes ");
    say_number(most);
    say(" bytes of stack");
    say_end();
    return most > IZK_STACK;
}

int main(void)
{
    size_t serving = 0, asking = 0;
    const struct question no_table = {.name = "no table", .table = 9, .number = 10};
    /* Readying the rows has called the block, and with it the C library's functions that it uses: where these are found at their first use, they are
       found by then, and that is not measured. */
    for (size_t i = 0; i < rows_n; i++)
        readied(&rows[i]);
    for (size_t i = 0; i < rows_n; i++)
        serving = larger(serving, of_row(&rows[i]));
    for (size_t i = 0; i < questions_n; i++)
        asking = larger(asking, of_question(&questions[i]));
    asking = larger(asking, of_question(&no_table));
    if (too_much("izk_serve", serving))
        return 1;
    return too_much("izk_held_parts", asking);
}
