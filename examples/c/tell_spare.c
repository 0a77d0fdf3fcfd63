/* Tells whether an entry of a book may follow another, and the spare of that join: the ticks that are left after the move, below 0 if the later
 * entry starts too early.
 *
 *   tell_spare BOOK EARLIER LATER
 *
 * BOOK is a file. EARLIER and LATER are the numbers of two entries, counted from 1 in book order.
 * Exit status: 0 if the answer was told, whatever it is, 1 if the book is refused or has no such entry, 2 if the arguments are wrong, the book
 * cannot be read or the answer cannot be written.
 */
#include <desk.h>
#include <inttypes.h>
#include <stdio.h>
#include <stdlib.h>
#include <string.h>

enum { TOLD = 0, NOT_TOLD = 1, TROUBLE = 2 };

typedef struct {
    uint8_t bytes[DESK_BOOK_BYTES + 1]; /* one more than the longest book, so that the library refuses a longer one */
    size_t length;
} book;

static int read_book(const char *name, book *b) {
    FILE *file = fopen(name, "rb");
    if (file == NULL)
        return 0;
    b->length = fread(b->bytes, 1, sizeof b->bytes, file);
    int good = !ferror(file);
    fclose(file);
    return good;
}

/* The name, and the number too, since two entries may bear one name. */
static void print_entry(const book *b, uint32_t entry) {
    desk_span name = desk_name(b->bytes, b->length, entry);
    printf("%.*s (%" PRIu32 ")", (int)name.length, (const char *)b->bytes + name.start, entry);
}

/* What is wrong with a book, or with the numbers of its entries. */
static const char *meaning(uint32_t code) {
    switch (code) {
    case 11: return "the book is longer than 16384 bytes";
    case 12: return "this is not the form of a book";
    case 13: return "the players must be 1 to 8 and the fee at most 1000000";
    case 14: return "the instruments of a move must be 1 to 16, its ticks and cost at most 1000000, and its pair of instruments on no earlier line";
    case 15: return "an entry must be on instruments from 1 to 16 and end after it starts, at tick 1000000 at the latest";
    case 16: return "the book has more than 28 entries";
    case 19: return "the book has no entry of that number";
    default: return "the call fails this question";
    }
}

static int refused(const char *name, desk_reply reply) {
    if (reply.line != 0)
        fprintf(stderr, "%s:%" PRIu32 ": refused (%" PRIu32 "): %s\n", name, reply.line, reply.code, meaning(reply.code));
    else
        fprintf(stderr, "%s: refused (%" PRIu32 "): %s\n", name, reply.code, meaning(reply.code));
    return NOT_TOLD;
}

static int tell_spare(const char *name, const book *b, uint32_t earlier, uint32_t later) {
    desk_reply reply = desk_spare(b->bytes, b->length, earlier, later);

    /* The code first: the value beside DESK_NO_MOVE is 0, and no spare. */
    if (reply.code != DESK_OK && reply.code != DESK_NO_MOVE)
        return refused(name, reply);
    print_entry(b, later);
    printf(" %s ", reply.code == DESK_OK && reply.value >= 0 ? "may follow" : "may not follow");
    print_entry(b, earlier);
    if (reply.code == DESK_OK)
        printf(": spare %" PRId64 "\n", reply.value);
    else
        printf(": no move\n");
    return TOLD;
}

/* Reads the number of an entry, of up to nine digits. Whether the book has that entry, the library says. */
static int read_entry(const char *text, uint32_t *entry) {
    size_t digits = strspn(text, "0123456789");
    if (digits < 1 || digits > 9 || text[digits] != '\0')
        return 0;
    *entry = (uint32_t)strtoul(text, NULL, 10);
    return 1;
}

int main(int argc, char **argv) {
    static book b;
    uint32_t earlier, later;

    if (argc != 4 || argv[1][0] == '-') {
        fprintf(stderr, "usage: tell_spare BOOK EARLIER LATER\n");
        return TROUBLE;
    }
    if (!read_entry(argv[2], &earlier) || !read_entry(argv[3], &later)) {
        fprintf(stderr, "tell_spare: EARLIER and LATER are numbers of up to nine digits\n");
        return TROUBLE;
    }
    if (!read_book(argv[1], &b)) {
        perror(argv[1]);
        return TROUBLE;
    }
    int status = tell_spare(argv[1], &b, earlier, later);
    if (fflush(stdout) != 0 || ferror(stdout)) {
        perror("standard output");
        return TROUBLE;
    }
    return status;
}
