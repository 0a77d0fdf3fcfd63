/* Prints the part sheets of one of the cheapest ways of a book: for each part its entries in playing order, with the ticks between them and how
 * many of those are spare.
 *
 *   print_sheets BOOK [N]
 *
 * BOOK is a file. N counts the cheapest ways from 1, in the order in which list_ways and the program ways list them; 1 if it is not given.
 * Exit status: 0 if the sheets were printed, 1 if the book is refused or has no such way, 2 if the arguments are wrong, the book cannot be read
 * or the sheets cannot be written.
 */
#include <desk.h>
#include <inttypes.h>
#include <stdio.h>
#include <stdlib.h>
#include <string.h>

enum { PRINTED = 0, NOT_PRINTED = 1, TROUBLE = 2 };

typedef struct {
    uint8_t bytes[DESK_BOOK_BYTES + 1]; /* one more than the longest book, so that the library refuses a longer one */
    size_t length;
} book;

static int read_book(const char *name, book *b) {
    FILE *file = fopen(name, "rb");
    if (file == NULL)
        return 0;
    b->length = fread(b->bytes, 1, sizeof b->bytes, file);
    int good = !ferror(file);
    fclose(file);
    return good;
}

/* The entries of an accepted book: those that have a name. */
static size_t count_entries(const book *b) {
    uint32_t entries = 0;
    while (entries < DESK_ENTRIES && desk_name(b->bytes, b->length, entries + 1).length != 0)
        entries++;
    return entries;
}

/* What is wrong with a book. Questions 17, 18 and 21 are about the lists of the caller, and those of print_sheets pass them. */
static const char *meaning(uint32_t code) {
    switch (code) {
    case 11: return "the book is longer than 16384 bytes";
    case 12: return "this is not the form of a book";
    case 13: return "the players must be 1 to 8 and the fee at most 1000000";
    case 14: return "the instruments of a move must be 1 to 16, its ticks and cost at most 1000000, and its pair of instruments on no earlier line";
    case 15: return "an entry must be on instruments from 1 to 16 and end after it starts, at tick 1000000 at the latest";
    case 16: return "the book has more than 28 entries";
    default: return "the call fails this question";
    }
}

static int refused(const char *name, desk_reply reply) {
    if (reply.line != 0)
        fprintf(stderr, "%s:%" PRIu32 ": refused (%" PRIu32 "): %s\n", name, reply.line, reply.code, meaning(reply.code));
    else
        fprintf(stderr, "%s: refused (%" PRIu32 "): %s\n", name, reply.code, meaning(reply.code));
    return NOT_PRINTED;
}

/* Finds the way of that number, or says why there is none. A way fills the first `length` bytes of its list. */
static int find_way(const char *name, const book *b, unsigned long number, uint8_t way[4 * DESK_ENTRIES], size_t length) {
    uint8_t given[4 * DESK_ENTRIES];
    unsigned long found = 1;
    desk_reply reply = desk_first(b->bytes, b->length, way, 4 * DESK_ENTRIES);

    while (reply.code == DESK_OK && found < number) {
        /* The list given is exactly the way, and must not overlap the list lent. */
        memcpy(given, way, length);
        reply = desk_next(b->bytes, b->length, given, length, way, 4 * DESK_ENTRIES);
        if (reply.code == DESK_OK)
            found++;
    }
    switch (reply.code) {
    case DESK_OK:
        return PRINTED;
    case DESK_NONE:
        fprintf(stderr, "%s: no way\n", name);
        return NOT_PRINTED;
    case DESK_END:
        fprintf(stderr, "%s: no way %lu: the last is way %lu\n", name, number, found);
        return NOT_PRINTED;
    }
    return refused(name, reply);
}

static int print_sheets(const char *name, const book *b, unsigned long number) {
    uint8_t way[4 * DESK_ENTRIES];
    size_t length = 4 * count_entries(b);
    int status = find_way(name, b, number, way, length);

    if (status != PRINTED)
        return status;
    /* The room is exactly what the sheets of this way take. Without entries there is no sheet, and it is 0. */
    desk_reply room = desk_sheets_room(b->bytes, b->length, way, length);
    if (room.code != DESK_OK)
        return refused(name, room);
    if (room.value == 0)
        return PRINTED;
    uint8_t *text = malloc((size_t)room.value);
    if (text == NULL) {
        perror("print_sheets");
        return TROUBLE;
    }
    desk_reply reply = desk_sheets(b->bytes, b->length, way, length, text, (size_t)room.value);
    if (reply.code == DESK_OK)
        fwrite(text, 1, (size_t)reply.value, stdout); /* main looks whether it was written */
    else
        status = refused(name, reply);
    free(text);
    return status;
}

/* Reads a number from 1 on, of up to nine digits. */
static int read_number(const char *text, unsigned long *number) {
    size_t digits = strspn(text, "0123456789");
    if (digits < 1 || digits > 9 || text[digits] != '\0')
        return 0;
    *number = strtoul(text, NULL, 10);
    return *number > 0;
}

int main(int argc, char **argv) {
    static book b;
    unsigned long number = 1;

    if (argc < 2 || argc > 3 || argv[1][0] == '-') {
        fprintf(stderr, "usage: print_sheets BOOK [N]\n");
        return TROUBLE;
    }
    if (argc == 3 && !read_number(argv[2], &number)) {
        fprintf(stderr, "print_sheets: N is a number from 1 on, of up to nine digits\n");
        return TROUBLE;
    }
    if (!read_book(argv[1], &b)) {
        perror(argv[1]);
        return TROUBLE;
    }
    int status = print_sheets(argv[1], &b, number);
    if (fflush(stdout) != 0 || ferror(stdout)) {
        perror("standard output");
        return TROUBLE;
    }
    return status;
}
