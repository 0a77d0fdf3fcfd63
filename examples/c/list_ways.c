/* Lists the cheapest ways to share the entries of a book among players, part by part, with the entries' names.
 *
 *   list_ways [-n COUNT] [BOOK]
 *
 * BOOK is a file; without it the book is read from standard input. At most COUNT ways are shown, 20 if it is not given.
 * Exit status: 0 if the ways were listed, 1 if the book has no way or is refused, 2 if the arguments are wrong, the book cannot be read or
 * the ways cannot be written.
 */
#include <desk.h>
#include <inttypes.h>
#include <stdio.h>
#include <stdlib.h>
#include <string.h>

enum { LISTED = 0, NOT_LISTED = 1, TROUBLE = 2 };

typedef struct {
    uint8_t bytes[DESK_BOOK_BYTES + 1]; /* one more than the longest book, so that the library refuses a longer one */
    size_t length;
    uint32_t entries;
    desk_span names[DESK_ENTRIES];
} book;

/* Reads the file, or standard input where its name is NULL. */
static int read_book(const char *name, book *b) {
    FILE *file = name == NULL ? stdin : fopen(name, "rb");
    if (file == NULL)
        return 0;
    b->length = fread(b->bytes, 1, sizeof b->bytes, file);
    int good = !ferror(file);
    if (file != stdin)
        fclose(file);
    return good;
}

/* The first entry that the book does not have is refused, and its part of the book is then empty. A refused book has no names. */
static void find_names(book *b) {
    b->entries = 0;
    while (b->entries < DESK_ENTRIES) {
        desk_span name = desk_name(b->bytes, b->length, b->entries + 1);
        if (name.length == 0)
            break;
        b->names[b->entries++] = name;
    }
}

/* The number of that index in a list of 32-bit numbers, lowest byte first. */
static uint32_t number_at(const uint8_t *list, size_t index) {
    const uint8_t *b = list + 4 * index;
    return (uint32_t)b[0] | (uint32_t)b[1] << 8 | (uint32_t)b[2] << 16 | (uint32_t)b[3] << 24;
}

/* The name, and the number too, since two entries may bear one name. */
static void print_entry(const book *b, uint32_t entry) {
    desk_span name = b->names[entry - 1];
    printf("%.*s (%" PRIu32 ")", (int)name.length, (const char *)b->bytes + name.start, entry);
}

/* A line for each part, with its entries in playing order. */
static void print_way(const book *b, const uint8_t *way) {
    uint32_t after[DESK_ENTRIES + 1] = {0}; /* the way has the entry before each; this is the entry after, 0 if there is none */
    for (uint32_t entry = 1; entry <= b->entries; entry++) {
        uint32_t before = number_at(way, entry - 1);
        if (before != 0)
            after[before] = entry;
    }
    for (uint32_t opening = 1; opening <= b->entries; opening++) {
        if (number_at(way, opening - 1) != 0)
            continue;
        printf("  ");
        print_entry(b, opening);
        for (uint32_t entry = after[opening]; entry != 0; entry = after[entry]) {
            printf(", ");
            print_entry(b, entry);
        }
        printf("\n");
    }
}

/* What is wrong with a book. Questions 17 and 18 are about the lists of the caller, and those of list_ways pass them. */
static const char *meaning(uint32_t code) {
    switch (code) {
    case 11: return "the book is longer than 16384 bytes";
    case 12: return "this is not the form of a book";
    case 13: return "the players must be 1 to 8 and the fee at most 1000000";
    case 14: return "the instruments of a move must be 1 to 16, its ticks and cost at most 1000000, and its pair of instruments on no earlier line";
    case 15: return "an entry must be on instruments from 1 to 16 and end after it starts, at tick 1000000 at the latest";
    case 16: return "the book has more than 28 entries";
    default: return "the call fails this question";
    }
}

static int list_ways(const char *name, const book *b, unsigned long most) {
    uint8_t way[4 * DESK_ENTRIES], given[4 * DESK_ENTRIES];
    size_t length = 4 * (size_t)b->entries;
    unsigned long shown = 0;
    desk_reply reply = desk_first(b->bytes, b->length, way, sizeof way);

    if (reply.code == DESK_OK)
        printf("cost %" PRId64 "\n", reply.value);
    while (reply.code == DESK_OK && shown < most) {
        printf("way %lu\n", ++shown);
        print_way(b, way);
        /* The list given is exactly the way, and must not overlap the list lent. */
        memcpy(given, way, length);
        reply = desk_next(b->bytes, b->length, given, length, way, sizeof way);
    }
    switch (reply.code) {
    case DESK_OK:
        printf("%lu shown, and there are more\n", shown);
        return LISTED;
    case DESK_END:
        printf("%lu in all\n", shown);
        return LISTED;
    case DESK_NONE:
        printf("no way\n");
        return NOT_LISTED;
    }
    if (reply.line != 0)
        fprintf(stderr, "%s:%" PRIu32 ": refused (%" PRIu32 "): %s\n", name, reply.line, reply.code, meaning(reply.code));
    else
        fprintf(stderr, "%s: refused (%" PRIu32 "): %s\n", name, reply.code, meaning(reply.code));
    return NOT_LISTED;
}

/* Reads a count of up to nine digits. */
static int read_count(const char *text, unsigned long *count) {
    size_t digits = text == NULL ? 0 : strspn(text, "0123456789");
    if (digits < 1 || digits > 9 || text[digits] != '\0')
        return 0;
    *count = strtoul(text, NULL, 10);
    return 1;
}

int main(int argc, char **argv) {
    static book b;
    unsigned long most = 20;
    int at = 1;

    if (at < argc && strcmp(argv[at], "-n") == 0) {
        if (!read_count(argv[at + 1], &most)) {
            fprintf(stderr, "list_ways: -n takes a number of up to nine digits\n");
            return TROUBLE;
        }
        at += 2;
    }
    if (argc > at + 1 || (argc == at + 1 && argv[at][0] == '-')) {
        fprintf(stderr, "usage: list_ways [-n COUNT] [BOOK]\n");
        return TROUBLE;
    }
    const char *file = argc == at + 1 ? argv[at] : NULL;
    const char *name = file == NULL ? "standard input" : file;
    if (!read_book(file, &b)) {
        perror(name);
        return TROUBLE;
    }
    find_names(&b);
    int status = list_ways(name, &b, most);
    if (fflush(stdout) != 0 || ferror(stdout)) {
        perror("standard output");
        return TROUBLE;
    }
    return status;
}
