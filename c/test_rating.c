/* Calls the firmware's entry as a controller would, and with hostile lengths and bytes, and checks each answer and every
   byte of the page space. A text lies in memory of just its length, so that a checker of memory sees any read beyond it;
   bytes behind the page's length are watched here. */
#include "diljusk.h"

#include <stdio.h>
#include <stdlib.h>
#include <string.h>

static const char TEXT[] =
    "NETW    4    5    0    3\n"
    "PIPE    0    1   30    O\n"
    "PIPE    0    2   20    O\n"
    "PIPE    1    2   10    O\n"
    "PIPE    1    3   25    O\n"
    "PIPE    2    3   25    O\n"
    "SCHD    3\n"
    "STEP   60=====\n"
    "STEP   30===C=\n"
    "STEP   45=C=O=\n";

static const char PAGE[] =
    "RATE    1       50NBBD\n"
    "GOVN    1.....\n"
    "RATE    2       25NNND\n"
    "GOVN    2....G\n"
    "RATE    3       30NDDD\n"
    "GOVN    3G....\n"
    "TOTL          5100\n";

enum { TEXT_LEN = sizeof TEXT - 1, PAGE_LEN = sizeof PAGE - 1, SPACE = 256, MOST_TEXT = 65536 };

/* Any refusal, where the number is not told. */
enum { ANY = 1000 };

static int failures;

/* What a page space holds before a call: never the same byte twice in a row. */
static uint8_t mark(size_t i)
{
    return (uint8_t)(i * 37 + 11);
}

/* Numbers that look random, the same ones in every run. */
static uint32_t draw(void)
{
    static uint32_t state = 2463534242u;
    state ^= state << 13;
    state ^= state >> 17;
    state ^= state << 5;
    return state;
}

/* Memory of just that length; a length of 0 has a place too. */
static uint8_t *room(size_t length)
{
    uint8_t *bytes = malloc(length ? length : 1);
    if (bytes == NULL) {
        puts("no memory");
        exit(2);
    }
    return bytes;
}

/* Rates and compares: the answer, the first `written` bytes of the page, that all others stayed, and that the text did. */
static int rates(const uint8_t *text, size_t text_len, size_t page_len, uint32_t answer, size_t written, uint32_t *got)
{
    uint8_t *read = room(text_len);
    uint8_t *page = room(page_len + SPACE);
    if (text_len > 0) {
        memcpy(read, text, text_len);
    }
    for (size_t i = 0; i < page_len + SPACE; i++) {
        page[i] = mark(i);
    }
    *got = diljusk_rate(read, text_len, page, page_len);
    int right = answer == ANY ? *got >= 1 && *got <= 9 && *got != 8 : *got == answer;
    right = right && memcmp(page, PAGE, written) == 0;
    for (size_t i = written; i < page_len + SPACE; i++) {
        right = right && page[i] == mark(i);
    }
    right = right && (text_len == 0 || memcmp(read, text, text_len) == 0);
    free(page);
    free(read);
    return right;
}

static void expect(const char *name, const void *text, size_t text_len, size_t page_len, uint32_t answer, size_t written)
{
    uint32_t got;
    int right = rates(text, text_len, page_len, answer, written, &got);
    printf("%s: %u%s\n", name, (unsigned)got, right ? "" : " WRONG");
    failures += !right;
}

/* The example cut to every length: only the whole text is rated, and all else lacks a line. */
static void expect_cuts(void)
{
    int right = 1;
    uint32_t got;
    for (size_t length = 0; length < TEXT_LEN; length++) {
        right = rates((const uint8_t *)TEXT, length, SPACE, 1, 0, &got) && right;
    }
    printf("every shorter text: %s\n", right ? "1" : "WRONG");
    failures += !right;
}

/* Every length of page: refused by 9 below the page's own, and else written, with what lies beyond untouched. */
static void expect_pages(void)
{
    int right = 1;
    uint32_t got;
    for (size_t length = 0; length <= SPACE; length++) {
        int fits = length >= PAGE_LEN;
        right = rates((const uint8_t *)TEXT, TEXT_LEN, length, fits ? 0 : 9, fits ? PAGE_LEN : 0, &got) && right;
    }
    printf("every length of page: %s\n", right ? "9 or 0" : "WRONG");
    failures += !right;
}

/* A number of a right text, in five columns. */
static size_t number(const uint8_t *columns)
{
    size_t value = 0;
    for (int i = 0; i < 5; i++) {
        value = columns[i] == ' ' ? value : value * 10 + (size_t)(columns[i] - '0');
    }
    return value;
}

/* The length of the page of a right text. */
static size_t page_length(const uint8_t *text)
{
    size_t junctions = number(text + 4), pipes = number(text + 9);
    size_t steps = number(text + 25 * (1 + pipes) + 4);
    return steps * (junctions + pipes + 29) + 19;
}

/* The example with some bytes drawn anew: refused with the page as it was, or right again, with a page of the right length. */
static void expect_damaged(void)
{
    uint8_t text[TEXT_LEN], page[4 * SPACE];
    int right = 1, refused = 0;
    for (int turn = 0; turn < 2000; turn++) {
        memcpy(text, TEXT, TEXT_LEN);
        for (uint32_t k = draw() % 3; k < 3; k++) {
            text[draw() % TEXT_LEN] = (uint8_t)(turn % 2 ? draw() : (uint32_t)" 0123456789OC=\n"[draw() % 15]);
        }
        for (size_t i = 0; i < sizeof page; i++) {
            page[i] = mark(i);
        }
        uint32_t got = diljusk_rate(text, TEXT_LEN, page, sizeof page);
        right = right && got <= 7;
        refused += got != 0;
        for (size_t i = got ? 0 : page_length(text); i < sizeof page; i++) {
            right = right && page[i] == mark(i);
        }
    }
    printf("2000 damaged texts: %d refused%s\n", refused, right ? "" : " WRONG");
    failures += !right;
}

/* Long texts of one byte, of bytes drawn at random, and the example with much behind it. */
static void expect_long(void)
{
    static uint8_t text[2 * MOST_TEXT];
    memset(text, 0, sizeof text);
    expect("65,536 zero bytes", text, MOST_TEXT, SPACE, 1, 0);
    expect("131,072 zero bytes", text, sizeof text, SPACE, 1, 0);
    memset(text, '\n', sizeof text);
    expect("one line feed", text, 1, SPACE, 1, 0);
    expect("65,535 line feeds", text, MOST_TEXT - 1, SPACE, 1, 0);
    expect("65,536 line feeds", text, MOST_TEXT, SPACE, 1, 0);
    expect("65,537 line feeds", text, MOST_TEXT + 1, SPACE, 1, 0);
    expect("131,072 line feeds", text, sizeof text, 0, 1, 0);
    memcpy(text, TEXT, TEXT_LEN);
    expect("the example and a line feed", text, TEXT_LEN + 1, SPACE, 7, 0);
    expect("the example and line feeds, 131,072 bytes", text, sizeof text, SPACE, 7, 0);
    expect("the example and line feeds, no space", text, sizeof text, 0, 7, 0);
    for (size_t i = 0; i < sizeof text; i++) {
        text[i] = (uint8_t)draw();
    }
    expect("131,072 random bytes", text, sizeof text, SPACE, ANY, 0);
    for (size_t length = 0; length < 64; length++) {
        uint32_t got;
        failures += !rates(text + length * 97, length * 41, SPACE, ANY, 0, &got);
    }
}

int main(void)
{
    uint8_t damaged[TEXT_LEN];

    expect("the example", TEXT, TEXT_LEN, SPACE, 0, PAGE_LEN);
    expect("just enough space", TEXT, TEXT_LEN, PAGE_LEN, 0, PAGE_LEN);
    expect("a byte more space", TEXT, TEXT_LEN, PAGE_LEN + 1, 0, PAGE_LEN);
    expect("a byte too little space", TEXT, TEXT_LEN, PAGE_LEN - 1, 9, 0);
    expect("one byte of space", TEXT, TEXT_LEN, 1, 9, 0);
    expect("no space", TEXT, TEXT_LEN, 0, 9, 0);
    expect("no text", TEXT, 0, SPACE, 1, 0);
    expect("no text and no space", TEXT, 0, 0, 1, 0);
    expect("one byte of text", TEXT, 1, SPACE, 1, 0);
    expect("the last byte missing", TEXT, TEXT_LEN - 1, SPACE, 1, 0);
    expect("a byte too many", TEXT, TEXT_LEN + 1, SPACE, 7, 0);

    memcpy(damaged, TEXT, TEXT_LEN);
    damaged[0] = 'X';
    expect("a wrong kind word", damaged, TEXT_LEN, SPACE, 2, 0);
    memcpy(damaged, TEXT, TEXT_LEN);
    damaged[8] = '-';
    expect("a bad number", damaged, TEXT_LEN, SPACE, 3, 0);
    memcpy(damaged, TEXT, TEXT_LEN);
    damaged[8] = '1';
    expect("a number out of range", damaged, TEXT_LEN, SPACE, 4, 0);
    memcpy(damaged, TEXT, TEXT_LEN);
    damaged[TEXT_LEN - 2] = '?';
    expect("a wrong letter", damaged, TEXT_LEN, SPACE, 5, 0);
    memcpy(damaged, TEXT, TEXT_LEN);
    damaged[23] = '0';
    expect("pump and outlet the same", damaged, TEXT_LEN, SPACE, 6, 0);
    expect("a bad text before too little space", damaged, TEXT_LEN, 0, 6, 0);

    expect_cuts();
    expect_pages();
    expect_damaged();
    expect_long();

    printf("%s\n", failures ? "FAILED" : "all as expected");
    return failures != 0;
}
