/* A visit of two dates, from C: lay a book, ask for leave, a hotel room and a meeting, see a refusal, check the book, write the
 * porter's page of a date, add a party, send an order twice, see first and then book, bill the meeting, and take a taxi before breakfast.
 *
 *     tools/build-library
 *     gcc -Iinclude examples/c/visit.c target/staticlib/libcapi.a -o target/visit && target/visit
 */
#include <stdio.h>
#include <stdlib.h>
#include "caviar.h"

/* How many words the book of the small site has, and how many that of the site with early times. */
enum { WORDS = 771, TAXI_WORDS = 743 };

static void say(const char *what, caviar_answer answer)
{
    if (answer.number == 0)
        printf("%s: done, value %u\n", what, answer.value);
    else
        printf("%s: refused by question %u at %u\n", what, answer.number, answer.place);
}

/* Gives a meeting a room on date 1 and prints the porter's page of that date. */
static void porters_page(uint32_t *book)
{
    const uint32_t requests[] = {
        1,  0, 2, 1, 1, 0, 0,  /* leave for visitor 2 on date 1 */
        8,  0, 0, 2, 3, 0, 0,  /* meeting 0 stands in sessions 2 and 3 */
        10, 0, 2, 3, 3, 0, 0,  /* visitor 2 attends it in session 3 */
        12, 1, 0, 2, 3, 0, 70, /* conference room 1 for both sessions, with information 70 */
    };
    uint32_t answers[12];
    uint8_t page[4 * CAVIAR_PAGE_LINE];
    caviar_answer answer;

    say("a meeting on date 1", caviar_requests(book, WORDS, requests, 28, answers, 12));
    answer = caviar_page(book, WORDS, 1, page, sizeof page);
    say("the page of date 1", answer);
    fwrite(page, CAVIAR_PAGE_LINE, answer.value, stdout);
    say("the page of date 2", caviar_page(book, WORDS, 2, page, sizeof page));
}

/* Two more visitors for the meeting of date 1, both or none. */
static void coach_party(uint32_t *book)
{
    const uint32_t leave[] = {
        1, 0, 0, 1, 1, 0, 0, /* leave for visitor 0 on date 1 */
        1, 0, 1, 1, 1, 0, 0, /* and for visitor 1 */
    };
    uint32_t answers[6];
    caviar_guest guests[] = {{.visitor = 0, .first = 2, .last = 3}, {.visitor = 1, .first = 1, .last = 2}};

    say("leave for visitors 0 and 1 on date 1", caviar_requests(book, WORDS, leave, 14, answers, 6));
    say("a party for meeting 0, one guest from date 0", caviar_party(book, WORDS, 0, guests, 2));
    guests[1].first = 2;
    say("the party with both guests on date 1", caviar_party(book, WORDS, 0, guests, 2));
    say("the party again", caviar_party(book, WORDS, 0, guests, 2));
}

/* A hotel room with an order, sent again as if its answer had been lost; then the same request without a number, and the number with
 * another request. */
static void sent_twice(uint32_t *book)
{
    caviar_request_words hotel = {.kind = 4, .a = 1, .b = 2, .first = 1, .last = 1};
    caviar_request_words other = {.kind = 4, .a = 0, .b = 2, .first = 1, .last = 1};

    say("order 17, hotel room 1 for visitor 2 on date 1", caviar_order(book, WORDS, 17, hotel));
    say("order 17 again", caviar_order(book, WORDS, 17, hotel));
    say("the same without an order", caviar_request(book, WORDS, hotel));
    say("order 17 with hotel room 0", caviar_order(book, WORDS, 17, other));
}

static void say_asked(const char *what, caviar_asked asked)
{
    if (asked.number == 0)
        printf("%s: would be done at count %u\n", what, asked.count);
    else
        printf("%s: would be refused by question %u at %u, at count %u\n", what, asked.number, asked.place, asked.count);
}

/* Two offices see hotel room 0 free on date 1 at the same count. The one that commits first has it; the other asks again. */
static void see_first(uint32_t *book)
{
    caviar_request_words here = {.kind = 4, .a = 0, .b = 0, .first = 1, .last = 1};
    caviar_request_words there = {.kind = 4, .a = 0, .b = 1, .first = 1, .last = 1};
    caviar_asked seen_here = caviar_ask(book, WORDS, here);
    caviar_asked seen_there = caviar_ask(book, WORDS, there);

    say_asked("hotel room 0 for visitor 0 on date 1", seen_here);
    say_asked("hotel room 0 for visitor 1 on date 1", seen_there);
    say("commit for visitor 1", caviar_commit(book, WORDS, seen_there.count, there));
    say("commit for visitor 0", caviar_commit(book, WORDS, seen_here.count, here));
    say_asked("hotel room 0 for visitor 0 on date 1", caviar_ask(book, WORDS, here));
}

/* What meeting 0 costs on date 1, where it has a room in two sessions and takes a lunch for three. */
static void bill(uint32_t *book)
{
    caviar_request_words lunch = {.kind = 14, .a = 0, .b = 0, .first = 1, .last = 1, .n = 3};
    caviar_tariff tariff = {.room = 12050, .seat = 1290, .percent = 10};
    caviar_charged charged;

    say("a lunch for meeting 0 on date 1", caviar_request(book, WORDS, lunch));
    charged = caviar_charge(book, WORDS, 0, 0, 1, tariff);
    printf("meeting 0 on dates 0 to 1: number %u, %llu cents\n", charged.number, (unsigned long long)charged.value);
    tariff.percent = 101;
    charged = caviar_charge(book, WORDS, 0, 0, 1, tariff);
    printf("the same at 101 percent: number %u, %llu cents\n", charged.number, (unsigned long long)charged.value);
}

/* The small site of docs/RULES.md, section 13, request by request. */
static void small_site(void)
{
    const uint32_t settings[] = {2, 2, 2, 3, 2, 2, 1, 2, 1, 0, 4};
    uint32_t book[WORDS];
    caviar_request_words leave = {.kind = 1, .b = 1, .first = 0, .last = 1};
    caviar_request_words hotel = {.kind = 4, .a = 0, .b = 1, .first = 0, .last = 1};
    caviar_request_words removal = {.kind = 3, .b = 1, .first = 0, .last = 1};

    printf("a book of these settings has %llu words\n", (unsigned long long)caviar_book_len(settings, 11));
    say("lay", caviar_lay(settings, 11, book, WORDS));
    say("hotel room 0 for visitor 1 on dates 0 to 1", caviar_request(book, WORDS, hotel));
    say("leave for visitor 1 on dates 0 to 1", caviar_request(book, WORDS, leave));
    say("hotel room 0 for visitor 1 on dates 0 to 1", caviar_request(book, WORDS, hotel));
    say("remove visitor 1 on dates 0 to 1", caviar_request(book, WORDS, removal));
    say("check", caviar_check(book, WORDS));
    porters_page(book);
    coach_party(book);
    sent_twice(book);
    see_first(book);
    bill(book);
}

/* A site of two dates with four ride times each, the first of which belongs to the date before: time 4, the first of date 1, is on date 0.
 * Visitor 0 has leave on date 0 alone. */
static void early_taxi(void)
{
    const uint32_t settings[] = {2, 1, 4, 1, 1, 1, 1, 1, 1, 1, 4};
    uint32_t book[TAXI_WORDS];
    caviar_request_words leave = {.kind = 1, .b = 0, .first = 0, .last = 0};
    caviar_request_words early = {.kind = 6, .a = 0, .b = 0, .first = 4, .last = 4};
    caviar_request_words later = {.kind = 6, .a = 0, .b = 0, .first = 5, .last = 5};

    say("lay a book with early times", caviar_lay(settings, 11, book, TAXI_WORDS));
    say("leave for visitor 0 on date 0", caviar_request(book, TAXI_WORDS, leave));
    say("a taxi at time 4, early on date 1", caviar_request(book, TAXI_WORDS, early));
    say("a taxi at time 5, later on date 1", caviar_request(book, TAXI_WORDS, later));
}

/* The largest site, with a list of requests. */
static int largest_site(void)
{
    uint32_t settings[CAVIAR_MOST_SETTINGS] = {400, 16, 96, 512, 128, 64, 16, 512, 128, 0};
    const uint32_t requests[] = {
        1,  0,  511, 0,    399,  0, 0, /* leave for visitor 511 on every date */
        4,  7,  511, 0,    399,  0, 0, /* hotel room 7 */
        6,  12, 511, 0,    95,   0, 0, /* transport 12 on the first date */
        18, 0,  0,   399,  399,  0, 0, /* how many have leave on the last date? */
        20, 0,  0,   6399, 6399, 0, 0, /* the lowest free conference room in the last session */
        3,  0,  511, 0,    399,  0, 0, /* remove the visitor */
    };
    uint32_t answers[18];
    size_t length = CAVIAR_MOST_WORDS;
    uint32_t *book = malloc(length * sizeof *book);

    if (book == NULL)
        return 1;
    for (int room = 0; room < 16; room++)
        settings[10 + room] = 1000;
    say("lay the largest book and answer a list", caviar_serve(settings, CAVIAR_MOST_SETTINGS, book, length, requests, 42, answers, 18));
    for (int i = 0; i < 6; i++)
        printf("  kind %u: number %u, place %u, value %u\n", requests[7 * i], answers[3 * i], answers[3 * i + 1], answers[3 * i + 2]);
    say("the same list again", caviar_requests(book, length, requests, 42, answers, 18));
    say("check", caviar_check(book, length));
    book[length - CAVIAR_RING_WORDS - 2] = 513;
    say("check with a visitor past the limit in the last cell", caviar_check(book, length));
    free(book);
    return 0;
}

int main(void)
{
    small_site();
    early_taxi();
    return largest_site();
}
