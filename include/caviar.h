/* The CAVIAR booking book, for C.
 *
 * This file is a manual: everything a caller needs is in it. Rule numbers such as 5.14 are those of docs/RULES.md, which says the same
 * things at more length.
 *
 * BOOK AND CALLER
 *
 * A book is an array of 32-bit words that the caller owns: settings first, then seven regions of leave, bookings and meetings, then a
 * ring of 64 orders, and as the last word a count of changes. The functions below keep nothing between calls and allocate nothing.
 *
 * Every function takes any words in the arrays that it is lent, of any length, and says so where they are not a book: none has a
 * condition on contents. What each one promises below is proved, for all words. What the caller owes is what C owes any function that
 * takes arrays: a pointer to as many words as the length says (an empty array may be a null pointer), aligned for uint32_t, no two of
 * the arrays overlapping where one of them is written. All lengths are counted in words, not in bytes, but for a page, which is bytes,
 * and the guests of a party, which are structs.
 *
 * Threads: calls on different books may run at the same time. On one book, calls of caviar_check, caviar_ask, caviar_charge and
 * caviar_page may run beside each other, the last with a page each; every other call that is lent a book or answers counts as writing to
 * them, whatever its requests are, so nobody else may read or write them meanwhile.
 *
 * SETTINGS (rules 1.1 to 1.3 and 1.7)
 *
 * Settings are 10 + G words: nine limits in this order, the number of early times, then the seat capacities of dining rooms 0, 1, ..,
 * G - 1.
 *
 *     word   limit                        from 1 to
 *     0  D   dates                        400
 *     1  P   sessions of one date         16
 *     2  Q   ride times of one date       96
 *     3  V   visitors                     512
 *     4  M   meetings                     128
 *     5  C   conference rooms             64
 *     6  G   dining rooms                 16
 *     7  H   hotel rooms                  512
 *     8  K   transports                   128
 *     9  E   early times of one date      from 0 to Q - 1; see UNITS
 *    10 ..   capacities, one for each of the G dining rooms, each from 1 to 1000
 *
 * The book of these settings has, with W(n) = (n + 31) / 32 rounded down, so many words (caviar_book_len computes it):
 *
 *     10 + G  +  D * (W(V) + H + 3 * M)  +  D * P * (W(M) + V + 2 * C)  +  D * Q * K  +  CAVIAR_RING_WORDS  +  1
 *
 * UNITS (rules 2.1 and 2.2)
 *
 * Dates are 0 to D - 1, sessions 0 to D * P - 1, times 0 to D * Q - 1. Session s is on date s / P, rounded down. Visitors, meetings,
 * rooms and transports are numbered from 0 too.
 *
 * Time t is on date (t - E) / Q, rounded down, and on date 0 if t is below E. The first E of the Q times that are numbered under a date
 * are early: they belong to the date before, so that a guest whose leave ended the evening before can still ride. Date 0 has no date
 * before it and keeps its own. With D = 3, Q = 4 and E = 1 the times 0 to 4 are on date 0, 5 to 8 on date 1, 9 to 11 on date 2. With
 * E = 0 it is t / Q.
 *
 * REQUESTS (section 4)
 *
 * A request is the seven words of struct caviar_request_words. Its slots are `first` to `last`, both included, in the unit of its kind.
 * A field that the table leaves empty is 0. Kinds 17, 18 and 19 take one slot: first = last.
 *
 *     kind                        a                b         slots         also
 *      1  add leave                                visitor   dates
 *      2  end leave                                visitor   dates
 *      3  remove a visitor                         visitor   dates
 *      4  book a hotel room       hotel room       visitor   dates
 *      5  erase that booking      hotel room       visitor   dates
 *      6  book a ride             transport        visitor   times
 *      7  erase that booking      transport        visitor   times
 *      8  let a meeting stand     meeting                    sessions
 *      9  end that                meeting                    sessions
 *     10  attend a meeting        meeting          visitor   sessions
 *     11  erase that              meeting          visitor   sessions
 *     12  give a room             conference room  meeting   sessions      info
 *     13  take back all rooms                      meeting   sessions
 *     14  reserve a lunch         dining room      meeting   dates         n seats, info
 *     15  erase that lunch        dining room      meeting   dates
 *     16  13, and its lunches                      meeting   sessions
 *     17  which meeting                            visitor   one session   value: the meeting's number
 *     18  who has leave                                      one date      value: how many visitors
 *     19  seats left              dining room                one date      value: how many seats
 *     20  a free room                                        sessions      value: the lowest conference room that is free in all of them
 *
 * Kind 3 ends the visitor's leave on its dates and erases all their hotel, ride and attend entries on them; its value is how many
 * entries went. Kind 9 erases the attendance of the meeting in its sessions. Kind 13 erases every conference room of the meeting in
 * its sessions; kind 16 does the same and erases the meeting's lunches on every date from that of `first` to that of `last`. Kinds 17
 * to 20 change nothing. Values that are not said are 0. `info` is kept beside the entry and never looked into.
 *
 * ORDERS (section 18)
 *
 * A line that drops leaves a caller without an answer, and a request that is sent again may be refused because it was done before. So a
 * request may carry an order, a number from 1 to 4294967295 that the caller chooses; 0 means none. caviar_order and caviar_orders take
 * requests with orders; caviar_request and caviar_requests take them without, and keep nothing.
 *
 * The book has 64 places for orders, each with the number, the request and its answer, done or refused. While an order is kept, sending it
 * again with the same request gets the answer that it got first, whatever the book holds by then, and changes nothing; with another
 * request it is refused by 28. Else it is answered as the request alone would be, and kept at the next place, which then goes on and
 * round, so that it stays kept while fewer than 64 new orders come behind it. Only 1, 2 and 28 are not kept. So a caller that
 *
 *     - gives each request that changes something a number of its own, counting up,
 *     - sends it again with the same number when no answer came,
 *     - and sends at most 63 others behind one that has no answer yet,
 *
 * gets for each the answer given when it first arrived, and each was done at most once. Callers that share a book share its numbers and
 * its 64 places. A new order that is refused writes the ring too; no other refusal writes anything.
 *
 * The ring is the CAVIAR_RING_WORDS words of a book before its last: 64 entries of 11 words (number, request, answer), then the place
 * where the next order goes, 0 to 63. An entry without a number, that is with number 0, has zeros in all its words. Question 2 asks for
 * this, for numbers that are not 0 to be different ones, for answers that have no place beside number 0 and no value beside another, and
 * for a next place that the ring has.
 *
 * SEE FIRST, THEN BOOK (section 19)
 *
 * The last word of a book is its change count: 0 when the book is laid, and one more after each request of kinds 1 to 16 that is done,
 * whether a set changed by it or not, and after each party that is done, whatever its size. Refusals, kinds 17 to 20, orders that are
 * still kept, and calls that only read do not raise it. Every word is a good count; at 4294967295 nothing can be counted any more, and
 * what would be is refused by 30.
 *
 * caviar_ask says what a request would be answered if it were sent now, without an order, and tells the count. It writes nothing.
 * caviar_commit takes a request and a count: is the book's count another by now, the answer is 29; else the request is answered as by
 * caviar_request. So a clerk asks, shows the outcome, and commits at the count that was told; the answer is then the one that was
 * shown, or 29, and then the clerk asks again. This holds for every list of calls on a book since it was laid, whoever makes them:
 *
 *     caviar_asked asked = caviar_ask(book, book_len, hotel);
 *     if (asked.number == 0 && the_guest_agrees(&asked))
 *         answer = caviar_commit(book, book_len, asked.count, hotel);      0 0 0, or 29 0 0 if somebody else was quicker
 *
 * The guest may take his time: ask and commit are two calls, and between them the book is free for others. Laying a book anew begins its
 * count at 0 again, so a count that was told before is then no count of this book.
 *
 * ANSWERS (section 6)
 *
 * An answer is the three words of struct caviar_answer. Done: number and place are 0. Refused: `number` says which question was the
 * first with the answer no, `value` is 0, and nothing has changed: not a word of the book, nor of a lent list of answers, nor a byte
 * of a lent page. A party (caviar_party) is refused so as a whole: where one of its guests is, none has been added. A new order
 * that is refused from question 3 on is kept: its entry of the ring and the next place are written, and the rest of the book stays.
 *
 *     number  means (asked of the kinds)                                                        place
 *      1      no book: under 10 words, a limit, E or a capacity out of range, or another length 0
 *      2      a book that breaks a law, or has a cell or an order with what it may not hold     0
 *      3      unknown kind                                                                      0
 *      4      a field that the kind does not use is not 0                                       0
 *      5      a is not below its limit                                                          0
 *      6      b is not below its limit                                                          0
 *      7      first after last, last past the end, or several slots for 17, 18 or 19;           0
 *             for a page: the date is past the last one; for a charge: so are its dates, or backward
 *      8      no seat, or more than the dining room has (14)                                    0
 *      9      the visitor has no leave on the slot's date (4, 6, 10)                            the slot
 *     10      the meeting does not stand (10, 12), or in no session of the date (14)            the slot
 *     11      this very booking is there already (4, 6, 10, 12, 14)                             the slot
 *     12      the room or transport is in use (4, 6, 12)                                        the slot
 *     13      the visitor or meeting has another one (4, 6, 10, 14)                             the slot
 *     14      too few seats left (14)                                                           the slot, a date
 *     15      this booking is not there (5, 7, 11, 15)                                          the slot
 *     16      the meeting has no conference room (13, 16)                                       the slot
 *     17      the meeting has no lunch on a date of the run (16)                                the date, not a session
 *     18      the visitor has a booking left (2)                                                the slot, a date
 *     19      the meeting has a conference room in the slot, or a lunch on its date (9)         the slot
 *     20      the meeting does not stand, so that there is nothing to end (9)                   the slot
 *     21      the visitor attends no meeting (17)                                               the slot
 *     22      no conference room is free in all the slots (20)                                  0
 *     23      (the program `frames` alone: the line is no frame)                                0
 *     24      bad settings                                                                      0
 *     25      the book has another length than the settings ask for                             0
 *     26      the lent page is shorter than its lines                                           0
 *     27      the party has no guest, or more than 64                                           0
 *     28      the order is kept with another request                                            0
 *     29      the count of the commit is not the book's                                         0
 *     30      the count of the book cannot rise (1 to 16, and a party)                          0
 *     31      a rate or the percentage of the tariff is over its limit                          0
 *
 * Questions are asked in the order of their numbers, each of all slots before the next; but 28 and 29 come behind 2, and an order that
 * passes 28 because it is kept is asked no more. The place is the lowest slot with the answer no, in the unit of the kind; for 17 it is a
 * date though the slots of kind 16 are sessions. A party is asked 1, 2 and 27, then its guests come one after the other, each with the
 * questions of kind 10 before 30, and 30 comes once, behind the last of them. A charge is asked 1, 2, 6 for its meeting, 7 for its dates,
 * and 31.
 *
 * AN EXAMPLE
 *
 *     const uint32_t settings[] = {2, 2, 2, 3, 2, 2, 1, 2, 1, 0, 4};
 *     uint32_t book[771];                                          caviar_book_len(settings, 11) is 771
 *     caviar_request_words leave = {.kind = 1, .b = 1, .first = 0, .last = 1};
 *     caviar_request_words hotel = {.kind = 4, .a = 0, .b = 1, .first = 0, .last = 1};
 *     caviar_answer answer;
 *
 *     answer = caviar_lay(settings, 11, book, 771);                0 0 0
 *     answer = caviar_request(book, 771, hotel);                   9 0 0: visitor 1 has no leave on date 0
 *     answer = caviar_request(book, 771, leave);                   0 0 0
 *     answer = caviar_order(book, 771, 17, hotel);                 0 0 0
 *     answer = caviar_order(book, 771, 17, hotel);                 0 0 0: the answer of order 17
 *     answer = caviar_request(book, 771, hotel);                   11 0 0: the room is booked already
 *
 * examples/c/visit.c is a whole program. Link with target/staticlib/libcapi.a, which `tools/build-library` writes:
 *
 *     gcc -Iinclude prog.c target/staticlib/libcapi.a
 */
#ifndef CAVIAR_H
#define CAVIAR_H

#include <stddef.h>
#include <stdint.h>

#ifdef __cplusplus
extern "C" {
#endif

/* The greatest number of words that a book can have, and that settings can have. */
#define CAVIAR_MOST_WORDS 9402332
#define CAVIAR_MOST_SETTINGS 26

/* How many words of a list a request is, a request with its order, and an answer. */
#define CAVIAR_REQUEST_WORDS 7
#define CAVIAR_ORDER_WORDS 8
#define CAVIAR_ANSWER_WORDS 3

/* How many orders a book keeps, and how many words they take, the last ones before the change count. */
#define CAVIAR_KEPT_ORDERS 64
#define CAVIAR_RING_WORDS 705

/* The greatest change count: a book that has it takes no more changes. */
#define CAVIAR_MOST_CHANGES 4294967295

/* How many bytes a line of a porter's page has, its byte 10 included, and how many do for every date of every site. */
#define CAVIAR_PAGE_LINE 31
#define CAVIAR_MOST_PAGE 31744

/* How many guests a party has at most. */
#define CAVIAR_MOST_GUESTS 64

/* The greatest rate of a tariff in cents, its greatest reduction in percent, and how many room-sessions are enough for the reduction. */
#define CAVIAR_MOST_RATE 1000000
#define CAVIAR_MOST_PERCENT 100
#define CAVIAR_ROOM_SESSIONS 10

/* An answer: done with a value, or refused with a number and a place. See ANSWERS above. */
typedef struct caviar_answer {
    uint32_t number; /* 0 when done */
    uint32_t place;  /* 0 when done, and for 1 to 8 and 22 to 31 */
    uint32_t value;  /* 0 when refused */
} caviar_answer;

/* What asking tells: the answer that the request would get, and the change count of the book. See SEE FIRST above. */
typedef struct caviar_asked {
    uint32_t number; /* as in caviar_answer */
    uint32_t place;
    uint32_t value;
    uint32_t count; /* 0 beside the numbers 1 and 2 */
} caviar_asked;

/* A request. See REQUESTS above; a field that the kind does not use is 0. */
typedef struct caviar_request_words {
    uint32_t kind;  /* 1 to 20 */
    uint32_t a;     /* a room, a transport or a meeting, by kind */
    uint32_t b;     /* a visitor or a meeting, by kind */
    uint32_t first; /* the first slot: a date, a session or a time, by kind */
    uint32_t last;  /* the last slot, included */
    uint32_t n;     /* seats, for kind 14 */
    uint32_t info;  /* information, for kinds 12 and 14 */
} caviar_request_words;

/* A guest of a party: a visitor who is to attend its meeting in the sessions from first to last. */
typedef struct caviar_guest {
    uint32_t visitor;
    uint32_t first; /* the first session */
    uint32_t last;  /* the last session, included */
} caviar_guest;

/* What a meeting is charged by. */
typedef struct caviar_tariff {
    uint32_t room;    /* cents for a conference room in a session, 0 to CAVIAR_MOST_RATE */
    uint32_t seat;    /* cents for a lunch seat, 0 to CAVIAR_MOST_RATE */
    uint32_t percent; /* the reduction of the room charge, 0 to CAVIAR_MOST_PERCENT */
} caviar_tariff;

/* What a charge is told: cents, or a refusal. */
typedef struct caviar_charged {
    uint32_t number; /* 0 when done */
    uint32_t place;  /* 0 */
    uint64_t value;  /* the cents; 0 when refused */
} caviar_charged;

/* How many words the book of these settings has: 727 to CAVIAR_MOST_WORDS. 0 for bad settings, those that 24 refuses: fewer than ten
 * words, not 10 + G of them, or one out of its range. (rule 9.3) */
uint64_t caviar_book_len(const uint32_t *settings, size_t settings_len);

/* Lays a book: the settings, then zeros in all other words, whatever the book held before. Done with 0. Refused with 24 for bad
 * settings, and with 25 when book_len is not caviar_book_len of the settings; the book is then as before. (section 9) */
caviar_answer caviar_lay(const uint32_t *settings, size_t settings_len, uint32_t *book, size_t book_len);

/* Asks 1 and 2 of any words. Done with 0, or refused with 1 or 2. It reads each word about once and changes nothing. (rule 10.1) */
caviar_answer caviar_check(const uint32_t *book, size_t book_len);

/* One request on any words. Refused with 1 or 2 as by caviar_check. Else the answer is the one of sections 4 to 6 from the sets that
 * the book shows, and when it is done, the book shows those sets with the change, in every word, and the change count is one more for
 * kinds 1 to 16. Each call checks the whole book: caviar_requests checks it once for a list. (rule 10.3) */
caviar_answer caviar_request(uint32_t *book, size_t book_len, caviar_request_words request);

/* A list of requests on any words. `requests` has seven words a request, one behind the other; `answers` has room for three words an
 * answer. Refused with 1 or 2 as by caviar_check, and then book and answers are as before. Else n requests are answered, n being the
 * least of requests_len / 7, answers_len / 3 and 4294967295, each as caviar_request would answer it after those before, and the call is
 * done with the value n. Words of `answers` behind the first 3 * n stay; words of `requests` behind the first 7 * n are not read. A
 * refused request is one answer of the list and does not end it. The book is checked once. (rule 10.4) */
caviar_answer caviar_requests(uint32_t *book, size_t book_len, const uint32_t *requests, size_t requests_len, uint32_t *answers,
                              size_t answers_len);

/* caviar_lay, and then a list as in caviar_requests, without a check. Refused with 24 or 25 as laying is, and then book and answers are
 * as before. (rule 10.5) */
caviar_answer caviar_serve(const uint32_t *settings, size_t settings_len, uint32_t *book, size_t book_len, const uint32_t *requests,
                           size_t requests_len, uint32_t *answers, size_t answers_len);

/* One request with an order on any words. Refused with 1 or 2 as by caviar_check. Order 0: the same as caviar_request. An order that is
 * kept gets the answer that is kept for it, or 28 if its seven words are not those that are kept; no word changes. Any other is answered
 * as by caviar_request, and order, request and answer are kept. See ORDERS above. (rule 10.6) */
caviar_answer caviar_order(uint32_t *book, size_t book_len, uint32_t order, caviar_request_words request);

/* A list of requests with orders on any words, as caviar_requests, but with eight words each: the seven of the request, then the order,
 * 0 for none. The call is done with n, the least of orders_len / 8, answers_len / 3 and 4294967295; each of the n is answered as
 * caviar_order would after those before. The book is checked once. (rule 10.7) */
caviar_answer caviar_orders(uint32_t *book, size_t book_len, const uint32_t *orders, size_t orders_len, uint32_t *answers,
                            size_t answers_len);

/* caviar_lay, and then a list as in caviar_orders, without a check; refused as caviar_serve. (rule 10.8) */
caviar_answer caviar_serve_orders(const uint32_t *settings, size_t settings_len, uint32_t *book, size_t book_len, const uint32_t *orders,
                                  size_t orders_len, uint32_t *answers, size_t answers_len);

/* What a request would be answered, on any words, and the change count. Refused with 1 or 2 as by caviar_check, and then the count is 0.
 * Else the answer is the one that caviar_request would give, and the count is the book's. No word is changed, and no order is looked
 * for. It costs a check and the questions, and no writing. (rule 10.9) */
caviar_asked caviar_ask(const uint32_t *book, size_t book_len, caviar_request_words request);

/* A request at a change count, on any words. Refused with 1 or 2 as by caviar_check, else with 29 when the count is not the book's; else
 * answered as by caviar_request. It carries no order. (rule 10.10) */
caviar_answer caviar_commit(uint32_t *book, size_t book_len, uint32_t count, caviar_request_words request);

/* The porter's page of a date, on any words: which meeting is in which conference room, with how many visitors. The page has a line for
 * each session of the date and in it for each conference room that a meeting holds, attended or not: sessions in their order, in each
 * of them rooms in theirs. A meeting that holds two rooms in a session has two lines. A line is 30 characters and a byte 10, so it has
 * CAVIAR_PAGE_LINE bytes. The characters are five numbers in base ten, each at the end of its columns with spaces before it:
 *
 *     columns     number
 *      1 to  5    session
 *      6 to  9    conference room
 *     10 to 13    meeting
 *     14 to 19    visitors who attend that meeting in that session
 *     20 to 30    information that the room was given with
 *
 * Sessions are numbered as everywhere in the book, from 0 to D * P - 1. With rooms 0 and 2 in session 2 and room 1 in session 3, the page
 * of date 1 of a site with two sessions a date is
 *
 *         2   0   1     2          0
 *         2   2   1     2 4294967295
 *         3   1   0     0         70
 *
 * Done, the value is the number of lines, the first CAVIAR_PAGE_LINE * value bytes of `page` are the lines, and the bytes behind them
 * stay; no byte 0 is put behind them. A date without a room in use has no line, and a page of any length does. Refused with 1 or 2 as by
 * caviar_check, else with 7 for a date that is not below D, else with 26 for a page_len under CAVIAR_PAGE_LINE bytes a line; the page is
 * then as before. A page of P * C lines always does; CAVIAR_MOST_PAGE is the most. No word of the book is changed. (section 16) */
caviar_answer caviar_page(const uint32_t *book, size_t book_len, uint32_t date, uint8_t *page, size_t page_len);

/* A party for a meeting, on any words: all of its guests are added, or none. guests_len counts guests, from 1 to CAVIAR_MOST_GUESTS. A
 * guest is added as a request of kind 10 adds a visitor, with a = meeting, b = visitor and the guest's sessions. The guests come in the
 * order of the list, and each is judged on the book with those before in it. A visitor may come more than once, for other sessions each
 * time.
 *
 * Done, the value is 0, and the book is what those requests one by one would have left, but that the change count has risen by one. Refused
 * with 1 or 2 as by caviar_check, else with 27 for no guest or more than CAVIAR_MOST_GUESTS, whatever they are; else with the answer of the
 * first guest in the list who is refused, and else with 30 if the count cannot rise:
 *
 *      5    the meeting is not below M; this is the first guest's answer
 *      6    the visitor is not below V
 *      7    first after last, or last past the end
 *      9    the visitor has no leave on the session's date
 *     10    the meeting does not stand in the session
 *     11    the visitor attends the meeting already, by the book or by a guest before
 *     13    the visitor attends another meeting in the session
 *
 * For 9 to 13 the place is the guest's lowest session with the answer no. Which guest it was the answer does not say; the requests of
 * kind 10 sent one by one to a copy of the book tell it, by the first that is refused. A refused party leaves every word of the book as
 * it was. The guests are only read.
 *
 *     const caviar_guest guests[] = {{.visitor = 1, .first = 4, .last = 5}, {.visitor = 2, .first = 4, .last = 4}};
 *     caviar_answer answer = caviar_party(book, book_len, 3, guests, 2);
 *
 * The book is checked once. (section 17) */
caviar_answer caviar_party(uint32_t *book, size_t book_len, uint32_t meeting, const caviar_guest *guests, size_t guests_len);

/* What a meeting costs over the dates first to last, both included, on any words. Its room-sessions are the conference rooms that it holds
 * in the sessions of those dates, attended or not: two rooms in one session are two. Its seats are those of its lunches on those dates.
 * The charge is room-sessions * tariff.room + seats * tariff.seat; but with CAVIAR_ROOM_SESSIONS or more room-sessions the first product
 * is reduced by tariff.percent percent and then rounded to the cent, a half up. Seats are never reduced.
 *
 *     caviar_tariff tariff = {.room = 12000, .seat = 850, .percent = 10};
 *     caviar_charged charged = caviar_charge(book, book_len, 3, 0, 4, tariff);     meeting 3 on dates 0 to 4
 *
 * Done, the value is the charge in cents. Refused with 1 or 2 as by caviar_check, else with 6 for a meeting that is not below M, with 7 for
 * first after last or last not below D, with 31 for a rate over CAVIAR_MOST_RATE or a percentage over CAVIAR_MOST_PERCENT, also where it
 * would change nothing. No word of the book is changed. With percent = 0 the charges of all meetings add up to all rooms and seats of those
 * dates, and a charge to those of parts of its dates. (section 20) */
caviar_charged caviar_charge(const uint32_t *book, size_t book_len, uint32_t meeting, uint32_t first, uint32_t last, caviar_tariff tariff);

#ifdef __cplusplus
}
#endif

#endif
