/*
 * Uses every call and struct of logbook.h, as a C program would. Prints how many checks were made; the first that fails ends it.
 */
#include "logbook.h"

#include <assert.h>
#include <stdio.h>
#include <stdlib.h>
#include <string.h>

static unsigned checks;

static void check(int fine, const char *what, int line) {
    checks++;
    if (!fine) {
        printf("logbook.c:%d: failed: %s\n", line, what);
        exit(1);
    }
}
#define CHECK(what) check((what) != 0, #what, __LINE__)

/* A text as bytes and their length. */
#define TEXT(text) (const uint8_t *)(text), sizeof(text) - 1
/* Whether an answer is this refusal with this place. */
#define REFUSED(answer, number, where) ((answer).refusal == (number) && (answer).place == (where))

/* ---- the structs, as the library has them */
#define AT(type, field, where) static_assert(offsetof(type, field) == (where), #type " " #field)
#define SIZE(type, size) static_assert(sizeof(type) == (size), #type)
enum { WORD = sizeof(size_t) };

SIZE(logbook_started, 3 * WORD);
AT(logbook_started, refusal, 0);
AT(logbook_started, place, WORD);
AT(logbook_started, used, 2 * WORD);
SIZE(logbook_appended, 3 * WORD);
AT(logbook_appended, refusal, 0);
AT(logbook_appended, place, WORD);
AT(logbook_appended, used, 2 * WORD);
SIZE(logbook_erased, 2 * WORD);
AT(logbook_erased, refusal, 0);
AT(logbook_erased, place, WORD);
SIZE(logbook_wiped, 3 * WORD);
AT(logbook_wiped, refusal, 0);
AT(logbook_wiped, place, WORD);
AT(logbook_wiped, stores, 2 * WORD);
SIZE(logbook_reading, 3 * WORD + 768);
AT(logbook_reading, position, 0);
AT(logbook_reading, count, WORD);
AT(logbook_reading, held, 2 * WORD);
AT(logbook_reading, numbers, 3 * WORD);
AT(logbook_reading, places, 3 * WORD + 256);
AT(logbook_reading, lengths, 3 * WORD + 384);
AT(logbook_reading, declared_places, 3 * WORD + 512);
AT(logbook_reading, declared_numbers, 3 * WORD + 640);
SIZE(logbook_row, 16);
AT(logbook_row, number, 0);
AT(logbook_row, place, 8);
AT(logbook_row, length, 12);
SIZE(logbook_item, 10 * WORD + 24);
AT(logbook_item, kind, 0);
AT(logbook_item, refusal, WORD);
AT(logbook_item, place, 2 * WORD);
AT(logbook_item, number, 3 * WORD);
AT(logbook_item, type_place, 4 * WORD);
AT(logbook_item, data_place, 5 * WORD);
AT(logbook_item, data_length, 6 * WORD);
AT(logbook_item, row, 7 * WORD);
AT(logbook_item, declared_place, 7 * WORD + 16);
AT(logbook_item, declared_number, 8 * WORD + 16);
AT(logbook_item, assigned, 9 * WORD + 16);
AT(logbook_item, assigned_place, 9 * WORD + 24);
SIZE(logbook_step_result, sizeof(logbook_item) + sizeof(logbook_reading));
AT(logbook_step_result, item, 0);
AT(logbook_step_result, reading, sizeof(logbook_item));
SIZE(logbook_slow, sizeof(logbook_reading) + 3 * WORD + 8);
AT(logbook_slow, reading, 0);
AT(logbook_slow, type_place, sizeof(logbook_reading));
AT(logbook_slow, end, sizeof(logbook_reading) + WORD);
AT(logbook_slow, number, sizeof(logbook_reading) + 2 * WORD);
AT(logbook_slow, data_place, sizeof(logbook_reading) + 2 * WORD + 8);
SIZE(logbook_move_result, sizeof(logbook_item) + sizeof(logbook_slow));
AT(logbook_move_result, item, 0);
AT(logbook_move_result, slow, sizeof(logbook_item));
SIZE(logbook_uri_answer, 4 * WORD);
AT(logbook_uri_answer, refusal, 0);
AT(logbook_uri_answer, implied, WORD);
AT(logbook_uri_answer, place, 2 * WORD);
AT(logbook_uri_answer, length, 3 * WORD);
SIZE(logbook_listed, 2 * WORD + sizeof(logbook_reading));
AT(logbook_listed, length, 0);
AT(logbook_listed, over, WORD);
AT(logbook_listed, reading, 2 * WORD);
/* x, y and z of eight bytes each */
#define THREE(type) \
    SIZE(type, 24); \
    AT(type, x, 0); \
    AT(type, y, 8); \
    AT(type, z, 16)
THREE(logbook_triple);
THREE(logbook_point);
THREE(logbook_motion);
SIZE(logbook_shifted, 3 * WORD + 72);
AT(logbook_shifted, refusal, 0);
AT(logbook_shifted, place, WORD);
AT(logbook_shifted, epoch, 2 * WORD);
AT(logbook_shifted, position, 3 * WORD);
AT(logbook_shifted, point, 3 * WORD + 24);
AT(logbook_shifted, motion, 3 * WORD + 48);

/* ---- a buffer with room behind the morning's 145 bytes */
enum { ROOM = 200, MORNING = 145 };

static const uint8_t uuid[LOGBOOK_UUID_LENGTH] = {0x5B, 0x0C, 0x7F, 0x1E, 0x93, 0xD2, 0x4A, 0x68,
                                                  0x8E, 0x17, 0xC6, 0x4F, 0x20, 0xA9, 0xD3, 0xB5};
static uint8_t free_part[LOGBOOK_FREE_LENGTH];

static logbook_started start(uint8_t *buf, size_t len) {
    memset(free_part, ' ', sizeof free_part);
    return logbook_start(buf, len, uuid, sizeof uuid, free_part, sizeof free_part);
}

/* The morning's file by the calls: 01, "A morning's file, whole". */
static void write_morning(uint8_t *buf) {
    memset(buf, 0xAA, ROOM);
    logbook_started started = start(buf, ROOM);
    CHECK(REFUSED(started, LOGBOOK_DONE, 0) && started.used == LOGBOOK_HEADER_LENGTH);
    logbook_appended done = logbook_append(buf, ROOM, started.used, TEXT("urn:ep:2010"), TEXT("P7"));
    CHECK(REFUSED(done, LOGBOOK_DONE, 123) && done.used == 127);
    done = logbook_assign(buf, ROOM, done.used, 2, TEXT("urn:ep:2017"));
    CHECK(REFUSED(done, LOGBOOK_DONE, 127) && done.used == 141);
    done = logbook_append(buf, ROOM, done.used, TEXT("urn:ep:2017"), TEXT("P8"));
    CHECK(REFUSED(done, LOGBOOK_DONE, 141) && done.used == MORNING);

    const char *front = "lozizol 0.5 5b0c7f1e-93d2-4a68-8e17-c64f20a9d3b5 ";
    CHECK(memcmp(buf, front, 49) == 0 && memcmp(buf + 49, free_part, sizeof free_part) == 0);
    const char *records = "\x0D\x01\x02urn:ep:2010\x03\x02P7\x0D\x01\x02urn:ep:2017\x03\x02P8";
    CHECK(memcmp(buf + LOGBOOK_HEADER_LENGTH, records, MORNING - LOGBOOK_HEADER_LENGTH) == 0);
    for (size_t place = MORNING; place < ROOM; place++) CHECK(buf[place] == 0xAA);
}

/* One step, whose item is expected to be of this kind at this place; the reading goes on. */
static logbook_item step(const uint8_t *buf, logbook_reading *reading, size_t kind, size_t place) {
    logbook_step_result result = logbook_step(buf, ROOM, MORNING, *reading);
    CHECK(result.item.kind == kind && result.item.refusal == LOGBOOK_DONE && result.item.place == place);
    *reading = result.reading;
    return result.item;
}

/* Whether a live entry has this number, URI and data length. */
static int is_entry(const uint8_t *buf, logbook_item item, size_t number, const char *uri, size_t length) {
    logbook_uri_answer answer = logbook_uri(ROOM, MORNING, item.row);
    return item.number == number && item.data_length == length && answer.refusal == LOGBOOK_DONE && answer.length == strlen(uri) &&
           memcmp(logbook_uri_bytes(buf, answer), uri, answer.length) == 0;
}

/* Whether the record that gave the item's type number its meaning has this place and this number; 0 and 0 for none. */
static int declares(logbook_item item, size_t place, size_t number) {
    return item.declared_place == place && item.declared_number == number;
}

static void read_morning(const uint8_t *buf) {
    logbook_reading reading = logbook_fresh();
    CHECK(reading.position == 0 && reading.count == 0 && reading.held == 0);
    for (size_t row = 0; row < LOGBOOK_ROWS; row++) {
        CHECK(reading.numbers[row] == 0 && reading.places[row] == 0 && reading.lengths[row] == 0);
        CHECK(reading.declared_places[row] == 0 && reading.declared_numbers[row] == 0);
    }
    logbook_item item = step(buf, &reading, LOGBOOK_HEADER, 0);
    CHECK(is_entry(buf, item, 1, "urn:lozizol:header", 107) && item.type_place == 1 && item.data_place == 2);
    CHECK(declares(item, 0, 0));
    CHECK(reading.position == 109 && reading.held == 2 && reading.numbers[0] == 1 && reading.numbers[1] == 111);
    item = step(buf, &reading, LOGBOOK_ASSIGNMENT, 109);
    CHECK(is_entry(buf, item, 2, "urn:lozizol:type", 12) && item.assigned == 2 && item.assigned_place == 112);
    CHECK(reading.held == 3 && reading.numbers[1] == 2 && reading.places[1] == 112 && reading.lengths[1] == 11);
    CHECK(declares(item, 0, 0) && reading.declared_places[1] == 109 && reading.declared_numbers[1] == 2);
    item = step(buf, &reading, LOGBOOK_ENTRY, 123);
    CHECK(is_entry(buf, item, 3, "urn:ep:2010", 2) && memcmp(buf + item.data_place, "P7", 2) == 0);
    CHECK(item.row.number == 2 && item.row.place == 112 && item.row.length == 11 && item.assigned == 0);
    CHECK(declares(item, 109, 2));
    item = step(buf, &reading, LOGBOOK_ASSIGNMENT, 127);
    CHECK(is_entry(buf, item, 4, "urn:lozizol:type", 12));
    item = step(buf, &reading, LOGBOOK_ENTRY, 141);
    CHECK(is_entry(buf, item, 5, "urn:ep:2017", 2) && memcmp(buf + item.data_place, "P8", 2) == 0);
    CHECK(declares(item, 127, 4));
    logbook_reading last = reading;
    step(buf, &reading, LOGBOOK_END, MORNING);
    CHECK(memcmp(&last, &reading, sizeof last) == 0 && reading.count == 5);
}

/* One move, whose item is expected to be of this kind at this place; the reading goes on. */
static logbook_item move_on(const uint8_t *buf, logbook_slow *slow, size_t kind, size_t place) {
    logbook_move_result result = logbook_move(buf, ROOM, MORNING, *slow);
    CHECK(result.item.kind == kind && result.item.refusal == LOGBOOK_DONE && result.item.place == place);
    *slow = result.slow;
    return result.item;
}

/* Whether these four numbers are held. */
static int holds(const logbook_slow *slow, size_t type_place, size_t end, uint64_t number, size_t data_place) {
    return slow->type_place == type_place && slow->end == end && slow->number == number && slow->data_place == data_place;
}

/* The morning's file in moves: each record in three, the header in one; undisturbed what the steps show. */
static void move_morning(const uint8_t *buf) {
    logbook_slow slow = logbook_slow_fresh();
    logbook_reading fresh = logbook_fresh();
    CHECK(memcmp(&slow.reading, &fresh, sizeof fresh) == 0 && holds(&slow, 0, 0, 0, 0));
    move_on(buf, &slow, LOGBOOK_HEADER, 0);
    CHECK(slow.reading.position == 109 && holds(&slow, 0, 0, 0, 0));
    move_on(buf, &slow, LOGBOOK_SIZE_HELD, 109);
    CHECK(slow.reading.position == 109 && slow.reading.count == 1 && holds(&slow, 110, 123, 0, 0));
    move_on(buf, &slow, LOGBOOK_TYPE_HELD, 109);
    CHECK(slow.reading.position == 109 && holds(&slow, 110, 123, 1, 111));
    logbook_item item = move_on(buf, &slow, LOGBOOK_ASSIGNMENT, 109);
    CHECK(is_entry(buf, item, 2, "urn:lozizol:type", 12) && item.assigned == 2 && item.assigned_place == 112);
    CHECK(slow.reading.position == 123 && slow.reading.count == 2 && holds(&slow, 0, 0, 0, 0));

    for (logbook_reading reading = slow.reading;;) {
        logbook_item found = logbook_step(buf, ROOM, MORNING, reading).item;
        if (found.kind == LOGBOOK_END) break;
        move_on(buf, &slow, LOGBOOK_SIZE_HELD, found.place);
        move_on(buf, &slow, LOGBOOK_TYPE_HELD, found.place);
        item = move_on(buf, &slow, found.kind, found.place);
        reading = logbook_step(buf, ROOM, MORNING, reading).reading;
        CHECK(memcmp(&item, &found, sizeof item) == 0 && memcmp(&slow.reading, &reading, sizeof reading) == 0);
    }
    logbook_slow last = slow;
    move_on(buf, &slow, LOGBOOK_END, MORNING);
    CHECK(memcmp(&last, &slow, sizeof last) == 0 && slow.reading.count == 5);
}

/* Erases between moves: before the type is taken the shot is deleted, behind it it is shown all the same. */
static void erase_between_moves(const uint8_t *morning) {
    uint8_t buf[ROOM];
    logbook_slow at_shot = logbook_slow_fresh();
    for (int moves = 0; moves < 4; moves++) at_shot = logbook_move(morning, ROOM, MORNING, at_shot).slow;
    CHECK(at_shot.reading.position == 123);

    memcpy(buf, morning, ROOM);
    logbook_slow slow = at_shot;
    move_on(buf, &slow, LOGBOOK_SIZE_HELD, 123);
    CHECK(logbook_erase(buf, ROOM, MORNING, 123).refusal == LOGBOOK_DONE);
    CHECK(logbook_wipe(buf, ROOM, MORNING, 123, SIZE_MAX).stores == 3);
    logbook_item item = move_on(buf, &slow, LOGBOOK_DELETED, 123);
    CHECK(item.type_place == 124 && item.data_length == 3 && slow.reading.position == 127 && holds(&slow, 0, 0, 0, 0));

    memcpy(buf, morning, ROOM);
    slow = at_shot;
    move_on(buf, &slow, LOGBOOK_SIZE_HELD, 123);
    move_on(buf, &slow, LOGBOOK_TYPE_HELD, 123);
    CHECK(logbook_erase(buf, ROOM, MORNING, 123).refusal == LOGBOOK_DONE && buf[124] == 0);
    item = move_on(buf, &slow, LOGBOOK_ENTRY, 123);
    CHECK(is_entry(buf, item, 3, "urn:ep:2010", 2) && memcmp(buf + item.data_place, "P7", 2) == 0);
}

/* Whether a move of this reading is refused with 13 and hands it back. */
static int is_outside(const uint8_t *buf, logbook_slow slow) {
    logbook_move_result result = logbook_move(buf, ROOM, MORNING, slow);
    return result.item.kind == LOGBOOK_REFUSED && REFUSED(result.item, LOGBOOK_NOT_FITTING, 0) &&
           memcmp(&result.slow, &slow, sizeof slow) == 0;
}

/* What is held doesn't fit: one number off at a time. */
static void outside_moves(const uint8_t *buf) {
    logbook_slow typed = logbook_slow_fresh(), sized, wrong;
    for (int moves = 0; moves < 5; moves++) typed = logbook_move(buf, ROOM, MORNING, typed).slow;
    sized = typed;
    typed = logbook_move(buf, ROOM, MORNING, typed).slow;
    CHECK(holds(&sized, 124, 127, 0, 0) && holds(&typed, 124, 127, 2, 125));
    const size_t type_places[] = {0, 123, 127, 128, SIZE_MAX}, ends[] = {0, 124, MORNING + 1, SIZE_MAX};
    const size_t data_places[] = {0, 124, 128, SIZE_MAX};
    const uint64_t numbers[] = {0, 3, UINT64_MAX};
    for (size_t i = 0; i < 5; i++) CHECK((wrong = sized, wrong.type_place = type_places[i], is_outside(buf, wrong)));
    for (size_t i = 0; i < 4; i++) CHECK((wrong = sized, wrong.end = ends[i], is_outside(buf, wrong)));
    for (size_t i = 0; i < 3; i++) CHECK((wrong = typed, wrong.number = numbers[i], is_outside(buf, wrong)));
    for (size_t i = 0; i < 4; i++) CHECK((wrong = typed, wrong.data_place = data_places[i], is_outside(buf, wrong)));
    CHECK((wrong = sized, wrong.number = 2, is_outside(buf, wrong)));
    CHECK((wrong = sized, wrong.data_place = 125, is_outside(buf, wrong)));
    wrong = logbook_slow_fresh();
    wrong.type_place = 1;
    wrong.end = LOGBOOK_HEADER_LENGTH;
    CHECK(is_outside(buf, wrong));
    CHECK(REFUSED(logbook_move(buf, MORNING, ROOM, sized).item, LOGBOOK_USED_LENGTH, 0));
}

/* Lists a file with this room for a piece; whether its text is this one. */
static int lists(const uint8_t *file, size_t file_len, size_t room, const char *text) {
    uint8_t out[1000];
    char whole[2000];
    size_t length = 0;
    logbook_listed listed;
    listed.reading = logbook_fresh();
    do {
        listed = logbook_list(listed.reading, file, file_len, out, room);
        CHECK(listed.length <= room && length + listed.length <= sizeof whole);
        CHECK(listed.over == 1 || room - listed.length < LOGBOOK_LINE_LIMIT);
        memcpy(whole + length, out, listed.length);
        length += listed.length;
    } while (!listed.over);
    return length == strlen(text) && memcmp(whole, text, length) == 0;
}

static void list_morning(const uint8_t *buf) {
    const char *text = "0\t1\turn:lozizol:header\t107\n"
                       "109\t2\turn:lozizol:type\t12\n"
                       "123\t3\turn:ep:2010\t2\n"
                       "127\t4\turn:lozizol:type\t12\n"
                       "141\t5\turn:ep:2017\t2\n"
                       "end\t145\n";
    CHECK(lists(buf, MORNING, 1000, text));
    CHECK(lists(buf, MORNING, LOGBOOK_LINE_LIMIT, text));
    CHECK(lists(buf, 120, 1000, "0\t1\turn:lozizol:header\t107\nrefused\t2\t109\n"));
    uint8_t out[LOGBOOK_LINE_LIMIT];
    logbook_listed listed = logbook_list(logbook_fresh(), buf, MORNING, out, sizeof out - 1);
    CHECK(listed.length == 0 && listed.over == 0);
}

/* Erases 123 and wipes it by ones: 01, "A full wipe then makes 3 stores, at 125, 126, 123". */
static void wipe_morning(uint8_t *buf) {
    static const size_t stores[] = {125, 126, 123};
    uint8_t before[ROOM];
    logbook_erased erased = logbook_erase(buf, ROOM, MORNING, 123);
    CHECK(REFUSED(erased, LOGBOOK_DONE, 124) && buf[124] == 0);
    for (size_t store = 0; store < 3; store++) {
        memcpy(before, buf, ROOM);
        logbook_wiped none = logbook_wipe(buf, ROOM, MORNING, 123, 0);
        CHECK(REFUSED(none, LOGBOOK_DONE, 0) && none.stores == 0 && memcmp(before, buf, ROOM) == 0);
        logbook_wiped wiped = logbook_wipe(buf, ROOM, MORNING, 123, 1);
        CHECK(REFUSED(wiped, LOGBOOK_DONE, 0) && wiped.stores == 1);
        CHECK(before[stores[store]] != 0);
        before[stores[store]] = 0;
        CHECK(memcmp(before, buf, ROOM) == 0);
    }
    logbook_wiped wiped = logbook_wipe(buf, ROOM, MORNING, 123, 1);
    CHECK(REFUSED(wiped, LOGBOOK_NOTHING_THERE, 123) && wiped.stores == 0);
    const char *text = "0\t1\turn:lozizol:header\t107\n"
                       "109\t2\turn:lozizol:type\t12\n"
                       "127\t3\turn:lozizol:type\t12\n"
                       "141\t4\turn:ep:2017\t2\n"
                       "end\t145\n";
    CHECK(lists(buf, MORNING, 1000, text));
}

/* A refusal of each call; the buffer stays as it was. */
static void refusals(uint8_t *buf) {
    static uint8_t long_data[LOGBOOK_DATA_LIMIT + 1], long_file[LOGBOOK_FILE_LIMIT + 1];
    uint8_t before[ROOM];
    memcpy(before, buf, ROOM);
    CHECK(REFUSED(logbook_start(buf, ROOM, uuid, 15, free_part, 60), LOGBOOK_BAD_REQUEST, 0));
    CHECK(REFUSED(logbook_start(buf, ROOM, uuid, 16, free_part, 59), LOGBOOK_BAD_REQUEST, 0));
    CHECK(REFUSED(start(buf, 108), LOGBOOK_NO_ROOM, 0) && start(buf, 108).used == 0);
    CHECK(REFUSED(logbook_append(buf, ROOM, ROOM + 1, TEXT("a:"), TEXT("")), LOGBOOK_USED_LENGTH, 0));
    CHECK(REFUSED(logbook_append(buf, ROOM, MORNING, TEXT("a"), TEXT("")), LOGBOOK_BAD_REQUEST, 0));
    CHECK(REFUSED(logbook_append(buf, ROOM, MORNING, TEXT("a:"), long_data, sizeof long_data), LOGBOOK_BAD_REQUEST, 0));
    CHECK(REFUSED(logbook_append(buf, ROOM, 108, TEXT("a:"), TEXT("")), LOGBOOK_INCOMPLETE, 0));
    CHECK(REFUSED(logbook_append(buf, MORNING, MORNING, TEXT("urn:ep:2017"), TEXT("")), LOGBOOK_NO_ROOM, MORNING));
    CHECK(logbook_append(buf, MORNING, MORNING, TEXT("urn:ep:2017"), TEXT("")).used == MORNING);
    CHECK(REFUSED(logbook_assign(buf, ROOM, MORNING, 0, TEXT("a:")), LOGBOOK_BAD_REQUEST, 0));
    CHECK(REFUSED(logbook_assign(buf, ROOM, MORNING, LOGBOOK_NUMBER_LIMIT + 1, TEXT("a:")), LOGBOOK_BAD_REQUEST, 0));
    CHECK(REFUSED(logbook_assign(buf, ROOM, MORNING, LOGBOOK_NUMBER_LIMIT + 1, NULL, 0), LOGBOOK_BAD_REQUEST, 0));
    CHECK(REFUSED(logbook_assign(buf, ROOM, MORNING, UINT64_MAX, TEXT("a:")), LOGBOOK_BAD_REQUEST, 0));
    CHECK(REFUSED(logbook_assign(buf, ROOM, MORNING, 2, TEXT(LOGBOOK_IMPLIED_NAMES " ")), LOGBOOK_BAD_REQUEST, 0));
    CHECK(REFUSED(logbook_erase(buf, ROOM, MORNING, 124), LOGBOOK_NOTHING_THERE, 124));
    CHECK(REFUSED(logbook_erase(buf, ROOM, MORNING, 127), LOGBOOK_FIXED, 127));
    CHECK(REFUSED(logbook_erase(buf, ROOM, MORNING, 0), LOGBOOK_FIXED, 0));
    CHECK(REFUSED(logbook_wipe(buf, ROOM, MORNING, 141, SIZE_MAX), LOGBOOK_NOTHING_THERE, 141));
    CHECK(REFUSED(logbook_wipe(buf, ROOM, SIZE_MAX, 141, 1), LOGBOOK_USED_LENGTH, 0));
    CHECK(lists(long_file, sizeof long_file, 1000, "refused\t1\t0\n"));
    CHECK(memcmp(before, buf, ROOM) == 0);
}

/* Faults in the bytes themselves, each behind the header, met by a step, an append, an assignment, an erase, a wipe and a listing. */
static void faults(void) {
    static const struct {
        const char *bytes;
        size_t length, refusal, place;
    } cases[] = {
        {"\x81", 1, LOGBOOK_INCOMPLETE, 109},
        {"\x80", 1, LOGBOOK_EMPTY_LEAD, 109},
        {"\x02\x80\x02", 3, LOGBOOK_EMPTY_LEAD, 110},
        {"\xFF\xFF\xFF\xFF", 4, LOGBOOK_TOO_LONG, 112},
        {"\x04\xFF\xFF\xFF\xFF", 5, LOGBOOK_PAST_SIZE, 113},
        {"\x08\xFF\xFF\xFF\xFF\xFF\xFF\xFF\xFF", 9, LOGBOOK_PAST_SIZE, 117},
        {"\x09\xFF\xFF\xFF\xFF\xFF\xFF\xFF\xFF\xFF", 10, LOGBOOK_TOO_LONG, 118},
        {"\x0A\xFF\xFF\xFF\xFF\xFF\xFF\xFF\xFF\xFF\x01", 11, LOGBOOK_TOO_LONG, 118},
        {"\x01\x81", 2, LOGBOOK_PAST_SIZE, 110},
        {"\x03\xFF\xFF\xFF", 4, LOGBOOK_PAST_SIZE, 112},
        {"\x02\x01\x80", 3, LOGBOOK_BAD_ASSIGNMENT, 109},
        {"\x0A\x01\xFF\xFF\xFF\xFF\xFF\xFF\xFF\xFF\xFF", 11, LOGBOOK_BAD_ASSIGNMENT, 109},
        {"\x02\x07x", 3, LOGBOOK_NOT_HELD, 109},
        {"\x05\xFF\xFF\xFF\xFF\x01", 6, LOGBOOK_NOT_HELD, 109},
        {"\x01\x6F", 2, LOGBOOK_NOT_HEADER, 109},
    };
    uint8_t buf[ROOM];
    memset(buf, 0, sizeof buf);
    CHECK(start(buf, ROOM).refusal == LOGBOOK_DONE);
    logbook_reading reading = logbook_step(buf, ROOM, LOGBOOK_HEADER_LENGTH, logbook_fresh()).reading;
    for (size_t index = 0; index < sizeof cases / sizeof cases[0]; index++) {
        size_t used = LOGBOOK_HEADER_LENGTH + cases[index].length, refusal = cases[index].refusal, place = cases[index].place;
        memcpy(buf + LOGBOOK_HEADER_LENGTH, cases[index].bytes, cases[index].length);
        logbook_step_result result = logbook_step(buf, ROOM, used, reading);
        CHECK(result.item.kind == LOGBOOK_REFUSED && REFUSED(result.item, refusal, place));
        CHECK(memcmp(&result.reading, &reading, sizeof reading) == 0);
        CHECK(REFUSED(logbook_append(buf, ROOM, used, TEXT("a:"), TEXT("")), refusal, place));
        CHECK(REFUSED(logbook_assign(buf, ROOM, used, 2, TEXT("a:")), refusal, place));
        CHECK(REFUSED(logbook_erase(buf, ROOM, used, 109), refusal, place));
        CHECK(REFUSED(logbook_wipe(buf, ROOM, used, 109, 1), refusal, place));
        char text[80];
        snprintf(text, sizeof text, "0\t1\turn:lozizol:header\t107\nrefused\t%zu\t%zu\n", refusal, place);
        CHECK(lists(buf, used, 1000, text));
    }
}

/* A full register, and one without urn:lozizol:type. */
static void register_refusals(void) {
    uint8_t buf[2 * ROOM];
    size_t used = start(buf, sizeof buf).used;
    for (uint64_t number = 2; number < 32; number++) {
        logbook_appended done = logbook_assign(buf, sizeof buf, used, number, TEXT("a:"));
        CHECK(REFUSED(done, LOGBOOK_DONE, used));
        used = done.used;
    }
    CHECK(REFUSED(logbook_assign(buf, sizeof buf, used, 32, TEXT("b:")), LOGBOOK_REGISTER_FULL, used));
    CHECK(REFUSED(logbook_append(buf, sizeof buf, used, TEXT("b:"), TEXT("")), LOGBOOK_REGISTER_FULL, used));
    logbook_appended done = logbook_assign(buf, sizeof buf, used, 1, TEXT("b:"));
    CHECK(REFUSED(done, LOGBOOK_DONE, used));
    CHECK(REFUSED(logbook_assign(buf, sizeof buf, done.used, 2, TEXT("c:")), LOGBOOK_NO_TYPE_NUMBER, 0));
    done = logbook_append(buf, sizeof buf, done.used, TEXT("b:"), TEXT(""));
    CHECK(done.refusal == LOGBOOK_DONE && buf[done.place] == 1 && buf[done.place + 1] == 1);
}

/* A type number of nine bytes: assigned, appended under, read, erased, removed. */
static void great_numbers(void) {
    static const uint8_t nine[] = {0xFF, 0xFF, 0xFF, 0xFF, 0xFF, 0xFF, 0xFF, 0xFF, 0x7F};
    uint8_t buf[ROOM];
    size_t used = start(buf, ROOM).used;
    logbook_appended done = logbook_assign(buf, ROOM, used, LOGBOOK_NUMBER_LIMIT, TEXT("a:"));
    CHECK(REFUSED(done, LOGBOOK_DONE, 109) && done.used == 122 && memcmp(buf + 111, nine, sizeof nine) == 0);
    done = logbook_append(buf, ROOM, done.used, TEXT("a:"), TEXT("P7"));
    CHECK(REFUSED(done, LOGBOOK_DONE, 122) && done.used == 134 && memcmp(buf + 123, nine, sizeof nine) == 0);
    used = done.used;
    logbook_step_result result = logbook_step(buf, ROOM, used, logbook_fresh());
    result = logbook_step(buf, ROOM, used, result.reading);
    CHECK(result.item.kind == LOGBOOK_ASSIGNMENT && result.item.assigned == LOGBOOK_NUMBER_LIMIT && result.item.assigned_place == 120);
    CHECK(result.reading.held == 3 && result.reading.numbers[2] == LOGBOOK_NUMBER_LIMIT && result.reading.places[2] == 120);
    logbook_reading other = result.reading;
    other.numbers[2]--;
    CHECK(REFUSED(logbook_step(buf, ROOM, used, other).item, LOGBOOK_NOT_HELD, 122));
    other.numbers[2] = LOGBOOK_NUMBER_LIMIT + 1;
    CHECK(REFUSED(logbook_step(buf, ROOM, used, other).item, LOGBOOK_NOT_FITTING, 0));
    result = logbook_step(buf, ROOM, used, result.reading);
    CHECK(result.item.kind == LOGBOOK_ENTRY && result.item.row.number == LOGBOOK_NUMBER_LIMIT && result.item.data_place == 132);
    logbook_uri_answer answer = logbook_uri(ROOM, used, result.item.row);
    CHECK(answer.refusal == LOGBOOK_DONE && answer.place == 120 && answer.length == 2);
    result.item.row.number++;
    CHECK(logbook_uri(ROOM, used, result.item.row).refusal == LOGBOOK_NOT_FITTING);
    logbook_erased erased = logbook_erase(buf, ROOM, used, 122);
    CHECK(REFUSED(erased, LOGBOOK_DONE, 123) && buf[123] == 0 && buf[124] == 0xFF);
    done = logbook_assign(buf, ROOM, used, LOGBOOK_NUMBER_LIMIT, NULL, 0);
    CHECK(REFUSED(done, LOGBOOK_DONE, 134) && done.used == 145 && memcmp(buf + 136, nine, sizeof nine) == 0);
}

/* Readings and rows that don't fit. */
static void outside(const uint8_t *buf) {
    logbook_reading reading = logbook_fresh();
    reading.position = MORNING + 1;
    logbook_step_result result = logbook_step(buf, ROOM, MORNING, reading);
    CHECK(result.item.kind == LOGBOOK_REFUSED && REFUSED(result.item, LOGBOOK_NOT_FITTING, 0));
    CHECK(memcmp(&result.reading, &reading, sizeof reading) == 0);
    reading.position = MORNING;
    reading.held = LOGBOOK_ROWS + 1;
    CHECK(REFUSED(logbook_step(buf, ROOM, MORNING, reading).item, LOGBOOK_NOT_FITTING, 0));

    logbook_row row = {1, 0, 0};
    logbook_uri_answer answer = logbook_uri(ROOM, MORNING, row);
    CHECK(answer.refusal == LOGBOOK_DONE && answer.implied == 1 && answer.length == 16);
    CHECK(memcmp(logbook_uri_bytes(buf, answer), "urn:lozizol:type", 16) == 0);
    CHECK(logbook_uri(MORNING, ROOM, row).refusal == LOGBOOK_USED_LENGTH);
    row.number = 2;
    CHECK(logbook_uri(ROOM, MORNING, row).refusal == LOGBOOK_NOT_FITTING);
    row.place = MORNING - 255;
    row.length = LOGBOOK_URI_LIMIT;
    CHECK(logbook_uri(ROOM, MORNING, row).refusal == LOGBOOK_NOT_FITTING);
    row.place = 112;
    row.length = 11;
    answer = logbook_uri(ROOM, MORNING, row);
    CHECK(answer.refusal == LOGBOOK_DONE && answer.implied == 0 && answer.place == 112 && answer.length == 11);
    CHECK(logbook_uri_bytes(buf, answer) == buf + 112);
}

/* A shot of the epoch 2010, moved over a difference. */
static logbook_shifted shift(logbook_triple position, int64_t difference, logbook_triple motion) {
    const int64_t coordinates[] = {position.x, position.y, position.z};
    uint8_t data[LOGBOOK_SHOT_LENGTH];
    for (size_t place = 0; place < sizeof data; place++) {
        data[place] = (uint8_t)((uint64_t)coordinates[place / 8] >> (56 - 8 * (place % 8)));
    }
    return logbook_shift(TEXT("urn:ep:2010"), data, sizeof data, 201000 + difference, motion);
}

static logbook_triple triple(int64_t x, int64_t y, int64_t z) {
    logbook_triple whole = {x, y, z};
    return whole;
}

/* Whether an answer is this refusal, and all behind it is 0 in every bit. */
static int is_unmoved(logbook_shifted shifted, size_t refusal) {
    static const uint8_t zeros[sizeof shifted] = {0};
    const size_t front = sizeof shifted.refusal;
    return shifted.refusal == refusal && memcmp((const uint8_t *)&shifted + front, zeros, sizeof shifted - front) == 0;
}

/* 02 [11]: "700 and 720 move a point 504,000"; the bounds, on both sides. */
static void shifts(void) {
    const int64_t far = LOGBOOK_COORDINATE_LIMIT, fast = LOGBOOK_MOTION_LIMIT, late = LOGBOOK_DIFFERENCE_LIMIT;
    logbook_shifted shifted = shift(triple(40000000000, -12, 0), 720, triple(700, -700, 0));
    CHECK(REFUSED(shifted, LOGBOOK_DONE, 0) && shifted.epoch == 201000);
    CHECK(shifted.position.x == 40000000000 && shifted.position.y == -12 && shifted.position.z == 0);
    CHECK(shifted.point.x == 4000000504000.0 && shifted.point.y == -505200.0);
    CHECK(shifted.motion.x == 70000.0 && shifted.motion.y == -70000.0);
    static const uint8_t zero[sizeof(double)] = {0};
    CHECK(memcmp(&shifted.point.z, zero, sizeof zero) == 0 && memcmp(&shifted.motion.z, zero, sizeof zero) == 0);
    shifted = shift(triple(far, -far, 0), late, triple(fast, -fast, 0));
    CHECK(shifted.refusal == LOGBOOK_DONE && shifted.point.x == 10001000000000.0 && shifted.point.y == -10001000000000.0);
    shifted = shift(triple(-far, far, far), -late, triple(fast, -fast, fast));
    CHECK(shifted.point.x == -10001000000000.0 && shifted.point.y == 10001000000000.0 && shifted.point.z == 9999000000000.0);

    const logbook_triple none = triple(0, 0, 0);
    const int64_t sides[] = {far + 1, -far - 1, INT64_MAX, INT64_MIN};
    for (size_t index = 0; index < 4; index++) {
        CHECK(is_unmoved(shift(triple(sides[index], 0, 0), 0, none), LOGBOOK_OVER_BOUND));
        CHECK(is_unmoved(shift(triple(0, sides[index], 0), 0, none), LOGBOOK_OVER_BOUND));
        CHECK(is_unmoved(shift(triple(0, 0, sides[index]), 0, none), LOGBOOK_OVER_BOUND));
    }
    const int64_t motions[] = {fast + 1, -fast - 1, INT64_MAX, INT64_MIN};
    for (size_t index = 0; index < 4; index++) {
        CHECK(is_unmoved(shift(none, 0, triple(motions[index], 0, 0)), LOGBOOK_OVER_BOUND));
        CHECK(is_unmoved(shift(none, 0, triple(0, motions[index], 0)), LOGBOOK_OVER_BOUND));
        CHECK(is_unmoved(shift(none, 0, triple(0, 0, motions[index])), LOGBOOK_OVER_BOUND));
    }
    CHECK(is_unmoved(shift(none, late + 1, none), LOGBOOK_OVER_BOUND));
    CHECK(is_unmoved(shift(none, -late - 1, none), LOGBOOK_OVER_BOUND));
}

/* What an epoch is, and 24, 25 and 26 in their order. */
static void shift_refusals(void) {
    static const struct {
        const char *uri;
        size_t epoch;
    } epochs[] = {
        {"urn:ep:2010", 201000}, {"urn:ep:2017.50", 201750}, {"urn:ep:0000", 0}, {"urn:ep:0000.01", 1}, {"urn:ep:9999.99", 999999},
    };
    static const char *const others[] = {
        "urn:ep:", "urn:ep:201", "urn:ep:20100", "urn:ep:2010.", "urn:ep:2010.5", "urn:ep:2010.500", "urn:ep:201x", "URN:ep:2010", "a:",
    };
    uint8_t data[2 * LOGBOOK_SHOT_LENGTH] = {0};
    const logbook_triple none = triple(0, 0, 0), over = triple(INT64_MIN, 0, INT64_MAX);
    for (size_t index = 0; index < sizeof epochs / sizeof epochs[0]; index++) {
        const uint8_t *uri = (const uint8_t *)epochs[index].uri;
        size_t length = strlen(epochs[index].uri), epoch = epochs[index].epoch;
        logbook_shifted shifted = logbook_shift(uri, length, data, LOGBOOK_SHOT_LENGTH, (int64_t)epoch, none);
        CHECK(REFUSED(shifted, LOGBOOK_DONE, 0) && shifted.epoch == epoch);
        CHECK(is_unmoved(logbook_shift(uri, length, data, LOGBOOK_SHOT_LENGTH, INT64_MAX, none), LOGBOOK_OVER_BOUND));
        CHECK(is_unmoved(logbook_shift(uri, length, data, LOGBOOK_SHOT_LENGTH, INT64_MIN, none), LOGBOOK_OVER_BOUND));
    }
    for (size_t index = 0; index < sizeof others / sizeof others[0]; index++) {
        const uint8_t *uri = (const uint8_t *)others[index];
        CHECK(is_unmoved(logbook_shift(uri, strlen(others[index]), data, LOGBOOK_SHOT_LENGTH, 201000, none), LOGBOOK_NOT_EPOCH));
        CHECK(is_unmoved(logbook_shift(uri, strlen(others[index]), data, 0, INT64_MIN, over), LOGBOOK_NOT_EPOCH));
    }
    for (size_t length = 0; length <= sizeof data; length++) {
        size_t refusal = length == LOGBOOK_SHOT_LENGTH ? LOGBOOK_OVER_BOUND : LOGBOOK_NOT_SHOT;
        CHECK(is_unmoved(logbook_shift(TEXT("urn:ep:2010"), data, length, INT64_MIN, over), refusal));
    }
}

/* A pointer with length 0 may be null, in every argument. */
static void null_pointers(uint8_t *buf) {
    uint8_t out[LOGBOOK_LINE_LIMIT];
    CHECK(REFUSED(logbook_start(NULL, 0, uuid, sizeof uuid, free_part, sizeof free_part), LOGBOOK_NO_ROOM, 0));
    CHECK(REFUSED(logbook_start(buf, ROOM, NULL, 0, free_part, sizeof free_part), LOGBOOK_BAD_REQUEST, 0));
    CHECK(REFUSED(logbook_start(buf, ROOM, uuid, sizeof uuid, NULL, 0), LOGBOOK_BAD_REQUEST, 0));
    CHECK(REFUSED(logbook_start(NULL, 0, NULL, 0, NULL, 0), LOGBOOK_BAD_REQUEST, 0));
    CHECK(REFUSED(logbook_append(NULL, 0, 0, TEXT("a:"), NULL, 0), LOGBOOK_INCOMPLETE, 0));
    CHECK(REFUSED(logbook_append(NULL, 0, 0, NULL, 0, NULL, 0), LOGBOOK_BAD_REQUEST, 0));
    CHECK(REFUSED(logbook_append(NULL, 0, 1, NULL, 0, NULL, 0), LOGBOOK_USED_LENGTH, 0));
    CHECK(REFUSED(logbook_assign(NULL, 0, 0, 2, NULL, 0), LOGBOOK_INCOMPLETE, 0));
    CHECK(REFUSED(logbook_erase(NULL, 0, 0, 0), LOGBOOK_INCOMPLETE, 0));
    CHECK(REFUSED(logbook_wipe(NULL, 0, 0, 0, 1), LOGBOOK_INCOMPLETE, 0));
    CHECK(REFUSED(logbook_step(NULL, 0, 0, logbook_fresh()).item, LOGBOOK_INCOMPLETE, 0));
    CHECK(REFUSED(logbook_move(NULL, 0, 0, logbook_slow_fresh()).item, LOGBOOK_INCOMPLETE, 0));
    CHECK(lists(NULL, 0, sizeof out, "refused\t2\t0\n"));
    logbook_listed listed = logbook_list(logbook_fresh(), buf, MORNING, NULL, 0);
    CHECK(listed.length == 0 && listed.over == 0);
    CHECK(is_unmoved(logbook_shift(NULL, 0, NULL, 0, 0, triple(0, 0, 0)), LOGBOOK_NOT_EPOCH));
    CHECK(is_unmoved(logbook_shift(TEXT("urn:ep:2010"), NULL, 0, 0, triple(0, 0, 0)), LOGBOOK_NOT_SHOT));
    logbook_appended done = logbook_append(buf, ROOM, MORNING, TEXT("urn:ep:2017"), NULL, 0);
    CHECK(REFUSED(done, LOGBOOK_DONE, MORNING) && done.used == MORNING + 2);
    done = logbook_assign(buf, ROOM, done.used, 2, NULL, 0);
    CHECK(REFUSED(done, LOGBOOK_DONE, MORNING + 2) && done.used == MORNING + 5);
    CHECK(memcmp(buf + MORNING, "\x01\x02\x02\x01\x02", 5) == 0 && buf[MORNING + 5] == 0xAA);
}

int main(void) {
    uint8_t buf[ROOM];
    write_morning(buf);
    read_morning(buf);
    move_morning(buf);
    erase_between_moves(buf);
    list_morning(buf);
    outside(buf);
    outside_moves(buf);
    refusals(buf);
    wipe_morning(buf);
    refusals(buf);
    faults();
    register_refusals();
    great_numbers();
    shifts();
    shift_refusals();
    null_pointers(buf);
    printf("%u checks\n", checks);
    return 0;
}
