/*
 * logbook.h: a proved logbook for Lozizol 0.5, for C.
 *
 * A logbook is a sequence of records in a buffer that the caller lends: `buf` with `len` bytes, of which the first `used` belong to
 * the logbook. The library keeps no state, allocates nothing and never holds on to a pointer: every call works on what it is given
 * and is over when it returns. Calls on different buffers may run at the same time; calls on one buffer may not.
 *
 * Every call takes any arguments. It answers its item or result, or one of the refusals below with the refusal's number and place;
 * a refused call changes nothing. A pointer with length 0 may be null. Any other pointer must be readable (or, where it isn't
 * const, writable) for its length, and a buffer that is written may not overlap another argument.
 *
 * A place counts bytes from the buffer's start; a number counts live entries, the header is 1.
 *
 * Link with liblogbook_c.a (rt staticlib logbook_c).
 */
#ifndef LOGBOOK_H
#define LOGBOOK_H

#include <stddef.h>
#include <stdint.h>

#ifdef __cplusplus
extern "C" {
#endif

/* ---- limits */
#define LOGBOOK_HEADER_LENGTH 109u                         /* bytes of a header, and of a logbook that has been started */
#define LOGBOOK_UUID_LENGTH 16u                            /* bytes of a UUID, as they are (not its text) */
#define LOGBOOK_FREE_LENGTH 60u                            /* bytes of a header's free part */
#define LOGBOOK_USED_LIMIT 16777216u                       /* the greatest used length */
#define LOGBOOK_NUMBER_LIMIT UINT64_C(9223372036854775807) /* the greatest type number: nine bytes as written */
#define LOGBOOK_DATA_LIMIT 65535u                          /* the most data bytes of an entry that is appended */
#define LOGBOOK_URI_LIMIT 255u                             /* the most bytes of a URI */
#define LOGBOOK_ROWS 32u                                   /* type numbers held at once */
#define LOGBOOK_FILE_LIMIT 65536u                          /* the longest file that is listed */
#define LOGBOOK_LINE_LIMIT 320u                            /* room that a listing asks for each line */
#define LOGBOOK_SHOT_LENGTH 24u                            /* bytes of a shot's data */

/* ---- limits of a shift: the greatest sizes, so -LOGBOOK_MOTION_LIMIT is allowed too. They have a sign, as what they bound. */
#define LOGBOOK_COORDINATE_LIMIT 100000000000 /* of a shot's coordinate, in tenths of a millimetre */
#define LOGBOOK_DIFFERENCE_LIMIT 100000       /* of the asked epoch less the shot's, in hundredths of a year */
#define LOGBOOK_MOTION_LIMIT 10000            /* of a motion, in tenths of a millimetre a year */

/*
 * ---- refusals: the number, when it is given, and the place that comes with it (0 where none is named). 4 was withdrawn; 14, 15 and 16
 * stand where it stood. In one record they come in the order 2, 14, 15, 16, 6, 3, 5, 7. 24, 25 and 26, in this order, are a shift's alone.
 * Later versions may have further numbers.
 */
enum {
    LOGBOOK_DONE = 0,            /* not refused */
    LOGBOOK_USED_LENGTH = 1,     /* the used length is over the buffer's, or over 16,777,216 */
    LOGBOOK_INCOMPLETE = 2,      /* a record isn't whole at the used length; its start */
    LOGBOOK_NOT_HEADER = 3,      /* a header hasn't the header's form; its start */
    LOGBOOK_BAD_ASSIGNMENT = 5,  /* an assignment's data missing or broken, number 0, or its URI not allowed; the record's start */
    LOGBOOK_NOT_HELD = 6,        /* a record's type number isn't held; the record's start */
    LOGBOOK_REGISTER_FULL = 7,   /* 32 numbers are held and a further one is assigned; the record's start, or the used length */
    LOGBOOK_NOTHING_THERE = 8,   /* erase: no live entry starts there; wipe: no deleted record does; the asked place */
    LOGBOOK_FIXED = 9,           /* a header or an assignment is never erased; the asked place */
    LOGBOOK_BAD_REQUEST = 10,    /* data too long, URI not allowed, number 0 or too great, UUID or free part of another length */
    LOGBOOK_NO_TYPE_NUMBER = 11, /* an assignment is needed, and no number holds urn:lozizol:type */
    LOGBOOK_NO_ROOM = 12,        /* the records don't fit the buffer or the limit; the used length (start: 0) */
    LOGBOOK_NOT_FITTING = 13,    /* the reading (or the row) that was handed in doesn't fit */
    LOGBOOK_EMPTY_LEAD = 14,     /* a size or a type begins with the byte 80; that byte */
    LOGBOOK_TOO_LONG = 15,       /* a size isn't over at its fourth byte, or a type at its ninth, the last it may have; that byte */
    LOGBOOK_PAST_SIZE = 16,      /* a type isn't over within its record's size; the record's last byte */
    LOGBOOK_NOT_EPOCH = 24,      /* the URI isn't urn:ep: and four digits, or those, a point and two digits */
    LOGBOOK_NOT_SHOT = 25,       /* the data isn't 24 bytes */
    LOGBOOK_OVER_BOUND = 26      /* a coordinate, the difference of the epochs or a motion is over its limit */
};

/* ---- start a logbook: a header over the first 109 bytes; the others stay. `used` is 109 (and `place` 0), or 0 where refused (10, 12). */
typedef struct logbook_started {
    size_t refusal, place;
    size_t used;
} logbook_started;

logbook_started logbook_start(uint8_t *buf, size_t len, const uint8_t *uuid, size_t uuid_len, const uint8_t *free_part,
                              size_t free_len);

/*
 * ---- append an entry by URI (where no number holds it, an assignment goes first: both or neither), or assign a type number. An
 * empty URI removes the number. `place` is that of the last record written, or the refusal's; `used` is the used length after the
 * call, which a refused call leaves as it was. Bytes past it stay.
 */
typedef struct logbook_appended {
    size_t refusal, place;
    size_t used;
} logbook_appended;

logbook_appended logbook_append(uint8_t *buf, size_t len, size_t used, const uint8_t *uri, size_t uri_len, const uint8_t *data,
                                size_t data_len);
logbook_appended logbook_assign(uint8_t *buf, size_t len, size_t used, uint64_t number, const uint8_t *uri, size_t uri_len);

/* ---- erase the live entry that starts at a place: one byte is stored, at the place answered. */
typedef struct logbook_erased {
    size_t refusal, place;
} logbook_erased;

logbook_erased logbook_erase(uint8_t *buf, size_t len, size_t used, size_t place);

/*
 * ---- wipe the deleted record that starts at a place, by at most `limit` single stores, in an order that leaves a readable logbook
 * after each. `stores` is how many were made: the smaller of the limit and the record's nonzero bytes (0 where refused). `place` is the
 * refusal's, else 0.
 */
typedef struct logbook_wiped {
    size_t refusal, place;
    size_t stores;
} logbook_wiped;

logbook_wiped logbook_wipe(uint8_t *buf, size_t len, size_t used, size_t place, size_t limit);

/*
 * ---- read a logbook item by item. A reading is a value: copy it, keep it, hand it in again later. Its register has `held` rows in
 * use, by rising number; the others are zero. A row of length 0 is one that a header implies. Any other row also has the place and the
 * entry number (as counted by this reading, and never 0) of the record that assigned it.
 */
typedef struct logbook_reading {
    size_t position; /* a place */
    size_t count;    /* live entries so far */
    size_t held;
    uint64_t numbers[LOGBOOK_ROWS];
    uint32_t places[LOGBOOK_ROWS];  /* of the URIs */
    uint32_t lengths[LOGBOOK_ROWS]; /* of the URIs */
    uint32_t declared_places[LOGBOOK_ROWS];
    uint32_t declared_numbers[LOGBOOK_ROWS];
} logbook_reading;

/* A row of the register: a type number and where its URI stands. */
typedef struct logbook_row {
    uint64_t number;
    uint32_t place, length;
} logbook_row;

enum { /* what an item is */
    LOGBOOK_PADDING = 0,    /* one byte of padding */
    LOGBOOK_DELETED = 1,    /* a deleted record */
    LOGBOOK_ENTRY = 2,      /* a live entry */
    LOGBOOK_HEADER = 3,     /* a header, a live entry too */
    LOGBOOK_ASSIGNMENT = 4, /* an assignment, a live entry too */
    LOGBOOK_END = 5,        /* the used length is reached */
    LOGBOOK_REFUSED = 6,    /* nothing was read: see `refusal` */
    LOGBOOK_SIZE_HELD = 7,  /* of a move alone: the record's size is taken, its type comes next */
    LOGBOOK_TYPE_HELD = 8   /* of a move alone: its type is taken, its data comes next */
};

typedef struct logbook_item {
    size_t kind;
    size_t refusal;     /* 0, or the refusal's number */
    size_t place;       /* where the item starts; of a refusal its place */
    size_t number;      /* a live entry's number; else 0 */
    size_t type_place;  /* of a record: its first type byte (of a deleted one its body); else 0 */
    size_t data_place;  /* of a live entry: behind the type; of a deleted record: its body; else 0 */
    size_t data_length; /* up to the record's end; else 0 */
    logbook_row row;    /* of a live entry: its type number, and where its URI stands (logbook_uri); else zero */
    size_t declared_place;  /* of a live entry: where the record starts that gave its type number this URI; else 0 */
    size_t declared_number; /* that record's number; 0 where there is none, as a header implies the type number */
    uint64_t assigned;      /* of an assignment: the number that it assigns or removes; else 0 */
    size_t assigned_place;  /* of an assignment: where that number's URI stands, up to the record's end; else 0 */
} logbook_item;

typedef struct logbook_step_result {
    logbook_item item;
    logbook_reading reading; /* behind the item; at the end, and where refused, as it was handed in */
} logbook_step_result;

logbook_reading logbook_fresh(void);
logbook_step_result logbook_step(const uint8_t *buf, size_t len, size_t used, logbook_reading reading);

/*
 * ---- read a logbook slowly, as over radio: a record's size, type and data are taken in three moves, with other calls between them.
 * Padding, the end and the header at place 0 are one move, a deleted record is done with its type. Until a record is done
 * the position stays at its start, and the reading holds what is taken; what is not held is 0. Moves with nothing called between
 * show what steps show.
 *
 * Calls between the moves change nothing of the live entries that the reading shows, if there is no wipe of a record whose type is
 * taken and whose data isn't (one that is refused, or has the limit 0, does no harm). It shows them as if appends, assignments and
 * removals, and erases and wipes at places that it hasn't passed, had been made before it, and erases and wipes at the
 * others after it. It has passed the places below its position, and that place itself once the type is taken.
 */
typedef struct logbook_slow {
    logbook_reading reading;
    size_t type_place; /* with the size taken: where the record's type starts; else 0 */
    size_t end;        /* with the size taken: the record's end; else 0 */
    uint64_t number;   /* with the type taken: it; else 0 */
    size_t data_place; /* with the type taken: where the record's data starts; else 0 */
} logbook_slow;

typedef struct logbook_move_result {
    logbook_item item; /* as a step's; of kinds 7 and 8 `place` is the record's start and all else 0 */
    logbook_slow slow; /* behind the move; at the end, and where refused, as it was handed in */
} logbook_move_result;

/* Refused with 1 and 13 as a step; then the size's move with 2, 14 and 15, the type's with 14, 15, 16 and 6, the data's with 3, 5 and 7. */
logbook_slow logbook_slow_fresh(void);
logbook_move_result logbook_move(const uint8_t *buf, size_t len, size_t used, logbook_slow slow);

/*
 * ---- the URI of a row: `length` bytes at `place` of the buffer, or, where `implied` is 1, of LOGBOOK_IMPLIED_NAMES. `len` and `used` are the
 * buffer's. Refused with 1 for the used length, and with 13 for a row that a reading at the used length would not fit with;
 * never for the row of an item that a step or a move on this buffer and used length has shown.
 */
#define LOGBOOK_IMPLIED_NAMES "urn:lozizol:typeurn:lozizol:header"

typedef struct logbook_uri_answer {
    size_t refusal;
    size_t implied;
    size_t place;
    size_t length;
} logbook_uri_answer;

logbook_uri_answer logbook_uri(size_t len, size_t used, logbook_row row);

/* The URI's first byte; its length is in the answer. */
static inline const uint8_t *logbook_uri_bytes(const uint8_t *buf, logbook_uri_answer uri) {
    return (uri.implied ? (const uint8_t *)LOGBOOK_IMPLIED_NAMES : buf) + uri.place;
}

/*
 * ---- list a file as text, one line for each live entry (place, number, URI, data length, with a TAB between), then `end` and the used
 * length, or `refused`, number and place. Whole lines are written from the front of `out`, as long as 320 bytes are left; `length` bytes
 * were written, and `over` is 1 with the last line. Go on with the reading that comes back until then. The first call takes a fresh one;
 * one that doesn't fit gets `refused`, 13, 0. A file over 65,536 bytes gets `refused`, 1, 0.
 */
typedef struct logbook_listed {
    size_t length;
    size_t over;
    logbook_reading reading;
} logbook_listed;

logbook_listed logbook_list(logbook_reading reading, const uint8_t *file, size_t file_len, uint8_t *out, size_t out_len);

/*
 * ---- shift a shot to another epoch. It takes no logbook: `uri` and `data` are those of an entry. The URI alone says the shot's epoch:
 * `urn:ep:` and four digits of a year, or those, a point and two digits (exact bytes). The data is its x, y and z, each a signed number
 * of 8 bytes, the highest first, in tenths of a millimetre. `asked` is an epoch in hundredths of a year (201750 for 2017.50), `motion`
 * is in tenths of a millimetre a year; any numbers may be handed in. For each of x, y and z
 *
 *     point = 100 * position + motion * (asked - epoch)        in micrometres
 *     motion = 100 * motion                                    in micrometres a year
 *
 * so a motion of 700 and a difference of 720 move a point 504,000. Every double is a whole number of at most 10,001,000,000,000 in size,
 * exact and never -0.0. Refused with 24 for the URI, 25 for the data's length, 26 for a figure over its limit, in this order; where
 * refused all but `refusal` is 0.
 */
typedef struct logbook_triple { /* whole numbers: tenths of a millimetre, or of a millimetre a year */
    int64_t x, y, z;
} logbook_triple;

typedef struct logbook_point { /* micrometres */
    double x, y, z;
} logbook_point;

typedef struct logbook_motion { /* micrometres a year */
    double x, y, z;
} logbook_motion;

typedef struct logbook_shifted {
    size_t refusal, place;
    size_t epoch;            /* the shot's own, in hundredths of a year: 201000 for urn:ep:2010 */
    logbook_triple position; /* the shot's own coordinates */
    logbook_point point;     /* the moved point */
    logbook_motion motion;   /* the yearly motion */
} logbook_shifted;

logbook_shifted logbook_shift(const uint8_t *uri, size_t uri_len, const uint8_t *data, size_t data_len, int64_t asked,
                              logbook_triple motion);

#ifdef __cplusplus
}
#endif

#endif
