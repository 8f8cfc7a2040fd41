/* Lifgorund: the judge of vertical collision-avoidance advisories, for programs in C and C++.
 *
 * Link target/staticlib/libbinding.a, which `tools/archive` proves and builds (x86-64 Linux). It needs no other library.
 * README.md says what a verdict means and how a sheet is written; examples/ has hosts in C, Rust and Python.
 *
 * Every function ends for every input, keeps no state, allocates nothing and calls nothing of the host, so any number of threads may
 * call them at once. Their results are fixed by their arguments.
 *
 * Units: a grain is 1/60 foot, so 1 ft/min is 1 grain/s. Heights and upward speeds are positive upwards.
 */
#ifndef LIFGORUND_H
#define LIFGORUND_H

#include <stddef.h>
#include <stdint.h>

#ifdef __cplusplus
extern "C" {
#endif

/* The kinds of a sheet's records, and the bytes of each record: one of kind, then its body. */
enum {
    LIFGORUND_ENCOUNTER = 1,          /* 21: r, h, c, v, vi */
    LIFGORUND_PUCK = 2,               /* 9: p, k */
    LIFGORUND_DELAY_ACCELERATION = 3, /* 5: e */
    LIFGORUND_CODED_QUESTION = 4,     /* 4: code, limit */
    LIFGORUND_FREE_QUESTION = 5       /* 23: sides, sense, target, upper target, strength, upper strength, delay, limit */
};

/* The kinds of answers: JudgeResult's kind, and the first byte of each answer record. */
enum {
    LIFGORUND_CLEAR = 65,        /* 2 bytes */
    LIFGORUND_CONFLICT = 66,     /* 13: one-sided */
    LIFGORUND_CONFLICTS = 67,    /* 25: two-sided, a time for each side */
    LIFGORUND_REFUSED = 68,      /* 2: one question or setting */
    LIFGORUND_SHEET_REFUSED = 69 /* 2: written by the program lifgorund alone, never by the functions below */
};

/* The sides of a clear answer: those that have no conflict. One-sided it is always the lower one. */
enum {
    LIFGORUND_LOWER_CLEAR = 1,
    LIFGORUND_UPPER_CLEAR = 2,
    LIFGORUND_BOTH_CLEAR = 3
};

/* Fields of a question. */
enum {
    LIFGORUND_ONE_SIDED = 1,
    LIFGORUND_TWO_SIDED = 2,
    LIFGORUND_DESCEND = 0,
    LIFGORUND_CLIMB = 1,
    LIFGORUND_NO_LIMIT = 65535
};

/* Refusals. 1 to 9 and 14 to 17 concern one record, 10 to 13 a whole sheet. The functions of plain numbers give the first that holds of
 * 1, 2, 3, 4, 5, 14, 15, 16, 6, in this order. */
enum {
    LIFGORUND_ACCEPTED = 0,
    LIFGORUND_BAD_ENCOUNTER = 1,          /* a field of the encounter is outside its limits */
    LIFGORUND_BAD_PUCK = 2,               /* p or k is outside its limits */
    LIFGORUND_BAD_DELAY_ACCELERATION = 3, /* e is outside its limits */
    LIFGORUND_BAD_SIDES = 4,              /* sides or sense is unknown */
    LIFGORUND_BAD_TARGET = 5,             /* target outside limits; two-sided also the upper target */
    LIFGORUND_BAD_TIMES = 6,              /* delay or limit outside limits; of a point also a second above 600 */
    LIFGORUND_NO_ENCOUNTER = 7,           /* a question before an accepted encounter */
    LIFGORUND_UNKNOWN_CODE = 8,           /* a code outside 1 to 18 */
    LIFGORUND_CODE_NOT_JUDGED = 9,        /* code 17 or 18 */
    LIFGORUND_SHEET_TOO_LONG = 10,        /* more than 8,192 bytes */
    LIFGORUND_UNKNOWN_KIND = 11,          /* a record of unknown kind */
    LIFGORUND_CUT_SHORT = 12,             /* a record's body is cut short */
    LIFGORUND_AREA_TOO_SHORT = 13,        /* the answer area is shorter than the whole answer */
    LIFGORUND_BAD_STRENGTH = 14,          /* strength outside limits; two-sided also the upper strength, or one below the strength */
    LIFGORUND_UPPER_TARGET_SHORT = 15,    /* two-sided: the upper target falls short of the target in the sense */
    LIFGORUND_UPPER_FIELD_GIVEN = 16,     /* one-sided: an upper field is not 0 */
    LIFGORUND_NEVER_ISSUED = 17,          /* code 10 (MCL) to an ownship going down, or code 9 (MDES) to one going up */
    LIFGORUND_BAD_FLIGHT = 18             /* no stretch or more than 64, numbers that are not pairs, a stretch outside its limits, a total above 600 */
};

/* Lengths in bytes: of the longest sheet, and of an area that is long enough for the answer to any sheet. */
enum {
    LIFGORUND_LONGEST_SHEET = 8192,
    LIFGORUND_AMPLE_AREA = 26624
};

/* What judge_plain answers. Fields that the kind does not use are 0. A time is seconds + remainder/divisor, in lowest terms: remainder
 * is below divisor, and a whole time has remainder 0 and divisor 1. No time has divisor 0. */
typedef struct JudgeResult {
    uint64_t kind;   /* LIFGORUND_CLEAR, LIFGORUND_CONFLICT, LIFGORUND_CONFLICTS or LIFGORUND_REFUSED */
    uint64_t number; /* of a clear answer the sides, of a refused one the refusal */
    uint64_t lower_seconds; /* the lower side's time, of kinds LIFGORUND_CONFLICT and LIFGORUND_CONFLICTS */
    uint64_t lower_remainder;
    uint64_t lower_divisor;
    uint64_t upper_seconds; /* the upper side's time, of kind LIFGORUND_CONFLICTS */
    uint64_t upper_remainder;
    uint64_t upper_divisor;
} JudgeResult;

/* Judges one question of plain numbers. Every argument may have any value: those outside the limits are refused. It writes no memory. */
JudgeResult judge_plain(
    int64_t r,              /* distance ahead, in grains; negative: already passed. -12,000,000 to 12,000,000 */
    int64_t h,              /* the intruder's height above the ownship, in grains. -480,000 to 480,000 */
    int64_t c,              /* closing speed, in grains/s. 0 to 150,000 */
    int64_t v,              /* the ownship's vertical speed, in grains/s. -10,000 to 10,000 */
    int64_t vi,             /* the intruder's vertical speed, in grains/s. -10,000 to 10,000 */
    int64_t p,              /* the puck's radius, in grains. 0 to 60,000; a sheet starts with 30,000 */
    int64_t k,              /* the puck's half height, in grains. 1 to 12,000; a sheet starts with 6,000 */
    int64_t e,              /* acceleration during the delay, against the advice, on the upper path towards it, in grains/s^2. 0 to 2,000; a sheet starts with 966 */
    int64_t sides,          /* LIFGORUND_ONE_SIDED or LIFGORUND_TWO_SIDED */
    int64_t sense,          /* LIFGORUND_DESCEND or LIFGORUND_CLIMB */
    int64_t target,         /* the vertical speed to reach, positive upwards in both senses, in grains/s. -10,000 to 10,000 */
    int64_t upper_target,   /* two-sided: the same for the upper path; one-sided: 0 */
    int64_t strength,       /* acceleration towards the target, in grains/s^2. 1 to 2,000 */
    int64_t upper_strength, /* two-sided: the same for the upper path, at least the strength; one-sided: 0 */
    int64_t delay,          /* before the advice is followed, in whole seconds. 0 to 60 */
    int64_t limit);         /* until when to judge, in whole seconds. 0 to 600, or LIFGORUND_NO_LIMIT */

/* Of a side at an instant. */
enum {
    LIFGORUND_SIDE_NOT_ASKED = 0,   /* one-sided, the upper side; refused or out of reach, both */
    LIFGORUND_NO_CONFLICT_TIME = 1, /* the instant is outside the window, or the intruder is beyond the puck on this side */
    LIFGORUND_CONFLICT_TIME = 2
};

/* The reach of judge_at: of a fraction in lowest terms the greatest divisor and the greatest numerator; of whole seconds, the last. */
enum {
    LIFGORUND_GREATEST_DIVISOR = 150000,
    LIFGORUND_GREATEST_NUMERATOR = 12060000,
    LIFGORUND_LAST_WHOLE_SECOND = 201680060
};

/* What judge_at answers. What is not used is 0; out of reach all is 0. */
typedef struct InstantResult {
    uint64_t refusal;   /* LIFGORUND_ACCEPTED, or that of judge_plain */
    uint64_t in_reach;  /* 1 if the instant is judged, 0 if it is out of reach */
    uint64_t in_window; /* 1 if it is in the window: from 0 to the limit, the intruder horizontally within the puck, edge included; else 0 */
    uint64_t lower;     /* LIFGORUND_CONFLICT_TIME or LIFGORUND_NO_CONFLICT_TIME */
    uint64_t upper;     /* the same; one-sided LIFGORUND_SIDE_NOT_ASKED */
} InstantResult;

/* Judges the instant n/m, in seconds, against a question of plain numbers, those of judge_plain: is it in the window, and on each side asked is it a conflict
 * time? An instant is judged by its value: 54/2 is 27/1. It is in reach if in lowest terms its divisor is at most LIFGORUND_GREATEST_DIVISOR and its numerator at
 * most LIFGORUND_GREATEST_NUMERATOR, or if it is a whole second up to LIFGORUND_LAST_WHOLE_SECOND. So in reach are every decimal of three places up to 12,000 s and
 * every time that judge_plain shows, which is a conflict time on its side. With m = 0 it is no time, and out of reach. Of a refused question the refusal is said,
 * whatever the instant. Every argument may have any value. It writes no memory. */
InstantResult judge_at(
    int64_t r, int64_t h, int64_t c, int64_t v, int64_t vi, int64_t p, int64_t k, int64_t e, int64_t sides, int64_t sense,
    int64_t target, int64_t upper_target, int64_t strength, int64_t upper_strength, int64_t delay, int64_t limit,
    uint64_t n,  /* the instant's numerator */
    uint64_t m); /* and its divisor */

/* The kinds of a piece of path: the degree of its polynomial. */
enum {
    LIFGORUND_NO_PIECE = 0,
    LIFGORUND_STRAIGHT = 1,
    LIFGORUND_ARC = 2
};

/* The last second that has a screen point. */
enum {
    LIFGORUND_LAST_SECOND = 600
};

/* A piece of a path, the lower or the upper: from its time on, to the next piece's or without an end, the ownship's sensed height (with the sense
 * descend positive downwards), measured from a level that starts at the ownship and moves with the intruder's vertical speed, is at t seconds
 *     (square * t * t + linear * t + constant) / (2 * strength) grains,
 * strength being that of the path: of the upper path the upper strength.
 * The coefficients are whole numbers below 2^53. A piece is a straight exactly if square is 0. Where there is no piece all is 0. */
typedef struct PieceResult {
    uint64_t kind; /* LIFGORUND_STRAIGHT, LIFGORUND_ARC or LIFGORUND_NO_PIECE */
    uint64_t seconds; /* the time from which it holds, in lowest terms */
    uint64_t remainder;
    uint64_t divisor;
    double square;
    double linear;
    double constant;
} PieceResult;

/* What screen_drawing and upper_drawing answer. */
typedef struct DrawingResult {
    uint64_t refusal; /* LIFGORUND_ACCEPTED, or that of judge_plain */
    uint64_t pieces;  /* one to three; of a refused question 0, and so of the upper path of a one-sided question */
    PieceResult first; /* from 0 */
    PieceResult second;
    PieceResult third;
} DrawingResult;

/* Draws the lower path of a question of plain numbers, those of judge_plain, in pieces. Every argument may have any value. It writes no memory. */
DrawingResult screen_drawing(
    int64_t r, int64_t h, int64_t c, int64_t v, int64_t vi, int64_t p, int64_t k, int64_t e, int64_t sides, int64_t sense,
    int64_t target, int64_t upper_target, int64_t strength, int64_t upper_strength, int64_t delay, int64_t limit);

/* Draws the upper path, which only a two-sided question has. Every argument may have any value. It writes no memory. */
DrawingResult upper_drawing(
    int64_t r, int64_t h, int64_t c, int64_t v, int64_t vi, int64_t p, int64_t k, int64_t e, int64_t sides, int64_t sense,
    int64_t target, int64_t upper_target, int64_t strength, int64_t upper_strength, int64_t delay, int64_t limit);

/* What screen_point answers: a point of the lower path. The height is that of the drawing, times 2 * strength, and exact: a whole number. */
typedef struct PointResult {
    uint64_t refusal; /* LIFGORUND_ACCEPTED, or that of judge_plain */
    double time;      /* the second; of a refused point 0 */
    double height;    /* of a refused point 0 */
} PointResult;

/* The point of the lower path at a whole second. A second above LIFGORUND_LAST_SECOND gets 6, after the refusals of the question. Every argument may
 * have any value. It writes no memory. */
PointResult screen_point(
    int64_t r, int64_t h, int64_t c, int64_t v, int64_t vi, int64_t p, int64_t k, int64_t e, int64_t sides, int64_t sense,
    int64_t target, int64_t upper_target, int64_t strength, int64_t upper_strength, int64_t delay, int64_t limit, uint64_t second);

/* What upper_point answers: a point of the upper path. What is not used is 0. */
typedef struct UpperPointResult {
    uint64_t refusal; /* LIFGORUND_ACCEPTED, or that of judge_plain */
    uint64_t asked;   /* 1 if there is a point; 0 if the question is one-sided, or refused */
    double time;      /* the second */
    double height;    /* that of the drawing, times 2 * upper_strength, and exact: a whole number */
} UpperPointResult;

/* The point of the upper path at a whole second, as screen_point gives it of the lower: a second above LIFGORUND_LAST_SECOND gets 6 here too, also of a
 * one-sided question. Every argument may have any value. It writes no memory. */
UpperPointResult upper_point(
    int64_t r, int64_t h, int64_t c, int64_t v, int64_t vi, int64_t p, int64_t k, int64_t e, int64_t sides, int64_t sense,
    int64_t target, int64_t upper_target, int64_t strength, int64_t upper_strength, int64_t delay, int64_t limit, uint64_t second);

/* What judge_flight answers. What is not used is 0. */
typedef struct FlightResult {
    uint64_t refusal; /* LIFGORUND_ACCEPTED, or one of 1, 2, 3, 4, 5, 14, 6, 18 */
    uint64_t obeys;   /* 1 if the flight obeys the advice, else 0 */
    uint64_t inside;  /* 1 if it is inside the puck, edge included, at a time up to its end, limit or not; else 0 */
    uint64_t second;  /* where it is inside: the least whole second n with such a time at n or later but before n + 1 */
} FlightResult;

/* Judges a candidate's flight against a one-sided advice. The flight is numbers in pairs, each a stretch: an upward acceleration in grains/s^2, -2,000 to
 * 2,000, and whole seconds, 1 to 600; 1 to 64 stretches, at most 600 seconds in total. It starts with the ownship's speed v. flight_length counts the numbers, and
 * is twice the number of stretches. Every argument may have any value, and any numbers may stand in the flight, which is only read, during the call alone:
 * it must be valid for its length, and nothing else may write to it during the call. A pointer whose length is 0 is not followed, and may be null. */
FlightResult judge_flight(
    int64_t r, int64_t h, int64_t c, int64_t v, int64_t vi, int64_t p, int64_t k, int64_t e, int64_t sense, int64_t target, int64_t strength, int64_t delay,
    int64_t limit, const int64_t *flight, size_t flight_length);

/* What coded_question answers: the fields of a question, as judge_plain takes them. Of a refused code all of them are 0. */
typedef struct QuestionResult {
    uint64_t refusal; /* LIFGORUND_ACCEPTED, or one of 8, 9, 17 */
    int64_t sides;
    int64_t sense;
    int64_t target;
    int64_t upper_target;
    int64_t strength;
    int64_t upper_strength;
    int64_t delay;
    int64_t limit;
} QuestionResult;

/* The question that an advisory's code asks an ownship of vertical speed v: one-sided, with the target of the catalogue, and the strength and the delay of the
 * reaction table. Speed and limit may have any value: they are handed on, and judge_plain tests them with the question. It writes no memory. */
QuestionResult coded_question(
    uint64_t code, /* 1 to 18; every other number gets 8 */
    int64_t v,
    int64_t limit);

/* What answer_sheet_bytes answers. */
typedef struct SheetResult {
    uint64_t refusal; /* LIFGORUND_ACCEPTED, or why the whole sheet is refused: 10 to 13 */
    uint64_t length;  /* of an accepted sheet the answer's length in bytes, of a refused one 0 */
} SheetResult;

/* Answers a sheet: writes its answer records, one after the other, to the start of the area.
 *
 * Both blocks of memory are the host's. They are used during the call alone; the sheet is only read. Of the area only the answer's
 * bytes change: none if the sheet is refused, and none past the answer.
 * The blocks must not overlap, each must be valid for its length, and nothing else may write to them during the call.
 * A pointer whose length is 0 is not followed, and may be null.
 * Any bytes may stand in the sheet. An area of LIFGORUND_AMPLE_AREA bytes is never too short, and one of just the answer's length suffices.
 */
SheetResult answer_sheet_bytes(const uint8_t *sheet, size_t sheet_length, uint8_t *area, size_t area_length);

#ifdef __cplusplus
}
#endif

#endif
