/* A host in C: judges questions of plain numbers and instants, draws two, judges flights, and answers sheets. `compare/hosts` builds and runs it; by hand, from the repository's root:
 *     tools/archive
 *     cc -Iinclude -o host examples/host.c target/staticlib/libbinding.a && ./host examples/whole_example.sheet
 */
#include "lifgorund.h"
#include <inttypes.h>
#include <stdio.h>

static void show(const char *name, JudgeResult answer)
{
    switch (answer.kind) {
    case LIFGORUND_CLEAR:
        printf("%s: clear, sides %" PRIu64 "\n", name, answer.number);
        break;
    case LIFGORUND_REFUSED:
        printf("%s: refused, %" PRIu64 "\n", name, answer.number);
        break;
    default:
        printf("%s: conflict at %" PRIu64 " %" PRIu64 "/%" PRIu64 " s", name, answer.lower_seconds, answer.lower_remainder, answer.lower_divisor);
        if (answer.kind == LIFGORUND_CONFLICTS)
            printf(", upper side at %" PRIu64 " %" PRIu64 "/%" PRIu64 " s", answer.upper_seconds, answer.upper_remainder, answer.upper_divisor);
        printf("\n");
    }
}

/* Climb to 1,500 from level flight, 300,000 grains ahead of an intruder at height h that closes at 10,000. */
static JudgeResult climb(int64_t h, int64_t strength)
{
    return judge_plain(300000, h, 10000, 0, 0, 30000, 6000, 966, LIFGORUND_ONE_SIDED, LIFGORUND_CLIMB, 1500, 0, strength, 0, 0, LIFGORUND_NO_LIMIT);
}

/* Such a climb at the instant n/m. */
static void at(const char *name, int64_t h, uint64_t n, uint64_t m)
{
    InstantResult answer = judge_at(300000, h, 10000, 0, 0, 30000, 6000, 966, LIFGORUND_ONE_SIDED, LIFGORUND_CLIMB, 1500, 0, 500, 0, 0, LIFGORUND_NO_LIMIT, n, m);
    const char *lower = answer.lower == LIFGORUND_CONFLICT_TIME ? "a conflict time" : "no conflict time";
    if (answer.refusal == LIFGORUND_ACCEPTED && answer.in_reach)
        printf("%s at %" PRIu64 "/%" PRIu64 " s: %s the window, %s, upper side %" PRIu64 "\n", name, n, m, answer.in_window ? "in" : "outside", lower, answer.upper);
    else
        printf("%s at %" PRIu64 "/%" PRIu64 " s: refusal %" PRIu64 ", in reach %" PRIu64 "\n", name, n, m, answer.refusal, answer.in_reach);
}

static void show_piece(PieceResult piece)
{
    printf("  from %" PRIu64 " %" PRIu64 "/%" PRIu64 " s, %s: %.0f %.0f %.0f\n", piece.seconds, piece.remainder, piece.divisor,
           piece.kind == LIFGORUND_ARC ? "arc" : "straight", piece.square, piece.linear, piece.constant);
}

static void draw(const char *name, DrawingResult drawing)
{
    printf("%s: refusal %" PRIu64 ", pieces %" PRIu64 "\n", name, drawing.refusal, drawing.pieces);
    if (drawing.pieces > 0)
        show_piece(drawing.first);
    if (drawing.pieces > 1)
        show_piece(drawing.second);
    if (drawing.pieces > 2)
        show_piece(drawing.third);
}

/* The question of code 12, climb to 1,500, from level flight; and a two-sided one, whose upper path goes to 2,500. */
#define CODE_12 0, 0, 0, 0, 0, 30000, 6000, 966, LIFGORUND_ONE_SIDED, LIFGORUND_CLIMB, 1500, 0, 483, 0, 5, LIFGORUND_NO_LIMIT
#define CLIMB_BETWEEN 0, 0, 0, 0, 0, 30000, 6000, 300, LIFGORUND_TWO_SIDED, LIFGORUND_CLIMB, 0, 2500, 400, 500, 2, LIFGORUND_NO_LIMIT

static void point(uint64_t second)
{
    PointResult answer = screen_point(CODE_12, second);
    printf("point: refusal %" PRIu64 ", time %.0f, height %.0f\n", answer.refusal, answer.time, answer.height);
}

static void point_above(const char *name, UpperPointResult answer)
{
    printf("%s: refusal %" PRIu64 ", asked %" PRIu64 ", time %.0f, height %.0f\n", name, answer.refusal, answer.asked, answer.time, answer.height);
}

/* The question that a code asks from level flight. */
static void ask(uint64_t code)
{
    QuestionResult question = coded_question(code, 0, LIFGORUND_NO_LIMIT);
    printf("code %" PRIu64 ": refusal %" PRIu64 ", sense %" PRId64 ", target %" PRId64 ", strength %" PRId64 ", delay %" PRId64 "\n", code,
           question.refusal, question.sense, question.target, question.strength, question.delay);
}

/* M5, climb to 0 at 500: a candidate's flight against it. */
static void fly(const char *name, const int64_t *flight, size_t length)
{
    FlightResult answer = judge_flight(0, -7000, 10000, -1000, 0, 30000, 6000, 966, LIFGORUND_CLIMB, 0, 500, 0, LIFGORUND_NO_LIMIT, flight, length);
    printf("%s: refusal %" PRIu64 ", obeys %" PRIu64 ", inside %" PRIu64 ", second %" PRIu64 "\n", name, answer.refusal, answer.obeys, answer.inside, answer.second);
}

static void answer(const char *name, const uint8_t *sheet, size_t length, size_t room)
{
    static uint8_t area[LIFGORUND_AMPLE_AREA];
    SheetResult result = answer_sheet_bytes(sheet, length, room ? area : NULL, room);
    printf("%s: refusal %" PRIu64 ", length %" PRIu64 ",", name, result.refusal, result.length);
    for (uint64_t i = 0; i < result.length; i++)
        printf(" %02x", area[i]);
    printf("\n");
}

int main(int argc, char **argv)
{
    uint8_t sheet[LIFGORUND_LONGEST_SHEET + 1]; /* one byte more, so that a sheet that is too long is seen */
    FILE *file = argc == 2 ? fopen(argv[1], "rb") : NULL;
    if (!file)
        return 2;
    size_t length = fread(sheet, 1, sizeof sheet, file);
    fclose(file);

    show("M1", climb(32249, 500));
    show("M2", climb(32250, 500));
    show("M13", judge_plain(0, 6000, 0, 0, 0, 30000, 6000, 966, LIFGORUND_TWO_SIDED, LIFGORUND_CLIMB, 0, 0, 500, 500, 0, LIFGORUND_NO_LIMIT));
    show("strength 0", climb(32250, 0));
    at("M1", 32249, 27, 1);
    at("M2", 32250, 54, 2);
    at("M2", 32250, 20, 1);
    at("M2", 32250, 27, 0);
    draw("drawing", screen_drawing(CODE_12));
    point(15);
    point(LIFGORUND_LAST_SECOND + 1);
    draw("upper drawing", upper_drawing(CLIMB_BETWEEN));
    draw("upper drawing, one-sided", upper_drawing(CODE_12));
    point_above("upper point", upper_point(CLIMB_BETWEEN, 3));
    point_above("upper point, one-sided", upper_point(CODE_12, 3));
    ask(12);
    ask(300);
    const int64_t just[] = {500, 2, 0, 5};
    const int64_t quick[] = {2000, 1, 0, 6};
    fly("M5, 500 for 2 s", just, 4);
    fly("M5, 2,000 for 1 s", quick, 4);
    fly("three numbers", just, 3);
    fly("no flight", NULL, 0);
    answer("whole example", sheet, length, LIFGORUND_AMPLE_AREA);
    answer("cut short", sheet, length - 1, LIFGORUND_AMPLE_AREA);
    answer("area of 12 bytes", sheet, length, 12);
    answer("no sheet and no area", NULL, 0, 0);
    return 0;
}
