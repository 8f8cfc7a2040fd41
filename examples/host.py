"""A host in Python: judges questions of plain numbers and instants, draws two, judges flights, and answers sheets. `compare/hosts` builds the shared library and runs it; by hand, from
the repository's root:
    tools/archive
    cc -shared -o liblifgorund.so -Wl,--whole-archive target/staticlib/libbinding.a -Wl,--no-whole-archive
    python3 examples/host.py ./liblifgorund.so examples/whole_example.sheet
include/lifgorund.h says what each argument and each field is.
"""
import ctypes
import sys

ONE_SIDED, TWO_SIDED, CLIMB, NO_LIMIT = 1, 2, 1, 65535
CLEAR, CONFLICTS, REFUSED = 65, 67, 68
CONFLICT_TIME = 2
ARC, LAST_SECOND = 2, 600
AMPLE_AREA = 26624


class JudgeResult(ctypes.Structure):
    _fields_ = [(name, ctypes.c_uint64) for name in (
        "kind", "number", "lower_seconds", "lower_remainder", "lower_divisor", "upper_seconds", "upper_remainder", "upper_divisor")]


class InstantResult(ctypes.Structure):
    _fields_ = [(name, ctypes.c_uint64) for name in ("refusal", "in_reach", "in_window", "lower", "upper")]


class PieceResult(ctypes.Structure):
    _fields_ = [(name, ctypes.c_uint64) for name in ("kind", "seconds", "remainder", "divisor")] + [
        (name, ctypes.c_double) for name in ("square", "linear", "constant")]


class DrawingResult(ctypes.Structure):
    _fields_ = [("refusal", ctypes.c_uint64), ("pieces", ctypes.c_uint64), ("piece", PieceResult * 3)]


class PointResult(ctypes.Structure):
    _fields_ = [("refusal", ctypes.c_uint64), ("time", ctypes.c_double), ("height", ctypes.c_double)]


class UpperPointResult(ctypes.Structure):
    _fields_ = [("refusal", ctypes.c_uint64), ("asked", ctypes.c_uint64), ("time", ctypes.c_double), ("height", ctypes.c_double)]


class QuestionResult(ctypes.Structure):
    _fields_ = [("refusal", ctypes.c_uint64)] + [(name, ctypes.c_int64) for name in (
        "sides", "sense", "target", "upper_target", "strength", "upper_strength", "delay", "limit")]


class FlightResult(ctypes.Structure):
    _fields_ = [(name, ctypes.c_uint64) for name in ("refusal", "obeys", "inside", "second")]


class SheetResult(ctypes.Structure):
    _fields_ = [("refusal", ctypes.c_uint64), ("length", ctypes.c_uint64)]


library = ctypes.CDLL(sys.argv[1])
library.judge_plain.argtypes = [ctypes.c_int64] * 16
library.judge_plain.restype = JudgeResult
library.judge_at.argtypes = [ctypes.c_int64] * 16 + [ctypes.c_uint64] * 2
library.judge_at.restype = InstantResult
library.screen_drawing.argtypes = [ctypes.c_int64] * 16
library.screen_drawing.restype = DrawingResult
library.screen_point.argtypes = [ctypes.c_int64] * 16 + [ctypes.c_uint64]
library.screen_point.restype = PointResult
library.upper_drawing.argtypes = [ctypes.c_int64] * 16
library.upper_drawing.restype = DrawingResult
library.upper_point.argtypes = [ctypes.c_int64] * 16 + [ctypes.c_uint64]
library.upper_point.restype = UpperPointResult
library.coded_question.argtypes = [ctypes.c_uint64, ctypes.c_int64, ctypes.c_int64]
library.coded_question.restype = QuestionResult
library.judge_flight.argtypes = [ctypes.c_int64] * 13 + [ctypes.POINTER(ctypes.c_int64), ctypes.c_size_t]
library.judge_flight.restype = FlightResult
library.answer_sheet_bytes.argtypes = [ctypes.c_char_p, ctypes.c_size_t, ctypes.c_char_p, ctypes.c_size_t]
library.answer_sheet_bytes.restype = SheetResult


def show(name, answer):
    if answer.kind == CLEAR:
        print(f"{name}: clear, sides {answer.number}")
    elif answer.kind == REFUSED:
        print(f"{name}: refused, {answer.number}")
    else:
        upper = f", upper side at {answer.upper_seconds} {answer.upper_remainder}/{answer.upper_divisor} s" if answer.kind == CONFLICTS else ""
        print(f"{name}: conflict at {answer.lower_seconds} {answer.lower_remainder}/{answer.lower_divisor} s{upper}")


def climb(h, strength):
    """Climb to 1,500 from level flight, 300,000 grains ahead of an intruder at height h that closes at 10,000."""
    return library.judge_plain(300000, h, 10000, 0, 0, 30000, 6000, 966, ONE_SIDED, CLIMB, 1500, 0, strength, 0, 0, NO_LIMIT)


def at(name, h, n, m):
    """Such a climb at the instant n/m."""
    answer = library.judge_at(300000, h, 10000, 0, 0, 30000, 6000, 966, ONE_SIDED, CLIMB, 1500, 0, 500, 0, 0, NO_LIMIT, n, m)
    if answer.refusal == 0 and answer.in_reach:
        window = "in" if answer.in_window else "outside"
        lower = "a conflict time" if answer.lower == CONFLICT_TIME else "no conflict time"
        print(f"{name} at {n}/{m} s: {window} the window, {lower}, upper side {answer.upper}")
    else:
        print(f"{name} at {n}/{m} s: refusal {answer.refusal}, in reach {answer.in_reach}")


# The question of code 12, climb to 1,500, from level flight; and a two-sided one, whose upper path goes to 2,500.
CODE_12 = (0, 0, 0, 0, 0, 30000, 6000, 966, ONE_SIDED, CLIMB, 1500, 0, 483, 0, 5, NO_LIMIT)
CLIMB_BETWEEN = (0, 0, 0, 0, 0, 30000, 6000, 300, TWO_SIDED, CLIMB, 0, 2500, 400, 500, 2, NO_LIMIT)


def draw(name, drawing):
    print(f"{name}: refusal {drawing.refusal}, pieces {drawing.pieces}")
    for piece in drawing.piece[:drawing.pieces]:
        kind = "arc" if piece.kind == ARC else "straight"
        print(f"  from {piece.seconds} {piece.remainder}/{piece.divisor} s, {kind}: {piece.square:.0f} {piece.linear:.0f} {piece.constant:.0f}")


def point(second):
    answer = library.screen_point(*CODE_12, second)
    print(f"point: refusal {answer.refusal}, time {answer.time:.0f}, height {answer.height:.0f}")


def point_above(name, answer):
    print(f"{name}: refusal {answer.refusal}, asked {answer.asked}, time {answer.time:.0f}, height {answer.height:.0f}")


def ask(code):
    """The question that a code asks from level flight."""
    question = library.coded_question(code, 0, NO_LIMIT)
    print(f"code {code}: refusal {question.refusal}, sense {question.sense}, target {question.target}, strength {question.strength}, delay {question.delay}")


def fly(name, flight):
    """M5, climb to 0 at 500: a candidate's flight against it."""
    numbers = (ctypes.c_int64 * len(flight))(*flight)
    answer = library.judge_flight(0, -7000, 10000, -1000, 0, 30000, 6000, 966, CLIMB, 0, 500, 0, NO_LIMIT, numbers, len(flight))
    print(f"{name}: refusal {answer.refusal}, obeys {answer.obeys}, inside {answer.inside}, second {answer.second}")


def answer(name, sheet, room):
    area = ctypes.create_string_buffer(room) if room else None
    result = library.answer_sheet_bytes(sheet, len(sheet or b""), area, room)
    text = "".join(f" {byte:02x}" for byte in area.raw[:result.length]) if area else ""
    print(f"{name}: refusal {result.refusal}, length {result.length},{text}")


with open(sys.argv[2], "rb") as file:
    sheet = file.read()
show("M1", climb(32249, 500))
show("M2", climb(32250, 500))
show("M13", library.judge_plain(0, 6000, 0, 0, 0, 30000, 6000, 966, TWO_SIDED, CLIMB, 0, 0, 500, 500, 0, NO_LIMIT))
show("strength 0", climb(32250, 0))
at("M1", 32249, 27, 1)
at("M2", 32250, 54, 2)
at("M2", 32250, 20, 1)
at("M2", 32250, 27, 0)
draw("drawing", library.screen_drawing(*CODE_12))
point(15)
point(LAST_SECOND + 1)
draw("upper drawing", library.upper_drawing(*CLIMB_BETWEEN))
draw("upper drawing, one-sided", library.upper_drawing(*CODE_12))
point_above("upper point", library.upper_point(*CLIMB_BETWEEN, 3))
point_above("upper point, one-sided", library.upper_point(*CODE_12, 3))
ask(12)
ask(300)
fly("M5, 500 for 2 s", [500, 2, 0, 5])
fly("M5, 2,000 for 1 s", [2000, 1, 0, 6])
fly("three numbers", [500, 2, 0])
fly("no flight", [])
answer("whole example", sheet, AMPLE_AREA)
answer("cut short", sheet[:-1], AMPLE_AREA)
answer("area of 12 bytes", sheet, 12)
answer("no sheet and no area", None, 0)
