// The judge's module: its functions with plain values in and out. Nothing is judged here. include/lifgorund.h says what each field is.

const ARGUMENTS = ['r', 'h', 'c', 'v', 'vi', 'p', 'k', 'e', 'sides', 'sense', 'target', 'upperTarget', 'strength', 'upperStrength', 'delay', 'limit'];
const FLIGHT_ARGUMENTS = ['r', 'h', 'c', 'v', 'vi', 'p', 'k', 'e', 'sense', 'target', 'strength', 'delay', 'limit'];
const QUESTION_FIELDS = ['sides', 'sense', 'target', 'upperTarget', 'strength', 'upperStrength', 'delay', 'limit'];
const SIDES = ['not asked', 'no conflict', 'conflict'];
const PAGE = 65536;

// What the functions are lent, in pages of their own: a result, and behind it a sheet or a flight and an answer's area. Of a sheet or a flight that is too long
// one byte or stretch more than is allowed is handed on, so that it is refused.
const RESULT_SIZE = 256;
const GIVEN_SIZE = 8448;
const AREA_SIZE = 26624;
const SHEET_READ = 8193;
const STRETCHES_READ = 65;
const ARGUMENT_READ = 4096;

const numbersOf = (q, fields) => fields.map((field) => BigInt(q[field]));

// Takes the fields of a result one after the other.
function reader(memory, address) {
    const view = new DataView(memory.buffer);
    let at = address;
    const take = (read) => {
        at += 8;
        return read(at - 8);
    };
    return {
        natural: () => take((place) => Number(view.getBigUint64(place, true))),
        whole: () => take((place) => Number(view.getBigInt64(place, true))),
        float: () => take((place) => view.getFloat64(place, true)),
    };
}

const readTime = (from) => ({ seconds: from.natural(), remainder: from.natural(), divisor: from.natural() });

function readVerdict(from) {
    return { kind: from.natural(), number: from.natural(), lower: readTime(from), upper: readTime(from) };
}

function readPiece(from) {
    const kind = from.natural();
    return { kind, from: readTime(from), square: from.float(), linear: from.float(), constant: from.float() };
}

function readDrawing(from) {
    const refusal = from.natural();
    const count = from.natural();
    return { refusal, pieces: [readPiece(from), readPiece(from), readPiece(from)].slice(0, count) };
}

function readPoint(from) {
    return { refusal: from.natural(), time: from.float(), height: from.float() };
}

function readUpperPoint(from) {
    const refusal = from.natural();
    return { refusal, asked: from.natural() === 1, time: from.float(), height: from.float() };
}

function readInstant(from) {
    const refusal = from.natural();
    const inReach = from.natural() === 1;
    return { refusal, inReach, inWindow: from.natural() === 1, lower: SIDES[from.natural()], upper: SIDES[from.natural()] };
}

function readFlight(from) {
    return { refusal: from.natural(), obeys: from.natural() === 1, inside: from.natural() === 1, second: from.natural() };
}

const readAnswered = (from) => ({ refusal: from.natural(), length: from.natural() });

function readQuestion(from) {
    const refusal = from.natural();
    return Object.fromEntries([['refusal', refusal], ...QUESTION_FIELDS.map((field) => [field, from.whole()])]);
}

// The program behind ./judge: its text for a sheet and, if one is named, an instant; what it says where that is none; and its status.
function programOf(exports) {
    const { memory } = exports;
    const text = (address, length) => new TextDecoder().decode(new Uint8Array(memory.buffer, address, Math.max(length, 0)));
    return (sheet, at) => {
        const argument = new TextEncoder().encode(`--at=${at}`).subarray(0, ARGUMENT_READ);
        const handed = sheet.subarray(0, SHEET_READ);
        const room = new Uint8Array(memory.buffer);
        room.set(handed, exports.words_sheet());
        room.set(argument, exports.words_argument());
        const length = exports.words(at === undefined ? -1 : argument.length, handed.length);
        return {
            text: text(exports.words_said(), length),
            error: text(exports.words_fault(), exports.words_fault_length()),
            status: exports.words_status(),
        };
    };
}

// Calls a function of the module that writes its result, and reads that.
function askOf(exports, result) {
    return (name, read, ...values) => {
        exports[name](result, ...values);
        return read(reader(exports.memory, result));
    };
}

function flightOf(memory, ask, given) {
    return (q, stretches) => {
        const numbers = stretches.slice(0, STRETCHES_READ).flat().map(BigInt);
        new BigInt64Array(memory.buffer, given, numbers.length).set(numbers);
        return ask('judge_flight', readFlight, ...numbersOf(q, FLIGHT_ARGUMENTS), given, BigInt(numbers.length));
    };
}

function answerOf(memory, ask, given, area) {
    return (sheet) => {
        const handed = sheet.subarray(0, SHEET_READ);
        new Uint8Array(memory.buffer).set(handed, given);
        const { refusal, length } = ask('answer_sheet_bytes', readAnswered, given, BigInt(handed.length), area, BigInt(AREA_SIZE));
        return { refusal, answer: new Uint8Array(memory.buffer, area, length).slice() };
    };
}

export async function loadJudge(wasmBytes) {
    const { instance } = await WebAssembly.instantiate(wasmBytes, {});
    const { exports } = instance;
    const { memory } = exports;
    const result = memory.grow(2) * PAGE;
    const given = result + RESULT_SIZE;
    const ask = askOf(exports, result);
    const question = (name, read) => (q, ...more) => ask(name, read, ...numbersOf(q, ARGUMENTS), ...more.map(BigInt));
    return {
        words: programOf(exports),
        answer: answerOf(memory, ask, given, given + GIVEN_SIZE),
        plain: question('judge_plain', readVerdict),
        at: question('judge_at', readInstant),
        drawing: question('screen_drawing', readDrawing),
        upperDrawing: question('upper_drawing', readDrawing),
        point: question('screen_point', readPoint),
        upperPoint: question('upper_point', readUpperPoint),
        flight: flightOf(memory, ask, given),
        codedQuestion: (code, v, limit) => ask('coded_question', readQuestion, ...[code, v, limit].map(BigInt)),
    };
}
