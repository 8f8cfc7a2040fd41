// wasm.mjs MODULE: reads from standard input what the WebAssembly module is asked and must answer (src/stream.rs has the layout), asks it, and counts
// what differs. Status 0 only if in each part as many answers differ as are wrong in it, every function was called, and nothing is imported.

import fs from 'node:fs';

const FUNCTIONS = [null, 'judge_plain', 'screen_drawing', 'screen_point', 'judge_at', 'judge_flight', 'answer_sheet_bytes', 'words', 'upper_drawing', 'upper_point',
    'coded_question'];
const [PART, FLIGHT, SHEET, WORDS] = [0, 5, 6, 7];
// What the host asks of the words besides.
const OF_WORDS = ['words_argument', 'words_fault', 'words_fault_length', 'words_said', 'words_sheet', 'words_status'];

const module = new WebAssembly.Module(fs.readFileSync(process.argv[2]));
const judge = new WebAssembly.Instance(module).exports;

// ---- the memory that the judge is given: a struct for an answer, then blocks, each between bytes that must keep their values
const GUARD = 64, FILL = 0xa5, FILL_HALF = 0xa5a5a5a5 | 0;
const answerAt = judge.__heap_base.value;
const blocksAt = answerAt + 512;
judge.memory.grow(16);
const bytes = new Uint8Array(judge.memory.buffer);
const halves = new Int32Array(judge.memory.buffer);

/** Lays blocks into the memory, and gives their places. */
function lay(blocks) {
    let at = blocksAt;
    return blocks.map(block => {
        bytes.fill(FILL, at, at + GUARD);
        bytes.set(block, at + GUARD);
        const place = at + GUARD;
        at = (place + block.length + 7) & -8;
        bytes.fill(FILL, place + block.length, at + GUARD);
        return place;
    });
}

/** Whether the memory has these bytes between guards. */
function lies(block, place) {
    const end = place + block.length;
    return bytes.subarray(place - GUARD, place).every(byte => byte === FILL)
        && bytes.subarray(end, end + GUARD).every(byte => byte === FILL)
        && Buffer.compare(block, bytes.subarray(place, end)) === 0;
}

// ---- the stream
const given = new ArrayBuffer(1 << 23);
const [givenBytes, givenHalves, givenNumbers] = [new Uint8Array(given), new Int32Array(given), new BigInt64Array(given)];
let [from, to, isDone] = [0, 0, false];

/** Reads on until there are so many numbers, and says whether there are. */
function hasNumbers(count) {
    while (to - from < 8 * count && !isDone) {
        if (from > 1 << 22) {
            givenBytes.copyWithin(0, from, to);
            [from, to] = [0, to - from];
        }
        const read = fs.readSync(0, givenBytes, to, given.byteLength - to);
        isDone = read === 0;
        to += read;
    }
    return to - from >= 8 * count;
}

const number = i => givenHalves[2 * i];

/** The blocks of bytes from a place on: how many are given, how many written, and these. */
function blocksFrom(at) {
    const counts = [number(at), number(at + 1)];
    at += 2;
    return counts.map(count => Array.from({length: count}, () => {
        const length = number(at), start = 8 * (at + 1);
        at += 1 + Math.ceil(length / 8);
        return givenBytes.subarray(start, start + length);
    }));
}

// ---- the calls
/** A function that hands on so many numbers of the stream. */
function caller(count) {
    const numbers = Array.from({length: count}, (_, i) => `, numbers[at + ${i}]`).join('');
    return new Function('of', 'to', 'numbers', 'at', `of(to${numbers})`);
}
const callers = Array.from({length: 24}, (_, count) => caller(count));

function cleared(count) {
    halves.fill(FILL_HALF, answerAt >> 2, (answerAt >> 2) + 2 * count + 2);
}

/** Whether the struct has these numbers, and nothing was written behind it. */
function answered(at, count) {
    const place = answerAt >> 2;
    for (let i = 0; i < 2 * count; i++) if (halves[place + i] !== givenHalves[2 * at + i]) return false;
    return halves[place + 2 * count] === FILL_HALF && halves[place + 2 * count + 1] === FILL_HALF;
}

function numbersHold(name, at, count, answer) {
    cleared(answer);
    callers[count](judge[name], answerAt, givenNumbers, at);
    return answered(at + count, answer);
}

function flightHolds(at, count, answer, [[flight]]) {
    const [place] = lay([flight]);
    cleared(answer);
    judge.judge_flight(answerAt, ...givenNumbers.subarray(at, at + count), place, BigInt(flight.length / 8));
    return answered(at + count, answer) && lies(flight, place);
}

function sheetHolds(at, count, answer, [[sheet, before], [after]]) {
    const places = lay([sheet, before]);
    cleared(answer);
    judge.answer_sheet_bytes(answerAt, places[0], BigInt(sheet.length), places[1], BigInt(before.length));
    return answered(at, answer) && lies(sheet, places[0]) && lies(after, places[1]);
}

function wordsHold(at, [[sheet, argument], [said, fault]]) {
    bytes.set(sheet, judge.words_sheet());
    if (argument) bytes.set(argument, judge.words_argument());
    const length = judge.words(argument ? argument.length : -1, sheet.length);
    longest = Math.max(longest, length);
    const text = (place, size) => bytes.subarray(place, place + size);
    return length === said.length
        && Buffer.compare(text(judge.words_said(), length), said) === 0
        && Buffer.compare(text(judge.words_fault(), judge.words_fault_length()), fault) === 0
        && judge.words_status() === number(at);
}

/** Whether the answer is the wanted one. A trap ends the run: the module's stack is no longer what it was. */
function holds(kind, at, count, answer, blocks) {
    try {
        switch (kind) {
        case FLIGHT: return flightHolds(at, count, answer, blocks);
        case SHEET: return sheetHolds(at, count, answer, blocks);
        case WORDS: return wordsHold(at, blocks);
        default: return numbersHold(FUNCTIONS[kind], at, count, answer);
        }
    } catch (error) {
        console.log(describe(kind, at, count, answer, blocks));
        throw error;
    }
}

// ---- the run
const counts = FUNCTIONS.map(() => 0);
let [part, faults, longest] = [null, 0, 0];

function fault(text) {
    faults++;
    if (faults <= 10) console.log(text);
}

function endPart() {
    if (part && part.differing !== part.wrong) fault(`${part.name}: ${part.differing} of ${part.items} answers differ, not ${part.wrong}`);
}

function describe(kind, at, count, answer, blocks) {
    const given = (blocks ? blocks[0] : []).map(block => `\n  given  ${Buffer.from(block).toString('hex').slice(0, 1000)}`).join('');
    const numbers = (from, n) => givenNumbers.slice(from, from + n).join(' ');
    const found = new BigInt64Array(judge.memory.buffer, answerAt, answer).join(' ');
    return `${part.name}, item ${part.items}: ${FUNCTIONS[kind]}(${numbers(at, count)})${given}\n  wanted ${numbers(at + count, answer)}\n  found  ${found}`;
}

function item() {
    const head = from >> 3, [length, kind, count, answer] = [0, 1, 2, 3].map(i => number(head + i));
    const at = head + 4, hasBlocks = length > 3 + count + answer;
    const blocks = hasBlocks ? blocksFrom(at + count + answer) : null;
    if (kind === PART) {
        endPart();
        part = {name: Buffer.from(blocks[0][0]).toString(), wrong: number(at), items: 0, differing: 0};
        return;
    }
    counts[kind]++;
    part.items++;
    if (holds(kind, at, count, answer, blocks)) return;
    part.differing++;
    if (part.differing > part.wrong) fault(describe(kind, at, count, answer, blocks));
}

while (hasNumbers(1)) {
    if (!hasNumbers(1 + number(from >> 3))) {
        fault('the stream ends within an item');
        break;
    }
    item();
    from += 8 * (1 + number(from >> 3));
}
endPart();

if (WebAssembly.Module.imports(module).length > 0) fault('something is imported');
for (const lengths of [[-2, 0], [4097, 0], [-1, -1], [-1, 8194]]) if (judge.words(...lengths) !== -1) fault(`words(${lengths}) is no refusal`);
for (const {name, kind} of WebAssembly.Module.exports(module)) {
    const isCompared = counts[FUNCTIONS.indexOf(name)] > 0 || OF_WORDS.includes(name);
    if (kind === 'function' && !isCompared) fault(`${name} was never called`);
}
FUNCTIONS.forEach((name, kind) => name && console.log(`${String(counts[kind]).padStart(12)}  ${name}`));
console.log(`longest words ${longest} bytes; ${faults} differences`);
process.exitCode = faults > 0 || counts.slice(1).includes(0) ? 1 : 0;
