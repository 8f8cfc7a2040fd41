// The words of an answered sheet, taken apart, and what each question was asked of.

// Before any setting: document 01's puck and delay acceleration.
export const FIRST_PUCK = { p: 30000, k: 6000 };
export const FIRST_ACCELERATION = { e: 966 };

const numbered = (text, pattern) => {
    const found = pattern.exec(text);
    return found ? Number(found[1]) : null;
};

function newAnswer(number, text) {
    return {
        number: Number(number),
        text,
        refusal: numbered(text, /^refused, (\d+):/),
        meaning: [],
        named: null,
        record: null,
        byte: null,
        given: null,
        asked: null,
        warnings: [],
    };
}

// A line below an answer's first. What an instant is that was named starts with its number; no other line does.
function readDetail(answer, line) {
    const record = /^record (\d+) at byte (\d+), (.*)$/.exec(line);
    const asked = /^asked of the encounter in record (\d+): (.*)$/.exec(line);
    if (record) {
        answer.record = Number(record[1]);
        answer.byte = Number(record[2]);
        answer.given = record[3];
    } else if (asked) {
        answer.asked = { record: Number(asked[1]), text: asked[2] };
    } else if (line.startsWith('warning: ')) {
        answer.warnings.push(line.slice('warning: '.length));
    } else if (/^\d/.test(line)) {
        answer.named = line;
    } else {
        answer.meaning.push(line);
    }
}

function readRefused(lines) {
    const place = /^ {4}record (\d+) at byte (\d+)$/.exec(lines[1] ?? '');
    const text = lines[0].slice('sheet '.length);
    return {
        text,
        refusal: numbered(text, /^refused, (\d+):/),
        record: place ? Number(place[1]) : null,
        byte: place ? Number(place[2]) : null,
    };
}

export function answersOf(text) {
    const lines = text.split('\n').filter((line) => line !== '');
    if (lines.length > 0 && lines[0].startsWith('sheet refused')) {
        return { refused: readRefused(lines), answers: [], records: 0 };
    }
    const answers = [];
    let records = 0;
    for (const line of lines) {
        const first = /^answer (\d+): (.*)$/.exec(line);
        if (first) {
            answers.push(newAnswer(first[1], first[2]));
        } else if (line.startsWith('    ')) {
            readDetail(answers.at(-1), line.slice(4));
        } else {
            records = numbered(line, /^records (\d+), answers \d+$/);
        }
    }
    return { refused: null, answers, records };
}

// The question that a record asks an ownship of vertical speed v; the judge is asked once for each code, limit and speed.
function questionReader(judge) {
    const known = new Map();
    return ({ kind, values }, v) => {
        if (kind === 'free') {
            return values;
        }
        const key = `${values.code} ${values.limit} ${v}`;
        if (!known.has(key)) {
            const { refusal, ...question } = judge.codedQuestion(values.code, v, values.limit);
            known.set(key, refusal ? null : question);
        }
        return known.get(key);
    };
}

// Each question with its answer and its sixteen numbers; none where no encounter holds or the code asks nothing. An accepted setting has no answer.
export function askedOf(records, answers, judge) {
    const byRecord = new Map(answers.map((answer) => [answer.record, answer]));
    const questionOf = questionReader(judge);
    let encounter = null;
    let puck = FIRST_PUCK;
    let acceleration = FIRST_ACCELERATION;
    const asked = [];
    records.forEach((record, index) => {
        const answer = byRecord.get(index + 1);
        if (record.kind === 'coded' || record.kind === 'free') {
            const question = encounter && questionOf(record, encounter.v);
            // By assign: to spread four objects takes tens of times as long.
            const q = question ? Object.assign({}, encounter, puck, acceleration, question) : null;
            asked.push({ record: index + 1, answer: answer ?? null, q });
        } else if (answer) {
            return;
        } else if (record.kind === 'encounter') {
            encounter = record.values;
        } else if (record.kind === 'puck') {
            puck = record.values;
        } else if (record.kind === 'delay acceleration') {
            acceleration = record.values;
        }
    });
    return asked;
}
