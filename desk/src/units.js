// Values with units, exactly: fractions of whole numbers, never floats.

// A knot is 1,852 m an hour and a foot 0.3048 m, so a knot is 115,750/1,143 grains/s; a foot is 60 grains; g is 1,932 grains/s².
const PER_GRAIN = fraction(1n, 1n);
const PER_FOOT = fraction(60n, 1n);
const PER_KNOT = fraction(115750n, 1143n);
const PER_G = fraction(1932n, 1n);

// Of each quantity its units, each with how many whole steps of the sheet it is: grains, grains/s, grains/s² or seconds. Values are written in the first.
const QUANTITIES = {
    length: { steps: 'grains', units: { ft: PER_FOOT, grains: PER_GRAIN } },
    'closing speed': {
        steps: 'grains/s',
        units: { 'ft/s': PER_FOOT, kt: PER_KNOT, 'ft/min': PER_GRAIN, 'grains/s': PER_GRAIN },
    },
    'vertical speed': {
        steps: 'grains/s',
        units: { 'ft/min': PER_GRAIN, 'ft/s': PER_FOOT, kt: PER_KNOT, 'grains/s': PER_GRAIN },
    },
    acceleration: {
        steps: 'grains/s2',
        units: { 'ft/s2': PER_FOOT, g: PER_G, 'grains/s2': PER_GRAIN },
    },
    time: { steps: 's', units: { s: fraction(1n, 1n) } },
};

function magnitude(n) {
    return n < 0n ? -n : n;
}

function commonDivisor(a, b) {
    return b === 0n ? a : commonDivisor(b, a % b);
}

// n/d in lowest terms, for d > 0.
function fraction(n, d) {
    const common = commonDivisor(magnitude(n), d);
    return { n: n / common, d: d / common };
}

function product(a, b) {
    return fraction(a.n * b.n, a.d * b.d);
}

// The greatest whole number that is not above.
function floor({ n, d }) {
    const cut = n / d;
    return n < 0n && cut * d !== n ? cut - 1n : cut;
}

// Of two that are equally near, the one that is farther from 0.
function nearest({ n, d }) {
    const cut = (2n * magnitude(n) + d) / (2n * d);
    return n < 0n ? -cut : cut;
}

// "8 1/3", "-1/3", "12"
function mixed({ n, d }) {
    const sign = n < 0n ? '-' : '';
    const whole = magnitude(n) / d;
    const rest = magnitude(n) % d;
    if (rest === 0n) {
        return `${sign}${whole}`;
    }
    return whole === 0n ? `${sign}${rest}/${d}` : `${sign}${whole} ${rest}/${d}`;
}

// A decimal of at most two places where that is exact, else a mixed fraction.
function decimal(value) {
    const { n, d } = product(value, fraction(100n, 1n));
    if (d !== 1n) {
        return mixed(value);
    }
    const sign = n < 0n ? '-' : '';
    const places = String(magnitude(n) % 100n).padStart(2, '0').replace(/0+$/, '');
    const whole = magnitude(n) / 100n;
    return places === '' ? `${sign}${whole}` : `${sign}${whole}.${places}`;
}

const WHOLE = String.raw`\d{1,3}(?:,\d{3})+|\d+`;
const NUMBER = new RegExp(String.raw`^(?:(${WHOLE})(?:\.(\d+))?|(?:(${WHOLE}) +)?(\d+)\/(\d+))$`);

const whole = (digits) => BigInt((digits ?? '0').replaceAll(',', ''));

// A number without its sign: 12, 5,000, 12.5, 1/3 or 8 1/3; null if it is none.
function readNumber(text) {
    const found = NUMBER.exec(text);
    if (!found) {
        return null;
    }
    const [, before, places = '', wholes, above, below] = found;
    if (before !== undefined) {
        return fraction(whole(before + places), 10n ** BigInt(places.length));
    }
    const divisor = BigInt(below);
    return divisor === 0n ? null : fraction(whole(wholes) * divisor + BigInt(above), divisor);
}

// "a", "a or b", "a, b or c"
export function listed(names, last = 'or') {
    return names.length === 1 ? names[0] : `${names.slice(0, -1).join(', ')} ${last} ${names.at(-1)}`;
}

// A unit as it may be written, as its name is here.
function unitName(text) {
    const name = text.toLowerCase().replace('²', '2').replace('^2', '2');
    return name.replace(/^grain(?!s)/, 'grains');
}

// "g/4" is a quarter of g.
function splitUnit(text) {
    const part = /^g\/(\d+)$/i.exec(text);
    if (part) {
        return { number: `1/${part[1]}`, unit: 'g' };
    }
    const found = /^([\d.,/ ]*\d) *([^\d\s.,/].*)?$/.exec(text);
    return found ? { number: found[1], unit: unitName(found[2] ?? '') } : null;
}

// "-1/3 ft" in its parts; the minus may be U+2212, and ~ asks for the nearest whole step.
function readParts(text) {
    const found = /^(~?) *([-+\u2212]?) *(.*)$/.exec(text.trim());
    const parts = splitUnit(found[3]);
    const size = parts && readNumber(parts.number);
    if (!size) {
        return null;
    }
    const negative = found[2] === '-' || found[2] === '\u2212';
    return {
        near: found[1] === '~',
        value: negative ? fraction(-size.n, size.d) : size,
        unit: parts.unit,
    };
}

// "166 2/3 ft/s (10000 grains/s)"
function bothWays(value, quantity) {
    const { steps } = QUANTITIES[quantity];
    const usual = writeValue(value, quantity);
    const plain = `${value} ${magnitude(value) === 1n ? steps.replace('grains', 'grain') : steps}`;
    return usual === plain ? plain : `${usual} (${plain})`;
}

function notWhole(text, exact, quantity) {
    const { steps } = QUANTITIES[quantity];
    const below = floor(exact);
    const unit = steps === 's' ? 'seconds' : 'grains';
    return (
        `${text} is ${mixed(exact)} ${steps}, no whole number of ${unit}; next to it are ${bothWays(below, quantity)} and ` +
        `${bothWays(below + 1n, quantity)}; ~${text} takes the nearest`
    );
}

function wrongUnit(unit) {
    if (unit === '') {
        return 'has no unit: it is in';
    }
    return / .*\d/.test(unit) ? 'is more than one number in' : 'has another unit: it is in';
}

// What a text says of a quantity, in whole steps: {value, note}, or {fault} where it says nothing or no whole number of them.
export function readValue(text, quantity) {
    const { steps, units } = QUANTITIES[quantity];
    const parts = readParts(text);
    if (!parts) {
        return { fault: `"${text}" is no number with a unit, such as 12, -12.5 or 8 1/3 ${Object.keys(units)[0]}` };
    }
    if (!Object.hasOwn(units, parts.unit)) {
        return { fault: `"${text}" ${wrongUnit(parts.unit)} ${listed(Object.keys(units))}` };
    }
    const exact = product(parts.value, units[parts.unit]);
    if (exact.d === 1n) {
        return { value: Number(exact.n), note: null };
    }
    if (!parts.near) {
        return { fault: notWhole(text, exact, quantity) };
    }
    const taken = nearest(exact);
    return { value: Number(taken), note: `${text} is ${mixed(exact)} ${steps}; ${bothWays(taken, quantity)} is taken` };
}

// A value of whole steps, as it is written.
export function writeValue(value, quantity) {
    const [unit, size] = Object.entries(QUANTITIES[quantity].units)[0];
    return `${decimal(fraction(BigInt(value) * size.d, size.n))} ${unit}`;
}
