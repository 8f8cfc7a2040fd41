// Times as the judge gives them: whole seconds, a remainder and its divisor.

const commonDivisor = (a, b) => (b === 0 ? a : commonDivisor(b, a % b));

// n/m of a second in lowest terms, for whole n >= 0 and m >= 1 below 2^53.
export function timeOf(n, m) {
    const common = commonDivisor(n, m);
    const divisor = m / common;
    const above = n / common;
    return { seconds: Math.floor(above / divisor), remainder: above % divisor, divisor };
}

// The time as n/m.
export function fractionOf({ seconds, remainder, divisor }) {
    return [BigInt(seconds) * BigInt(divisor) + BigInt(remainder), BigInt(divisor)];
}

// For drawing: the nearest float.
export function secondsOf({ seconds, remainder, divisor }) {
    return seconds + remainder / divisor;
}

// "24 3/8 s", as the judge's words have it.
export function timeText({ seconds, remainder, divisor }) {
    return remainder === 0 ? `${seconds} s` : `${seconds} ${remainder}/${divisor} s`;
}

// The time that a text of the judge's words begins with, or null where it begins with none.
export function leadingTime(text) {
    const found = /^(\d+)(?: (\d+)\/(\d+))? s /.exec(text);
    if (!found) {
        return null;
    }
    const [seconds, remainder, divisor] = [found[1], found[2] ?? '0', found[3] ?? '1'].map(Number);
    return { seconds, remainder, divisor };
}
