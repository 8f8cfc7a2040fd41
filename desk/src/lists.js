// How many entries two lists have in common at the start, and then at the end.
export function common(before, after) {
    const most = Math.min(before.length, after.length);
    let start = 0;
    while (start < most && before[start] === after[start]) {
        start += 1;
    }
    let end = 0;
    while (end < most - start && before.at(-1 - end) === after.at(-1 - end)) {
        end += 1;
    }
    return { start, end };
}
