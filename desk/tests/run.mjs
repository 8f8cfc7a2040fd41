// run.mjs [--only=NAME] FILE..: runs test files one after the other, a line a test; the last line is 'N passed, M failed', and the status 0 only
// if all pass. --only: of the tests in them those alone whose name has that text. A test's diagnostics, what it measured, stand under it.
import { run } from 'node:test';

const files = process.argv.slice(2).filter((word) => !word.startsWith('--only='));
const only = process.argv.filter((word) => word.startsWith('--only=')).map((word) => word.slice('--only='.length));
const testNamePatterns = only.length === 0 ? undefined : only.map((text) => new RegExp(text.replace(/[.*+?^${}()|[\]\\]/g, '\\$&')));
const counts = { passed: 0, failed: 0 };

function reason(error) {
    const cause = error?.cause ?? error;
    const text = String(cause?.message ?? cause).trimEnd();
    return text.split('\n').slice(0, 12).map((line) => `        ${line}`).join('\n');
}

// A suite is as good as its tests.
const isSuite = ({ details }) => details?.type === 'suite' || details?.error?.failureType === 'subtestsFailed';

// How long a test took, of one that took long.
const taken = ({ details }) => (details.duration_ms > 5000 ? ` (${Math.round(details.duration_ms / 1000)} s)` : '');

function passed(test) {
    if (isSuite(test) || test.skip !== undefined) return;
    // A file that reports nothing is reported itself.
    if (files.includes(test.name)) return failed({ ...test, details: { error: new Error('no test in it') } });
    counts.passed += 1;
    console.log(`ok      ${test.name}${taken(test)}`);
}

function failed(test) {
    if (isSuite(test)) return;
    counts.failed += 1;
    console.log(`FAILED  ${test.name}${taken(test)}\n${reason(test.details.error)}`);
}

const tests = run({ files, testNamePatterns, concurrency: 1, timeout: 600000 });
tests.on('test:pass', passed);
tests.on('test:fail', failed);
// The runner's own counts of files and tests are diagnostics too, and say nothing here.
tests.on('test:diagnostic', ({ message }) => { if (!/^(tests|suites|pass|fail|cancelled|skipped|todo|duration_ms) [\d.]+$/.test(message)) console.log(`        ${message}`); });
tests.on('test:stderr', ({ message }) => process.stderr.write(message));
tests.on('end', () => {
    console.log(`${counts.passed} passed, ${counts.failed} failed`);
    process.exitCode = counts.failed === 0 && counts.passed > 0 ? 0 : 1;
});
tests.resume();
