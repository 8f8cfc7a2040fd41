// A test of the tests: with a fault planted in the page, the tests that should notice it fail, and so does the run.
import assert from 'node:assert/strict';
import { spawnSync } from 'node:child_process';
import { join } from 'node:path';
import { test } from 'node:test';
import { root } from '../page.mjs';
import { plants } from '../plants.mjs';

// Of each plant the file of the test that must notice it, and what that is called.
const NOTICED = {
    sentence: ['words', 'lesson: the words'],
    verdict: ['samples', 'M2 shows'],
    side: ['samples', 'M12 shows'],
    refusal: ['refusals', 'refusal 5, '],
    standing: ['instant', 'the instant 600 '],
    bytes: ['files', 'm1-m15: text and binary'],
    request: ['opening', 'it opens from disk'],
    console: ['opening', 'it opens from disk'],
    slow: ['speed', 'from the keystroke'],
    unnamed: ['readers', 'm1-m15: every control'],
    pale: ['contrast', 'light, 1440 wide'],
    wide: ['phone', '360 wide'],
    leak: ['print', "m1-m15: the candidates' copy"],
    drawn: ['picture', 'the path is drawn'],
    keys: ['keyboard', 'arrow keys'],
    note: ['typing', '~ takes'],
};

test('each plant has a test that must notice it', () => assert.deepEqual(Object.keys(NOTICED), Object.keys(plants)));

for (const [name, [file, wanted]] of Object.entries(NOTICED)) {
    test(`planted: ${name} is noticed by "${wanted.trim()}"`, () => {
        // NODE_TEST_CONTEXT would make the run report to this one.
        const { NODE_TEST_CONTEXT, ...env } = process.env;
        const path = join(root, `desk/tests/page/${file}.test.mjs`);
        const run = [join(root, 'desk/tests/run.mjs'), `--only=${wanted}`, path];
        const { status, stdout } = spawnSync(process.execPath, run, { env: { ...env, DESK_PLANT: name }, timeout: 120000 });
        const said = stdout.toString().trimEnd();
        assert.equal(status, 1, `not noticed: ${said}`);
        assert.ok(said.split('\n').some((line) => line.startsWith(`FAILED  ${wanted}`)), said);
    });
}
