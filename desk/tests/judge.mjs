// The judge's module for the tests: the one that tools/wasm builds, or another that DESK_WASM names.

import fs from 'node:fs';
import { loadJudge } from '../src/judge.js';

const place = process.env.DESK_WASM ?? new URL('../../target/wasm/lifgorund.wasm', import.meta.url);

export const judge = await loadJudge(fs.readFileSync(place));
