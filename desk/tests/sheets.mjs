// The sheets that the repository holds.

import fs from 'node:fs';

const FOLDER = new URL('../../crates/sheets/data/', import.meta.url);

export const sheetNames = () => fs.readdirSync(FOLDER).sort();
export const sheetOf = (name) => new Uint8Array(fs.readFileSync(new URL(name, FOLDER)));
