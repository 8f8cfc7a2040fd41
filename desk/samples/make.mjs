#!/usr/bin/env node
// Writes the binary sheet of each sample's text, NAME.sheet of NAME.txt. With --check it writes nothing, and its status is 1 if one is not up to date.

import fs from 'node:fs';
import { readText } from '../src/text.js';

const FOLDER = new URL('./', import.meta.url);
const check = process.argv[2] === '--check';

function sheetOf(name) {
    const { lines, bytes, whole } = readText(fs.readFileSync(new URL(name, FOLDER), 'utf8'));
    if (!whole) {
        const { number, faults } = lines.find((line) => line.faults.length > 0);
        throw new Error(`${name}, line ${number}: ${faults[0].text}`);
    }
    return Buffer.from(bytes);
}

const isUpToDate = (place, sheet) => fs.existsSync(place) && fs.readFileSync(place).equals(sheet);

for (const name of fs.readdirSync(FOLDER).filter((one) => one.endsWith('.txt'))) {
    const sheet = sheetOf(name);
    const place = new URL(name.replace(/\.txt$/, '.sheet'), FOLDER);
    if (!check) {
        fs.writeFileSync(place, sheet);
    } else if (!isUpToDate(place, sheet)) {
        console.error(`${place.pathname} is not up to date: desk/samples/make.mjs writes it`);
        process.exitCode = 1;
    }
}
