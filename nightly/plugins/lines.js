#!/usr/bin/env node
// From the lines of tools/parsers/answer.js to the line protocol of nightly/README.md.
//
//     answer.js PARSER < ITEMS | lines.js PARSER
//
// Those parsers do not tell the kinds 3, 4, 5 and 16 apart: `name`. They have no `after`, and `extra` only for an element.
'use strict';
const readline = require('readline');

const [parser] = process.argv.slice(2);
const ELEMENT = 1;
const NAME_PART = 16;

function answer(said) {
  if (said === null) return 'skip not UTF-8\n';
  const { no, rows } = said[parser];
  if (no !== undefined) return `no ? ${no.replace(/\s+/g, ' ')}\n`;
  return rows === null ? 'ok ?\n' : `ok ${rows.length}\n${rows.map(row).join('')}`;
}

function row([kind, start, end, parent, paired, depth], number) {
  const kindWord = kind === NAME_PART ? 'name' : kind;
  const extra = kind === ELEMENT ? paired : '?';
  return `${number} ${kindWord} ${start} ${end} ${parent < 0 ? '-' : parent} ? ${extra} ${depth}\n`;
}

async function main() {
  for await (const line of readline.createInterface({ input: process.stdin })) {
    const text = answer(JSON.parse(line));
    if (!process.stdout.write(text)) await new Promise((drained) => process.stdout.once('drain', drained));
  }
}

main();
