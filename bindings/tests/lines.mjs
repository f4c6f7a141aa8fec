// node lines.mjs PAGE ROLE < frames: the lines that a page of docs/try writes for frames, one a line, by the parts of its script that need no browser.
import { readFileSync } from 'node:fs';

const [path, role] = process.argv.slice(2);
const [, script] = /<script type="module">\n(.*)\n<\/script>/s.exec(readFileSync(path, 'utf8'));
const parts = `${script.split('\n// The page: ')[0]}\nexport { lineOf, framesOfText };`;
const { lineOf, framesOfText } = await import(`data:text/javascript;base64,${Buffer.from(parts).toString('base64')}`);
for (const line of readFileSync(0, 'latin1').split('\n').slice(0, -1)) console.log(lineOf(framesOfText(line)[0] ?? new Uint8Array(0), role));
