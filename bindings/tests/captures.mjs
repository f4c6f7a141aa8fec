// node captures.mjs PAGE < FILE: what a page of docs/try finds in a file, a capture or a text, by the parts of its script that need no browser: the digits of
// each frame, or why it can't be read.
import { readFileSync } from 'node:fs';

const [, script] = /<script type="module">\n(.*)\n<\/script>/s.exec(readFileSync(process.argv[2], 'utf8'));
const parts = `${script.split('\n// The page: ')[0]}\nexport { hexOf, packetsOfFile };`;
const { hexOf, packetsOfFile } = await import(`data:text/javascript;base64,${Buffer.from(parts).toString('base64')}`);
for (const { frame } of packetsOfFile(Uint8Array.from(readFileSync(0)).buffer)) console.log(typeof frame === 'string' ? frame : hexOf(frame));
