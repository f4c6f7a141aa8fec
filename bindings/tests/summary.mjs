// node summary.mjs PAGE < FILE: what a page of docs/try sums up of the frames of a file, by the parts of its script that need no browser. What is
// printed is JSON: the lines by their headings.
import { readFileSync } from 'node:fs';

const [, script] = /<script type="module">\n(.*)\n<\/script>/s.exec(readFileSync(process.argv[2], 'utf8'));
const parts = `${script.split('\n// The page: ')[0]}\nexport { framesForSummary, packetsOfFile, summaryLines, summaryOf };`;
const page = await import(`data:text/javascript;base64,${Buffer.from(parts).toString('base64')}`);
const packets = page.packetsOfFile(Uint8Array.from(readFileSync(0)).buffer);
process.stdout.write(JSON.stringify(page.summaryLines(page.summaryOf(page.framesForSummary(packets)))));
