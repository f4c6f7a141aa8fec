// node parts.mjs PAGE FUNCTION < CALLS: what a function of a page of docs/try returns, of the parts of its script that need no browser. CALLS is JSON: the
// arguments of each call, of which a list of numbers is bytes. What is printed is JSON too: the results.
import { readFileSync } from 'node:fs';

const [page, name] = process.argv.slice(2);
const [, script] = /<script type="module">\n(.*)\n<\/script>/s.exec(readFileSync(page, 'utf8'));
const parts = `${script.split('\n// The page: ')[0]}\nexport { ${name} };`;
const exported = await import(`data:text/javascript;base64,${Buffer.from(parts).toString('base64')}`);
const results = [];
const given = (word) => (Array.isArray(word) && word.every(Number.isInteger) ? Uint8Array.from(word) : word);
for (const words of JSON.parse(readFileSync(0, 'utf8'))) results.push(await exported[name](...words.map(given)));
process.stdout.write(JSON.stringify(results));
