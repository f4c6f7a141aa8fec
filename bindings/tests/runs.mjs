// node runs.mjs PAGE [MODULE] < RUNS: what a page of docs/try says to scripts of `ndpctl run`, by the parts of its script that need no browser, and by its
// own module of a node or by another one. RUNS is JSON: pairs of the words of a command line and a script. What is printed is JSON too: the texts. That of
// a script with a line that can't be done ends with the number of the line and what is wrong with it.
import { readFileSync } from 'node:fs';

const [page, path] = process.argv.slice(2);
const [, script] = /<script type="module">\n(.*)\n<\/script>/s.exec(readFileSync(page, 'utf8'));
const parts = `${script.split('\n// The page: ')[0]}\nexport { answers, compiled, opened };`;
const { answers, compiled, opened } = await import(`data:text/javascript;base64,${Buffer.from(parts).toString('base64')}`);
const module = await (path ? WebAssembly.compile(readFileSync(path)) : compiled());

async function text([words, lines]) {
    const options = Object.fromEntries(words.flatMap((word, i) => (word.startsWith('--') ? [[word.slice(2), words[i + 1]]] : [])));
    const node = await opened(module, options), said = [];
    try {
        for (const { lines: some } of answers(node, lines)) said.push(...some);
    } catch (fault) {
        said.push(`line ${fault.number}: ${fault.message}`);
    }
    return said.map((it) => `${it}\n`).join('');
}

const texts = [];
for (const run of JSON.parse(readFileSync(0, 'utf8'))) texts.push(await text(run).catch((fault) => String(fault.stack)));
process.stdout.write(JSON.stringify(texts));
