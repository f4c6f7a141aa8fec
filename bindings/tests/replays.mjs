// node replays.mjs PAGE < CAPTURES: what the host of a page of docs/try does with captures, by the parts of its script that need no browser. CAPTURES is
// JSON: of each the options of the host, the file in base64, how long the host starts before the first frame, and the moment to which it runs. What is
// printed is JSON too: the texts, as `ndpctl run` has them, or what is wrong with a capture.
import { readFileSync } from 'node:fs';

const [, script] = /<script type="module">\n(.*)\n<\/script>/s.exec(readFileSync(process.argv[2], 'utf8'));
const parts = `${script.split('\n// The page: ')[0]}\nexport { compiled, opened, packetsOfFile, replayed, timedFrames };`;
const { compiled, opened, packetsOfFile, replayed, timedFrames } = await import(`data:text/javascript;base64,${Buffer.from(parts).toString('base64')}`);
const module = await compiled(), texts = [];

async function text([options, file, before, end]) {
    const frames = timedFrames(packetsOfFile(Uint8Array.from(Buffer.from(file, 'base64')).buffer), before);
    const events = replayed(await opened(module, { role: 'host', ...options }), options.mac, frames, end);
    return events.filter((it) => it.text).map((it) => `${it.at} ${it.text}\n`).join('');
}

for (const capture of JSON.parse(readFileSync(0, 'utf8'))) texts.push(await text(capture).catch((fault) => fault.message));
process.stdout.write(JSON.stringify(texts));
