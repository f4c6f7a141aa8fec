// node --experimental-wasm-memory64 host.mjs NODE.wasm MAC WORD < frames: the example examples/c/host.c over the module with a 64-bit memory. It prints
// the same lines.
import { readFileSync } from 'node:fs';

const [path, mac, word] = process.argv.slice(2);
const { instance } = await WebAssembly.instantiate(readFileSync(path), {});
const nd = instance.exports;
const bytes = new Uint8Array(nd.memory.buffer), view = new DataView(nd.memory.buffer);

// The places in the module's memory: a closed node, a structure, a frame, and then the pool to the end.
const slot = (nd.nd_free_memory() + 15n) / 16n * 16n, at = Number(slot) + 16, frame = at + 512, LONGEST = 65536, pool = frame + LONGEST;
nd.nd_give_pool(BigInt(pool), BigInt(bytes.length - pool));
const hex = (from, length) => Buffer.from(bytes.subarray(from, from + length)).toString('hex');
const address = (from) => new URL(`http://[${hex(from, 16).match(/..../g).join(':')}]`).hostname.slice(1, -1);
const number = (from) => view.getUint32(from, true), long = (from) => view.getBigUint64(from, true);
const kinds = ['', 'tx ', 'heard', 'drop', 'up ', 'duplicate', 'assigned', 'ended address', 'ended router', 'failed', 'lost', 'refused'];
const [DUPLICATE, FAILED, LOST] = [5, 9, 10];

function drain() {
    while (nd.nd_poll(slot, BigInt(at), BigInt(frame), BigInt(LONGEST)) === 0) {
        const length = Number(long(at + 8)), kind = number(at + 16), code = number(at + 20);
        const told = kind >= DUPLICATE && kind <= FAILED ? ` ${address(at + 32)}` : '';
        console.log(`${long(at)} ${kinds[kind]}${kind === LOST ? '' : hex(frame, length)}${code > 0 ? ` ${code}` : ''}${told}`);
    }
}

bytes.set(Buffer.from(mac.replaceAll(':', ''), 'hex'), at + 4); // nd_options: the address; draws: ND_DRAWS_WORD; the word
bytes[at + 11] = 1;
view.setBigUint64(at + 24, BigInt(word), true);
if (nd.nd_open(slot, BigInt(at), 64n) !== 0) throw new Error('not opened');
for (const line of readFileSync(0, 'latin1').split('\n').filter((it) => it !== '')) {
    const [now, digits = ''] = line.split(' '), received = Buffer.from(digits, 'hex').subarray(0, LONGEST);
    bytes.set(received, frame);
    const status = received.length > 0 ? nd.nd_receive(slot, BigInt(now), BigInt(frame), BigInt(received.length)) : nd.nd_pass(slot, BigInt(now));
    if (status < 0) console.error(`host: no event at ${now}`);
    drain();
}
const rows = (call) => {
    for (let i = 0n; nd[call](slot, nd.nd_last_moment(slot), i, BigInt(at)) === 0; i++)
        console.log(call === 'nd_address_at' ? `address ${address(at + 16)} ${number(at + 32)} ${long(at)} ${long(at + 8)}`
            : `router ${address(at + 8)} ${long(at)} ${number(at + 24)}`);
};
rows('nd_address_at');
rows('nd_router_at');
nd.nd_close(slot);
