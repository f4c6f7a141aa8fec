// The proved code that tells what a frame is: the function nd_tell of crates/nd_tell_c, as a module of WebAssembly. The module has no import.

const TELL_MODULE = '@TELL@';
const LONGEST = 65589;
const ROLES = { host: 0, router: 1, either: 2 };

// Returns a module, which is packed by gzip.
async function unpacked(text) {
    const packed = new Blob([Uint8Array.from(atob(text), (it) => it.charCodeAt(0))]).stream();
    return new Response(packed.pipeThrough(new DecompressionStream('gzip'))).arrayBuffer();
}

async function loaded() {
    const module = await unpacked(TELL_MODULE);
    const { instance } = await WebAssembly.instantiate(module, {});
    const nd = instance.exports, bytes = new Uint8Array(nd.memory.buffer);
    // The places in the module's memory: a frame, the room for its line, and then the pool to the end.
    const frameAt = (Number(nd.nd_free_memory()) + 15) & ~15, roomAt = frameAt + 65600, room = 327680, pool = roomAt + room;
    nd.nd_give_pool(BigInt(pool), BigInt(bytes.length - pool));
    return { nd, bytes, frameAt, roomAt, room };
}

const proved = await loaded();

// Returns the line of a frame, or null if it is too long for this page.
function lineOf(frame, role) {
    if (frame.length > LONGEST) return null;
    const { nd, bytes, frameAt, roomAt, room } = proved;
    bytes.set(frame, frameAt);
    const length = Number(nd.nd_tell(BigInt(frameAt), BigInt(frame.length), ROLES[role], BigInt(roomAt), BigInt(room)));
    return length === 0 || length > room ? null : new TextDecoder().decode(bytes.subarray(roomAt, roomAt + length - 1));
}
