// node replay.js MODULE.wasm < RECORDING
// Makes the calls of a recording (host/model/src/record.rs says its form) on the library compiled for WebAssembly, and compares all that
// they answer and leave, the bytes beside what they are lent too. A call with a number of over 32 bits cannot be made here; it is counted.
// Exit status 0 only if nothing differs.
'use strict';
const fs = require('fs');

const EDGE = 64, EDGE_BYTE = 0xA7, UNSET = 0xAC1ED00D, PAGE = 65536;
// Where each place of a recording stands in the module's memory, behind what it has of its own: two images, then the small ones.
const ROOM = [2 << 20, 2 << 20, 4096, 4096, 4096], MOST_NUMBERS = 16;

function stop(why) {
    console.error(`replay: ${why}`);
    process.exit(1);
}

const [, , file] = process.argv;
if (!file) stop('node replay.js MODULE.wasm < RECORDING');
const module_ = new WebAssembly.Module(fs.readFileSync(file));
const imports = WebAssembly.Module.imports(module_);
if (imports.length) stop(`the module imports ${imports.map((i) => i.name).join(', ')}`);
const library = new WebAssembly.Instance(module_, {}).exports;

const own = library.memory.buffer.byteLength;
library.memory.grow(Math.ceil((ROOM.reduce((a, b) => a + b) + 4 * MOST_NUMBERS + PAGE) / PAGE));
const memory = Buffer.from(library.memory.buffer);
let next = own;
const start = ROOM.map((room) => (next += room) - room);
const numbers = next;

const recording = fs.readFileSync(0);
let at = 0;
const byte = () => recording[at++];
const u32 = () => recording.readUInt32LE((at += 4) - 4);
const u64 = () => recording.readBigUInt64LE((at += 8) - 8);
const bytes = (n) => recording.subarray(at, (at += n));

// A place of the memory: an edge, the bytes lent, an edge.
const places = ROOM.map(() => Buffer.alloc(0));
function changed(bytesNow) {
    for (let n = u32(); n > 0; n--) {
        const from = u32(), length = u32();
        bytes(length).copy(bytesNow, from);
    }
}

let calls = 0, made = 0;
const seen = new Map();
while (at < recording.length) {
    const name = bytes(byte()).toString('latin1');
    const call = library[name];
    if (!call) stop(`the module has no ${name}`);
    const given = [], slices = [], outgoing = [];
    let fits = true;
    for (let n = byte(); n > 0; n--) {
        const kind = String.fromCharCode(byte());
        if (kind === 'n') {
            const value = u64();
            fits = fits && value <= 0xFFFFFFFFn;
            given.push(Number(value & 0xFFFFFFFFn) | 0);
        } else if (kind === 'o') {
            const where = numbers + 4 * outgoing.length;
            outgoing.push([where, u64()]);
            memory.writeUInt32LE(UNSET, where);
            given.push(where);
        } else if (kind === 's') {
            const place = byte(), length = u32();
            if (length + 2 * EDGE > ROOM[place]) stop(`call ${calls}: no room for ${length} bytes`);
            if (places[place].length !== length) places[place] = Buffer.alloc(length);
            changed(places[place]);
            const from = start[place];
            memory.fill(EDGE_BYTE, from, from + EDGE).fill(EDGE_BYTE, from + EDGE + length, from + length + 2 * EDGE);
            places[place].copy(memory, from + EDGE);
            changed(places[place]);
            slices.push([place, from, length]);
            given.push(from + EDGE, length);
        } else stop(`call ${calls}: not a recording`);
    }
    const answer = byte();
    calls++;
    if (!fits) continue;
    const wrong = (what) => stop(`call ${calls - 1}, ${name}: ${what}`);
    let answered;
    try {
        answered = call(...given) & 0xFF;
    } catch (why) {
        wrong(`${why}, where the model answers ${answer}`);
    }
    if (answered !== answer) wrong(`answers ${answered}, the model ${answer}`);
    for (const [where, value] of outgoing) {
        const number = memory.readUInt32LE(where);
        if (BigInt(number) !== value) wrong(`an outgoing number is ${number}, the model's ${value}`);
    }
    for (const [place, from, length] of slices) {
        const there = memory.subarray(from + EDGE, from + EDGE + length);
        if (there.compare(places[place])) {
            const unlike = there.findIndex((value, i) => value !== places[place][i]);
            wrong(`byte ${unlike} of place ${place} is ${there[unlike]}, the model's ${places[place][unlike]}`);
        }
        for (let i = 0; i < EDGE; i++)
            if (memory[from + i] !== EDGE_BYTE || memory[from + EDGE + length + i] !== EDGE_BYTE) wrong(`wrote beside place ${place}`);
    }
    made++;
    seen.set(name, (seen.get(name) || 0) + 1);
}
const exported = Object.keys(library).filter((name) => name.startsWith('genie_'));
const missed = exported.filter((name) => !seen.has(name));
if (missed.length || !made) stop(`never called: ${missed.join(', ') || 'anything'}`);
const told = `${made} calls of ${exported.length} functions answer and leave what the model does`;
console.log(`WebAssembly: ${told}; ${calls - made} more have numbers of over 32 bits`);
