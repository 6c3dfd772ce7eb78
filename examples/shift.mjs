// shift.mjs LIBRARY: answers the lines FILE NORTH EAST on standard input as examples/shift.c does, from JavaScript by tarnoklej.wasm.
// tarnoklej.json beside it has the refusals' names and the places of the structs' members.
// A pointer or a word is a BigInt, a byte a Number. A struct is written where a pointer says that comes before all other arguments.
// For Node.js, with --experimental-wasm-memory64 where it still has that.
import { readFileSync } from 'node:fs';

const libraryFile = process.argv[2];
if (libraryFile === undefined || libraryFile === '--help') {
    console.error('usage: shift.mjs tarnoklej.wasm <LINES, each FILE NORTH EAST (degrees for 1023, metres for 1024)');
    process.exit(2);
}
const { refusals, constants, structs } = JSON.parse(readFileSync(libraryFile.replace(/wasm$/, 'json'), 'utf8'));
const { instance: { exports: library } } = await WebAssembly.instantiate(readFileSync(libraryFile));

// The library keeps nothing: all memory from __heap_base on is the caller's.
try { library.memory.grow(1); } catch { library.memory.grow(1n); }
const answer = library.__heap_base.value;
const answerSize = Math.max(...Object.values(structs).map(({ size }) => size));
const message = answer + BigInt(answerSize);

const READ = {
    uint8_t: (view, at) => view.getUint8(at),
    uint16_t: (view, at) => view.getUint16(at, true),
    int64_t: (view, at) => view.getBigInt64(at, true),
    double: (view, at) => view.getFloat64(at, true),
};

// A member of the struct that the last call answered.
const member = (struct, name) => {
    const { type, offset } = structs[struct].members[name];
    return READ[type](new DataView(library.memory.buffer, Number(answer), answerSize), offset);
};

// The whole steps nearest to a number, halves away from zero.
const steps = (text, inOne) => {
    const value = Number(text) * inOne;
    return BigInt(Math.sign(value) * Math.round(Math.abs(value)));
};

const part = (title, name, inSeconds) => {
    const refusal = member('tarnoklej_shifts', `${name}_refusal`);
    const count = member('tarnoklej_shifts', `${name}_count`);
    const shift = member('tarnoklej_shifts', name);
    if (refusal !== 0) return `${title} refused ${refusals[refusal].name}`;
    return inSeconds ? `${title} ${count} ${shift.toFixed(5)} arc seconds` : `${title} ${count} ${shift.toFixed(4)} m`;
};

for (const line of readFileSync(0, 'utf8').split('\n').filter(line => line !== '')) {
    const [name, north, east] = line.split(' ');
    const bytes = readFileSync(name).subarray(0, constants.MOST_BYTES + 1);
    new Uint8Array(library.memory.buffer).set(bytes, Number(message));
    const length = BigInt(bytes.length);
    library.tarnoklej_read(answer, message, length);
    const degrees = member('tarnoklej_header', 'number') === 1023;
    const inOne = degrees ? 3600 * 10000 : 1000;
    library.tarnoklej_shifts_at(answer, message, length, steps(north, inOne), steps(east, inOne));
    console.log(part('north-south', 'north', degrees));
    console.log(part('east-west', 'east', degrees));
    console.log(part('height', 'height', false));
}
