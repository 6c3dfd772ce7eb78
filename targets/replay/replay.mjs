// replay.mjs LIBRARY REPLAY SEED COUNT: runs the replay, compiled to WebAssembly, over tarnoklej.wasm.
// The two modules share the library's memory. Each call of the library goes through JavaScript, words as BigInt and bytes as Number,
// as a page would make it; a byte that the library gives must be 0 to 255.
import { readFileSync } from 'node:fs';

const [libraryFile, replayFile, seed, count] = process.argv.slice(2);
const { instance: { exports } } = await WebAssembly.instantiate(readFileSync(libraryFile));
const memory = exports.memory;

const env = {
    memory,
    print_line: (at, length) => console.log(Buffer.from(memory.buffer, Number(at), Number(length)).toString()),
};
for (const [name, call] of Object.entries(exports).filter(([name]) => name.startsWith('tarnoklej_'))) {
    env[name] = (...words) => {
        const answer = call(...words);
        if (answer !== undefined && !(Number.isInteger(answer) && answer >= 0 && answer <= 255))
            throw new Error(`${name} gives ${answer}`);
        return answer;
    };
}

// The replay's memory begins behind the library's, see targets/check; some engines want the number of pages as a BigInt.
const pages = 64;
try { memory.grow(pages); } catch { memory.grow(BigInt(pages)); }
const { exports: { replay_all } } = (await WebAssembly.instantiate(readFileSync(replayFile), { env })).instance;
process.exitCode = replay_all(BigInt(seed), BigInt(count));
