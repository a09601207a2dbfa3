/*
 * Answers the calls of tests/phone/wasm.c: reads each from standard input, makes it with
 * include/stiltbasket.mjs on target/phone/phone.wasm, and writes what it gave to standard output.
 *
 * A C test sees its own memory alone, so what it would find in the margins is looked for here: no
 * byte of the module's memory may change but those of the slice that the function may write (R1.2),
 * and its stack. How deep that went is found by painting it before the call.
 */
import { readFileSync, readSync, writeSync } from "node:fs";
import { load } from "../../include/stiltbasket.mjs";

const root = new URL("../../", import.meta.url);
const stilt = await load(readFileSync(new URL("target/phone/phone.wasm", root)));
const { memory, __heap_base: base, __stack_pointer: top } = stilt.exports;
const inside = () => Buffer.from(memory.buffer);
/* What the linker put between the stack and the heap; today there is none. */
const constants = Buffer.from(inside().subarray(top.value, base.value));

let paint = 0xA5;

/* The functions in the order of the header, and which of its two slices each may write. */
const functions = [
    [stilt.open, 1], [stilt.offer, 0], [stilt.join, 0], [stilt.finish, 1],
    [stilt.status, 1], [stilt.frame, 1], [(text, out) => stilt.base64(asString(text), out), 1],
    [(text, out) => stilt.typed(asString(text), out), 1],
];

/* A page has its text as a string; one with other bytes than ASCII cannot be such a string. */
function asString(bytes) {
    return bytes.every((byte) => byte < 0x80) ? bytes.latin1Slice() : bytes;
}

function give_up(why) {
    console.error(`serve.mjs: ${why}`);
    process.exit(1);
}

function read(length) {
    const bytes = Buffer.alloc(length);
    for (let at = 0; at < length;) {
        const got = readSync(0, bytes, at, length - at);
        if (got === 0)
            process.exit(0);
        at += got;
    }
    return bytes;
}

function write(bytes) {
    for (let at = 0; at < bytes.length;)
        at += writeSync(1, bytes, at);
}

/* The stack grows down, from `top`: the lowest word that is no longer as it was painted. */
function depth() {
    const words = new Uint32Array(memory.buffer, 0, top.value / 4);
    const changed = words.findIndex((word) => word !== paint * 0x01010101);
    return changed < 0 ? 0 : top.value - 4 * changed;
}

/* The slices lie behind `base`, the second at the next multiple of 16. */
function only_slices(painted, first, second) {
    const next = (base.value + first.length + 15) & ~15;
    const wanted = Buffer.alloc(Math.max(painted, next + second.length), paint);
    constants.copy(wanted, top.value);
    first.copy(wanted, base.value);
    second.copy(wanted, next);
    if (wanted.compare(inside(), top.value, painted, top.value, painted) !== 0)
        give_up("a byte changed that was lent to be read, or was not lent");
}

for (;;) {
    const head = read(24);
    const [which, ...lengths] = [0, 8, 16].map((at) => Number(head.readBigUInt64LE(at)));
    const [first, second] = lengths.map(read);
    /* Two paints in turn, since a byte may be written with the value of one. */
    paint ^= 0xFF;
    const painted = memory.buffer.byteLength;
    inside().fill(paint, 0, top.value).fill(paint, base.value);
    const [called, written] = functions[which];
    const answer = called(first, second);
    only_slices(painted, first, second);
    const { number, place, count, total, type, held, missing, disputed } = answer;
    const parts = [number, place, count, total, type, held, missing, disputed, depth()];
    write(Buffer.concat([Buffer.from(BigUint64Array.from(parts, BigInt).buffer),
        written ? second : first]));
}
