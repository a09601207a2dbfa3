/*
 * Stiltbasket for a web page on the phone: the eight functions of include/stiltbasket.h, over
 * the module phone.wasm that `tools/phone` makes. The header says what each does, what it refuses,
 * and what its numbers mean; here is only how JavaScript reaches them.
 *
 *     import { load } from "./stiltbasket.mjs";
 *     const stilt = await load(await (await fetch("phone.wasm")).arrayBuffer());
 *     const collection = new Uint8Array(49664);
 *     stilt.open(id, collection);
 *     const { number, place } = stilt.offer(collection, frame);
 *
 * Each function takes two Uint8Arrays, in the order of the header and without their lengths, and
 * writes into the one that the header's function writes into. A text may be a string. It answers an
 * object with all that can be read from the header's one number; which of it goes with which
 * function, the header says.
 */

/* The parts of the answer, as the header's inline functions read them. */
function parts(answer) {
    const byte = (place) => Number(BigInt.asUintN(8, answer >> BigInt(place)));
    return {
        number: byte(0), place: byte(8), count: Number(BigInt.asUintN(64, answer) >> 16n),
        total: byte(16), type: byte(24), held: byte(24), missing: byte(32), disputed: byte(40),
    };
}

/* `bytes` are those of phone.wasm. */
export async function load(bytes) {
    const { instance } = await WebAssembly.instantiate(bytes);
    const { memory, __heap_base: base } = instance.exports;

    /* The module's memory as it now is, with at least so many bytes. It grows by 64 KiB. */
    function memoryOf(length) {
        const lacking = length - memory.buffer.byteLength;
        if (lacking > 0)
            memory.grow(Math.ceil(lacking / 65536));
        return new Uint8Array(memory.buffer);
    }

    /*
     * The module sees its own memory alone, so both arrays are copied in, one behind the other, and
     * `written`, which is one of them, is copied back. A length is a BigInt, since it has 64 bits
     * in the module.
     */
    function call(called, first, second, written) {
        const at = base.value;
        const next = (at + first.length + 15) & ~15;
        const inside = memoryOf(next + second.length);
        inside.set(first, at);
        inside.set(second, next);
        const answer = called(at, BigInt(first.length), next, BigInt(second.length));
        const from = written === first ? at : next;
        written.set(inside.subarray(from, from + written.length));
        return parts(answer);
    }

    const { stilt_open, stilt_offer, stilt_join, stilt_finish } = instance.exports;
    const { stilt_status, stilt_frame, stilt_base64, stilt_typed } = instance.exports;
    /* A character that is not ASCII becomes bytes that no text may have. */
    const bytesOf = (text) => typeof text === "string" ? new TextEncoder().encode(text) : text;
    return {
        open: (id, collection) => call(stilt_open, id, collection, collection),
        offer: (collection, frame) => call(stilt_offer, collection, frame, collection),
        join: (into, from) => call(stilt_join, into, from, into),
        finish: (collection, out) => call(stilt_finish, collection, out, out),
        status: (collection, pages) => call(stilt_status, collection, pages, pages),
        frame: (frame, id) => call(stilt_frame, frame, id, id),
        base64: (text, out) => call(stilt_base64, bytesOf(text), out, out),
        typed: (text, out) => call(stilt_typed, bytesOf(text), out, out),
        exports: instance.exports, /* what the module has itself: for measuring */
    };
}
