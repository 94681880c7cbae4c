// The proved library as a WebAssembly module: a method for each call of childbus.h, on Uint8Arrays and numbers. A call copies its buffers
// into the module's memory and back what it may write; what it is given stays as it was.

const PROFILE_BYTES = 36;
const STATE_BYTES = 404;
const TALLY_BYTES = 10;
const LONGEST_FRAME = 256;
const WASM_PAGE = 65536;

const lent = bytes => ({ bytes });
const single = width => ({ width, bytes: new Uint8Array(width) });

class Library {
    constructor(exports) {
        this.exports = exports;
        this.heap = exports.__heap_base.value;
    }

    static async load(bytes) {
        const { instance } = await WebAssembly.instantiate(bytes, {});
        return new Library(instance.exports);
    }

    fresh() {
        const state = lent(new Uint8Array(STATE_BYTES));
        this.call('childbus_fresh', state);
        return this.left(state);
    }

    // A received frame, counted: number, reply, and the board after it.
    receive({ profile, state, tally, flash }, address, frame) {
        const [s, f, out, t, made] = [lent(state), lent(flash), lent(new Uint8Array(LONGEST_FRAME)), lent(tally), single(8)];
        const number = this.call('childbus_receive_tally', lent(profile), s, address, lent(frame), f, out, t, made);
        const reply = this.left(out).slice(0, this.result(made));
        return { number, reply, state: this.left(s), flash: this.left(f), tally: this.left(t) };
    }

    // An I²C read.
    read({ profile, state, flash }, address) {
        const [out, made] = [lent(new Uint8Array(LONGEST_FRAME)), single(8)];
        const number = this.call('childbus_read', lent(profile), lent(state), address, lent(flash), out, made);
        return { number, reply: this.left(out).slice(0, this.result(made)) };
    }

    encode(bus, longest, code, destination, a, b, data) {
        const [out, made] = [lent(new Uint8Array(LONGEST_FRAME)), single(8)];
        const number = this.call('childbus_encode', bus, longest, code, destination, a, b, lent(data), out, made);
        return { number, frame: this.left(out).slice(0, this.result(made)) };
    }

    general(bus, longest, reset) {
        const [out, made] = [lent(new Uint8Array(LONGEST_FRAME)), single(8)];
        const number = this.call('childbus_general', bus, longest, reset ? 1 : 0, out, made);
        return { number, frame: this.left(out).slice(0, this.result(made)) };
    }

    resetRunning(bus, longest, major, minor) {
        const [out, made] = [lent(new Uint8Array(LONGEST_FRAME)), single(8)];
        const number = this.call('childbus_reset_running', bus, longest, major, minor, out, made);
        return { number, frame: this.left(out).slice(0, this.result(made)) };
    }

    decode(bus, code, address, asked, reply) {
        const [status, start, len] = [single(4), single(8), single(8)];
        const number = this.call('childbus_decode', bus, code, address, asked, lent(reply), status, start, len);
        return { number, status: this.result(status), start: this.result(start), len: this.result(len) };
    }

    // Which of two reads decodes: 1, 2, or 0 for neither.
    twoReads(code, asked, first, second) {
        return this.call('childbus_two_reads', code, asked, lent(first), lent(second), single(8), single(8));
    }

    version(major, minor) {
        const [knownMajor, knownMinor] = [single(4), single(4)];
        const number = this.call('childbus_version', major, minor, knownMajor, knownMinor);
        return { number, major: this.result(knownMajor), minor: this.result(knownMinor) };
    }

    silence(profile, state, address, frame, number) {
        return this.call('childbus_silence', lent(profile), lent(state), address, lent(frame), number);
    }

    lost(profile, before, after, flash) {
        return this.call('childbus_lost', lent(profile), lent(before), lent(after), lent(flash));
    }

    erasedNothing(profile, frame, number, reply, after) {
        return this.call('childbus_erased_nothing', lent(profile), lent(frame), number, lent(reply), lent(after)) === 1;
    }

    uploadEnd(profile, image, earlier, flash) {
        return this.call('childbus_upload_end', lent(profile), lent(image), lent(earlier), lent(flash));
    }

    // The pages among the first `count` that are other ones in two copies of the flash.
    changedPages(profile, count, earlier, flash) {
        const [p, e, f] = [lent(profile), lent(earlier), lent(flash)];
        this.lend([p, e, f]);
        const changed = [];
        for (let page = 0; page < count; page++) {
            if (this.exports.childbus_page_changed(...given(p), page, ...given(e), ...given(f)) >>> 0 === 1) changed.push(page);
        }
        return changed;
    }

    // Lends the buffers, calls, and gives the answer.
    call(name, ...args) {
        this.lend(args.filter(arg => typeof arg !== 'number'));
        return this.exports[name](...args.flatMap(arg => typeof arg === 'number' ? [arg] : given(arg))) >>> 0;
    }

    // Puts the buffers one behind another, each at a multiple of 8.
    lend(buffers) {
        let end = this.heap + 8;
        for (const buffer of buffers) {
            buffer.at = Math.ceil(end / 8) * 8;
            end = buffer.at + buffer.bytes.length;
        }
        const missing = end - this.exports.memory.buffer.byteLength;
        if (missing > 0) this.exports.memory.grow(Math.ceil(missing / WASM_PAGE));
        const memory = new Uint8Array(this.exports.memory.buffer);
        for (const buffer of buffers) memory.set(buffer.bytes, buffer.at);
    }

    // What a call left in a buffer.
    left({ at, bytes }) {
        return new Uint8Array(this.exports.memory.buffer).slice(at, at + bytes.length);
    }

    // A single result: a length or a place, which fits a number, or one of 32 bits.
    result({ at, width }) {
        const view = new DataView(this.exports.memory.buffer);
        return width === 4 ? view.getUint32(at, true) : Number(view.getBigUint64(at, true));
    }
}

// What the export takes for a buffer: lengths have 64 bits; a single result has none.
function given({ at, bytes, width }) {
    return width ? [at] : [at, BigInt(bytes.length)];
}
