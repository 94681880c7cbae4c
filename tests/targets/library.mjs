// The library as a WebAssembly module: a method for each call of childbus.h, on Uint8Arrays and numbers. It imports nothing,
// and runs in node and in browsers.
//
//   const library = await load(bytes of libchildbus-wasm32.wasm)
//   const state = new Uint8Array(STATE_BYTES)
//   library.fresh(state)
//   const { number, made } = library.receive(profile, state, address, frame, flash, out)
//
// A call copies its buffers into the module's memory, at an alignment that changes from call to call and with guard bytes around
// them, and copies back those that childbus.h lets it write. It throws if a guard byte changed, or a buffer that is only read.

export const PROFILE_BYTES = 36
export const STATE_BYTES = 404
export const TALLY_BYTES = 10

const GUARD = 16
const GUARD_BYTE = 0x5c
const PAINT = 0xc5c5c5c5
// What single results hold before a call, in every byte.
const UNSET = 0x77
const PAGE = 65536
// The stack is the first bytes of the memory; it grows down from here (scripts/firmware).
const STACK = 8192

// The arguments of a call: numbers, buffers that are only read or written too, and places of single results.
const read = bytes => ({ bytes, written: false })
const written = bytes => ({ bytes, written: true })
const result = width => ({ bytes: new Uint8Array(width).fill(UNSET), written: true, width })

export async function load(wasm) {
    const { instance } = await WebAssembly.instantiate(wasm, {})
    return new Library(instance.exports)
}

export class Library {
    #exports
    #heap
    #random = 1
    #view
    #stack
    // The deepest use of the stack in bytes, by the name of the call.
    deepest = new Map()

    constructor(exports) {
        this.#exports = exports
        this.#heap = exports.__heap_base.value
        if (this.#heap < STACK) throw new Error(`the heap begins at ${this.#heap}, inside of the stack`)
        this.#views()
    }

    fresh(state) {
        const [number] = this.#call('childbus_fresh', written(state))
        return { number }
    }

    receive(profile, state, address, frame, flash, out) {
        const [number, made] = this.#call('childbus_receive', read(profile), written(state), address, read(frame), written(flash),
            written(out), result(8))
        return { number, made }
    }

    receiveTally(profile, state, address, frame, flash, out, tally) {
        const [number, made] = this.#call('childbus_receive_tally', read(profile), written(state), address, read(frame),
            written(flash), written(out), written(tally), result(8))
        return { number, made }
    }

    read(profile, state, address, flash, out) {
        const [number, made] = this.#call('childbus_read', read(profile), read(state), address, read(flash), written(out), result(8))
        return { number, made }
    }

    encode(bus, longest, code, destination, a, b, data, out) {
        const [number, made] = this.#call('childbus_encode', bus, longest, code, destination, a, b, read(data), written(out), result(8))
        return { number, made }
    }

    general(bus, longest, reset, out) {
        const [number, made] = this.#call('childbus_general', bus, longest, reset, written(out), result(8))
        return { number, made }
    }

    decode(bus, code, address, asked, reply) {
        const [number, status, start, len] = this.#call('childbus_decode', bus, code, address, asked, read(reply), result(4), result(8),
            result(8))
        return { number, status, start, len }
    }

    twoReads(code, asked, first, second) {
        const [which, start, len] = this.#call('childbus_two_reads', code, asked, read(first), read(second), result(8), result(8))
        return { which, start, len }
    }

    version(major, minor) {
        const [number, knownMajor, knownMinor] = this.#call('childbus_version', major, minor, result(4), result(4))
        return { number, major: knownMajor, minor: knownMinor }
    }

    resetRunning(bus, longest, major, minor, out) {
        const [number, made] = this.#call('childbus_reset_running', bus, longest, major, minor, written(out), result(8))
        return { number, made }
    }

    // What must not be missed: each gives its answer alone.
    silence(profile, state, address, frame, number) {
        return this.#call('childbus_silence', read(profile), read(state), address, read(frame), number)[0]
    }

    lost(profile, before, after, flash) {
        return this.#call('childbus_lost', read(profile), read(before), read(after), read(flash))[0]
    }

    erasedNothing(profile, frame, number, reply, after) {
        return this.#call('childbus_erased_nothing', read(profile), read(frame), number, read(reply), read(after))[0]
    }

    uploadEnd(profile, image, earlier, flash) {
        return this.#call('childbus_upload_end', read(profile), read(image), read(earlier), read(flash))[0]
    }

    pageChanged(profile, page, earlier, flash) {
        return this.#call('childbus_page_changed', read(profile), page, read(earlier), read(flash))[0]
    }

    // The answer, then the single results.
    #call(name, ...args) {
        const buffers = args.filter(arg => typeof arg !== 'number')
        this.#lend(buffers)
        this.#stack.fill(PAINT)
        const answer = this.#exports[name](...args.flatMap(parameters)) >>> 0
        if (this.#view.buffer !== this.#exports.memory.buffer) throw new Error(`${name} grew the memory`)
        this.#measure(name)
        this.#takeBack(name, buffers)
        return [answer, ...buffers.filter(buffer => buffer.width).map(single)]
    }

    #lend(buffers) {
        let end = this.#heap
        for (const buffer of buffers) {
            buffer.from = end
            end = this.#place(buffer, end + GUARD)
        }
        this.#grow(end + GUARD)
        this.#view.fill(GUARD_BYTE, this.#heap, end + GUARD)
        for (const buffer of buffers) this.#view.set(buffer.bytes, buffer.at)
    }

    // Single results are aligned; every other buffer may be at any address. The buffer's end.
    #place(buffer, at) {
        buffer.at = buffer.width ? Math.ceil(at / buffer.width) * buffer.width : at + this.#shift()
        return buffer.at + buffer.bytes.length
    }

    // 0 to 7, another one for each buffer.
    #shift() {
        this.#random = (Math.imul(this.#random, 1664525) + 1013904223) >>> 0
        return this.#random >>> 29
    }

    #grow(end) {
        const missing = end - this.#view.length
        if (missing <= 0) return
        this.#exports.memory.grow(Math.ceil(missing / PAGE))
        this.#views()
    }

    #views() {
        this.#view = new Uint8Array(this.#exports.memory.buffer)
        this.#stack = new Uint32Array(this.#exports.memory.buffer, 0, STACK / 4)
    }

    #measure(name) {
        const first = this.#stack.findIndex(word => word !== PAINT)
        const used = first < 0 ? 0 : STACK - 4 * first
        this.deepest.set(name, Math.max(used, this.deepest.get(name) ?? 0))
    }

    #takeBack(name, buffers) {
        let end = this.#heap
        for (const buffer of buffers) {
            this.#guarded(name, buffer.from, buffer.at)
            end = buffer.at + buffer.bytes.length
            this.#guarded(name, end, end + GUARD)
            const now = this.#view.subarray(buffer.at, end)
            if (buffer.written) buffer.bytes.set(now)
            else if (!same(buffer.bytes, now)) throw new Error(`${name} changed a buffer that is only read`)
        }
    }

    #guarded(name, from, end) {
        for (let at = from; at < end; at++) {
            if (this.#view[at] !== GUARD_BYTE) throw new Error(`${name} wrote outside of its buffers`)
        }
    }
}

// What the export takes for an argument: lengths are 64 bits wide and go as BigInt, a single result has none.
function parameters(arg) {
    if (typeof arg === 'number') return [arg]
    return arg.width ? [arg.at] : [arg.at, BigInt(arg.bytes.length)]
}

// A single result: any of 64 bits is a length or a place, and fits a number.
function single({ bytes, width }) {
    const view = new DataView(bytes.buffer)
    return width === 4 ? view.getUint32(0, true) : Number(view.getBigUint64(0, true))
}

function same(a, b) {
    for (let i = 0; i < a.length; i++) {
        if (a[i] !== b[i]) return false
    }
    return true
}
