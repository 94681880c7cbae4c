// Makes the calls of a case file (../second/FORMAT.md) through the library's WebAssembly module:
//   node cases.mjs MODULE CASES OUTPUT STACK
// OUTPUT gets the output lines, STACK a line for each call of childbus.h, its name and its deepest use of the stack in bytes.
// Status: 0, 2 if a line of the case file is bad, 1 for anything else.
import { readFileSync, writeFileSync } from 'node:fs'
import { load, PROFILE_BYTES, STATE_BYTES, TALLY_BYTES } from './library.mjs'

const MOST = 0xffffffff
const UNTOUCHED = 0xa5
const DEFAULT_RANGE = 256
const FLASH_BYTES = 131072
const [WAITING, WAITING_BYTES, REPLY, REPLY_BYTES] = [20, 128, 148, 256]
const [RESET_ADDRESS, RESET] = [260, 262]

class BadLine extends Error {}

// The fields of a line, taken one after another.
class Fields {
    constructor(words) {
        this.words = words
        this.next = 0
    }

    word() {
        if (this.next === this.words.length) throw new BadLine('too few fields')
        return this.words[this.next++]
    }

    number(most = MOST) {
        const word = this.word()
        if (!/^[0-9]+$/.test(word) || Number(word) > most) throw new BadLine(`${word} is not a number from 0 to ${most}`)
        return Number(word)
    }

    numbers(count, most = MOST) {
        return Array.from({ length: count }, () => this.number(most))
    }

    bytes(most = 600) {
        const word = this.word()
        if (word === '-') return new Uint8Array(0)
        if (!/^([0-9a-f]{2})+$/.test(word) || word.length > 2 * most) throw new BadLine(`not - or up to ${most} pairs of hex digits`)
        return Uint8Array.from(word.match(/../g), pair => parseInt(pair, 16))
    }

    // Parts joined by +: hex pairs, or a count, * and the pair that stands so often.
    packed(most = 600) {
        const word = this.word()
        const parts = word === '-' ? [] : word.split('+').map(part => {
            const [, count, pairs] = /^(?:([0-9]+)\*(?=..$))?((?:[0-9a-f]{2})+)$/.exec(part) ?? []
            if (!pairs || Number(count ?? 1) < 1 || Number(count ?? 1) > most) throw new BadLine('not a packed byte string')
            const bytes = Uint8Array.from(pairs.match(/../g), pair => parseInt(pair, 16))
            return count === undefined ? bytes : new Uint8Array(Number(count)).fill(bytes[0])
        })
        const all = new Uint8Array(parts.reduce((length, part) => length + part.length, 0))
        if (all.length > most) throw new BadLine(`more than ${most} bytes`)
        parts.reduce((at, part) => { all.set(part, at); return at + part.length }, 0)
        return all
    }

    end() {
        if (this.next !== this.words.length) throw new BadLine('too many fields')
    }
}

const hex = bytes => bytes.length === 0 ? '-' : Array.from(bytes, byte => byte.toString(16).padStart(2, '0')).join('')
const view = bytes => new DataView(bytes.buffer)
const numberAt = (bytes, at) => view(bytes).getUint32(at, true)
const putNumbers = (bytes, at, numbers) => numbers.forEach((number, k) => view(bytes).setUint32(at + 4 * k, number, true))

// The 64-bit FNV-1a hash, in two halves; its prime is 2^40 + 435.
function hash(bytes) {
    let [high, low] = [0xcbf29ce4, 0x84222325]
    for (let i = 0; i < bytes.length; i++) {
        low = (low ^ bytes[i]) >>> 0
        const product = low * 435
        high = (Math.imul(high, 435) + (low << 8) + Math.floor(product / 4294967296)) >>> 0
        low = product >>> 0
    }
    return high.toString(16).padStart(8, '0') + low.toString(16).padStart(8, '0')
}

// 0 for 64, 1 for 128. Any other page is a byte that says none: its low byte, or 2 and 3 where that is 0 and 1.
function pageByte(page) {
    if (page === 64 || page === 128) return page / 64 - 1
    const low = page % 256
    return low < 2 ? low + 2 : low
}

// Whether a byte of a state means nothing in this state.
function meansNothing(state, at) {
    if (at === 1) return state[0] === 0
    if (at < WAITING) return at === 3
    return at < REPLY ? at - WAITING >= numberAt(state, 8) : at - REPLY >= numberAt(state, 16)
}

class Board {
    profile = null
    flash = null
    state = new Uint8Array(STATE_BYTES)
    tally = new Uint8Array(TALLY_BYTES)
    room = 256

    constructor(library) {
        this.library = library
        this.fresh()
    }

    // A line that sets something gives nothing, a call its output line.
    line(text) {
        const [letter, ...words] = text.split(' ')
        const taken = LINES[letter]
        if (!taken) throw new BadLine(`no line begins with ${letter}`)
        const fields = new Fields(words)
        const done = taken(this, fields)
        fields.end()
        const results = done()
        return results === undefined ? undefined : `${letter} ${results}`
    }

    fresh() {
        this.state.fill(0x33)
        const { number } = this.library.fresh(this.state)
        if (number !== 0) throw new Error(`childbus_fresh answered ${number}`)
        if (this.state.some(byte => byte !== 0)) throw new Error('the fresh state is not all zeros')
    }

    setProfile([bus, m, page, s, o], bytes, serial) {
        this.profile = new Uint8Array(PROFILE_BYTES)
        this.profile.set([bus, ...bytes, serial.length, pageByte(page)])
        putNumbers(this.profile, 8, [m, s, o])
        this.profile.set(serial.subarray(0, 16), 20)
    }

    setFlash(len, a, b) {
        this.flash = Uint8Array.from({ length: len }, (_, i) => Math.imul(a, i) + b)
    }

    // Bytes that mean nothing are not 0.
    setState(own, running, numbers, waiting, reply) {
        this.state.set(own === DEFAULT_RANGE ? [0, 0x33] : [1, own])
        this.state.set([running, 0x33], 2)
        putNumbers(this.state, 4, numbers)
        this.state.set(waiting, WAITING)
        this.state.set(reply, REPLY)
    }

    setTally(counters) {
        counters.forEach((counter, k) => view(this.tally).setUint16(2 * k, counter, true))
    }

    out() {
        return new Uint8Array(this.room).fill(UNTOUCHED)
    }

    ready() {
        if (!this.profile || !this.flash) throw new BadLine('a profile and a flash come first')
    }

    // The output line of a call by the board. Bytes of the state that mean nothing are not 0 before it, and stay as they are; after 2
    // and above all stay.
    called(call) {
        this.state.forEach((byte, i) => { if (meansNothing(this.state, i)) this.state[i] = i * 37 | 1 })
        const [out, before] = [this.out(), this.state.slice()]
        const { number, made } = call(out)
        const at = before.findIndex((byte, i) => byte !== this.state[i] && (number >= 2 || meansNothing(this.state, i)))
        if (at >= 0) throw new Error(`answered ${number}, and state byte ${at} changed: expected ${before[at]}, found ${this.state[at]}`)
        const [reply, ok] = split(number, made, out)
        return [number, reply, ...this.stateFields(), hash(this.flash), ok].join(' ')
    }

    stateFields() {
        const [next, w, count, length] = [4, 8, 12, 16].map(at => numberAt(this.state, at))
        const part = (at, len, most) => hex(this.state.subarray(at, at + Math.min(len, most)))
        const own = this.state[0] === 0 ? DEFAULT_RANGE : this.state[1]
        return [own, this.state[2], next, w, count, part(WAITING, w, WAITING_BYTES), part(REPLY, length, REPLY_BYTES)]
    }

    tallyFields() {
        return [0, 2, 4, 6, 8].map(at => view(this.tally).getUint16(at, true)).join(' ')
    }
}

// Reply or request as text, and whether the output is that and untouched bytes.
function split(number, made, out) {
    if (made > out.length || (number !== 0 && made !== 0)) throw new Error(`answered ${number}, and made ${made} bytes of ${out.length}`)
    return [hex(out.subarray(0, made)), out.subarray(made).every(byte => byte === UNTOUCHED) ? 1 : 0]
}

function requested(out, { number, made }) {
    const [request, ok] = split(number, made, out)
    return `${number} ${request} ${ok}`
}

// What a line says; the function given back does it.
const LINES = {
    P(board, fields) {
        const [bus, numbers, bytes, serial] = [fields.number(1), fields.numbers(4), fields.numbers(4, 255), fields.bytes(40)]
        return () => board.setProfile([bus, ...numbers], bytes, serial)
    },
    F(board, fields) {
        const [len, a, b] = [fields.number(FLASH_BYTES), fields.number(), fields.number()]
        return () => board.setFlash(len, a, b)
    },
    Z(board) {
        return () => board.fresh()
    },
    S(board, fields) {
        const [own, running, numbers] = [fields.number(256), fields.number(1), fields.numbers(4)]
        const [waiting, reply] = [fields.bytes(WAITING_BYTES), fields.bytes(REPLY_BYTES)]
        if (waiting.length < WAITING_BYTES || reply.length < REPLY_BYTES) throw new BadLine('waiting and reply are whole buffers')
        return () => board.setState(own, running, numbers, waiting, reply)
    },
    B(board, fields) {
        const room = fields.number(512)
        return () => { board.room = room }
    },
    K(board, fields) {
        const counters = fields.numbers(5, 65535)
        return () => board.setTally(counters)
    },
    R(board, fields) {
        const [address, frame] = [fields.number(255), fields.bytes()]
        board.ready()
        return () => board.called(out => board.library.receive(board.profile, board.state, address, frame, board.flash, out))
    },
    C(board, fields) {
        const [address, frame] = [fields.number(255), fields.bytes()]
        board.ready()
        return () => board.called(out => board.library.receiveTally(board.profile, board.state, address, frame, board.flash, out,
            board.tally)) + ' ' + board.tallyFields()
    },
    I(board, fields) {
        const address = fields.number(255)
        board.ready()
        return () => board.called(out => board.library.read(board.profile, board.state, address, board.flash, out))
    },
    E(board, fields) {
        const [bus, m, code, destination, a, b] = [fields.number(1), ...fields.numbers(5)]
        const [data, out] = [fields.bytes(), board.out()]
        if (code === RESET_ADDRESS || code === RESET) return () => requested(out, board.library.general(bus, m, code - RESET_ADDRESS, out))
        return () => requested(out, board.library.encode(bus, m, code, destination, a, b, data, out))
    },
    D(board, fields) {
        const [bus, code, address, asked, reply] = [fields.number(1), fields.number(), fields.number(255), fields.number(), fields.bytes()]
        return () => {
            const { number, status, start, len } = board.library.decode(bus, code, address, asked, reply)
            return `${number} ${status} ${start} ${len}`
        }
    },
    T(board, fields) {
        const [code, asked, first, second] = [fields.number(), fields.number(), fields.bytes(), fields.bytes()]
        return () => {
            const { which, start, len } = board.library.twoReads(code, asked, first, second)
            return `${which} ${hex((which === 2 ? second : first).subarray(start, start + len))}`
        }
    },
    V(board, fields) {
        const [major, minor] = fields.numbers(2, 255)
        return () => {
            const known = board.library.version(major, minor)
            return `${known.number} ${known.major} ${known.minor}`
        }
    },
    A(board, fields) {
        const [bus, m, major, minor] = [fields.number(1), fields.number(), ...fields.numbers(2, 255)]
        const out = board.out()
        return () => requested(out, board.library.resetRunning(bus, m, major, minor, out))
    },
    Q(board, fields) {
        const [profile, state, address] = [fields.packed(), fields.packed(), fields.number()]
        const [frame, number] = [fields.packed(), fields.number()]
        return () => board.library.silence(profile, state, address, frame, number)
    },
    L(board, fields) {
        const [profile, before, after, flash] = [fields.packed(), fields.packed(), fields.packed(), fields.packed(FLASH_BYTES)]
        return () => board.library.lost(profile, before, after, flash)
    },
    X(board, fields) {
        const [profile, frame, number] = [fields.packed(), fields.packed(), fields.number()]
        const [reply, after] = [fields.packed(), fields.packed()]
        return () => board.library.erasedNothing(profile, frame, number, reply, after)
    },
    U(board, fields) {
        const profile = fields.packed()
        const [image, earlier, flash] = [fields.packed(FLASH_BYTES), fields.packed(FLASH_BYTES), fields.packed(FLASH_BYTES)]
        return () => board.library.uploadEnd(profile, image, earlier, flash)
    },
    H(board, fields) {
        const [profile, page] = [fields.packed(), fields.number()]
        const [earlier, flash] = [fields.packed(FLASH_BYTES), fields.packed(FLASH_BYTES)]
        return () => board.library.pageChanged(profile, page, earlier, flash)
    },
}

function answer(board, text) {
    const lines = []
    text.split('\n').forEach((line, k) => {
        if (line === '' || line.startsWith('#')) return
        try {
            const done = board.line(line)
            if (done !== undefined) lines.push(done + '\n')
        } catch (error) {
            if (!(error instanceof BadLine)) throw new Error(`line ${k + 1}: ${error.message}`, { cause: error })
            console.error(`line ${k + 1}: ${error.message}`)
            process.exitCode = 2
        }
    })
    return lines.join('')
}

const [module, cases, output, stack] = process.argv.slice(2)
const library = await load(readFileSync(module))
writeFileSync(output, answer(new Board(library), readFileSync(cases, 'latin1')))
writeFileSync(stack, Array.from(library.deepest, ([name, used]) => `${name} ${used}\n`).join(''))
