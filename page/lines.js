// The lines of a case: the bench's own (docs/BENCH.md), and those that only the page has. A line that is not understood throws LineError,
// with a message for a person.

class LineError extends Error {}

const hex = byte => byte.toString(16).padStart(2, '0');

// A number, decimal or behind 0x.
function numberOf(name, word, least, most) {
    if (word === undefined) throw new LineError(`${name}: a number is missing`);
    if (!/^([0-9]+|0x[0-9a-f]+)$/i.test(word)) throw new LineError(`${name} ${word}: not a number`);
    const n = Number(word);
    if (n < least) throw new LineError(`${name} ${word}: at least ${least}`);
    if (n > most) throw new LineError(`${name} ${word}: at most ${most} here`);
    return n;
}

function bytesOf(name, text) {
    const digits = text.replace(/\s+/g, '').replace(/^0x/i, '');
    if (/[^0-9a-f]/i.test(digits)) throw new LineError(`${name}: not hexadecimal digits, two to a byte`);
    if (digits.length % 2) throw new LineError(`${name}: an odd number of hexadecimal digits`);
    return Uint8Array.from(digits.match(/../g) ?? [], pair => parseInt(pair, 16));
}

function byteOf(name, word) {
    const bytes = bytesOf(name, word ?? '');
    if (bytes.length !== 1) throw new LineError(`${name} ${word ?? ''}: one byte, two hexadecimal digits`);
    return bytes[0];
}

const MOST_BYTES = 131072;
const ANY = 1000000;

// `HEX` or `fill BYTE COUNT`, taken from the front of the words: the bytes, and the words behind them.
function dataOf(words, files) {
    const [kind, ...rest] = words;
    if (kind === undefined) throw new LineError('the bytes are missing: hexadecimal digits, or fill BYTE COUNT');
    if (/^fill$/i.test(kind)) {
        const bytes = new Uint8Array(numberOf('fill', rest[1], 0, MOST_BYTES)).fill(byteOf('fill', rest[0]));
        return [bytes, rest.slice(2)];
    }
    if (/^file$/i.test(kind)) {
        const file = files[rest[0]];
        if (!file) throw new LineError(`${rest[0]}: there is no such file in this page`);
        return [file, rest.slice(1)];
    }
    return [bytesOf('bytes', kind), rest];
}

function nothingMore(words) {
    if (words.length) throw new LineError(`${words[0]}: a word too many`);
}

// Bytes as a line says them: filled ones briefly.
function dataText(bytes) {
    if (bytes.length > 3 && bytes.every(byte => byte === bytes[0])) return `fill ${hex(bytes[0])} ${bytes.length}`;
    return bytes.length ? Array.from(bytes, hex).join('') : 'fill 00 0';
}

const BOARD_NUMBERS = {
    m: ['longest', 'M'], page: ['page', 'page'], s: ['size', 'S'], o: ['offset', 'O'], type: ['hardware', 'type'],
    compatible: ['compatible', 'compatible'], actual: ['actual', 'actual'], bootloader: ['version', 'bootloader'],
};
const DEFAULT_BOARD = {
    longest: 64, page: 64, size: 1024, offset: 0, hardware: 7, compatible: 1, actual: 1, version: 1, serial: new Uint8Array(0),
};

function boardOf(words) {
    const bus = ['i2c', 'rs485'].indexOf((words[0] ?? '').toLowerCase());
    if (bus < 0) throw new LineError(`board ${words[0] ?? ''}: i2c or rs485`);
    const board = { ...DEFAULT_BOARD, bus };
    for (let i = 1; i < words.length; i += 2) {
        const name = words[i].toLowerCase();
        if (name === 'serial') board.serial = bytesOf('serial', words[i + 1] ?? '');
        else if (BOARD_NUMBERS[name]) board[BOARD_NUMBERS[name][0]] = numberOf(BOARD_NUMBERS[name][1], words[i + 1], 0, 0xffffffff);
        else throw new LineError(`board ${words[i]}: no such setting`);
    }
    const narrow = [['type', board.hardware], ['compatible', board.compatible], ['actual', board.actual], ['bootloader', board.version]];
    for (const [name, value] of narrow) numberOf(name, String(value), 0, 255);
    if (board.serial.length > 16) throw new LineError('serial: at most 16 bytes');
    return board;
}

// The profile's 36 bytes, as childbus.h lays them out. A page that is neither 64 nor 128 gets a byte that the library refuses.
function profileBytes(board) {
    const profile = new Uint8Array(PROFILE_BYTES);
    const view = new DataView(profile.buffer);
    const page = { 64: 0, 128: 1 }[board.page] ?? 2;
    profile.set([board.bus, board.hardware, board.compatible, board.actual, board.version, board.serial.length, page]);
    [board.longest, board.size, board.offset].forEach((number, i) => view.setUint32(8 + 4 * i, number, true));
    profile.set(board.serial, 20);
    return profile;
}

const PLAIN = { version: 0x00, info: 0x03, serial: 0x04, start: 0x05, finalize: 0x07, revision: 0x09, longest: 0x0c };

function damageOf(what, words) {
    const byte = numberOf(what, words[0], 1, 300);
    if (words.length === 1) return { byte, after: 0 };
    return { byte, after: afterOf(words.slice(1)) };
}

function afterOf(words) {
    if (!words.length) return 0;
    if (words[0].toLowerCase() !== 'after') throw new LineError(`${words[0]}: only the word after and a number may follow`);
    nothingMore(words.slice(2));
    return numberOf('after', words[1], 0, 10000);
}

// What a line says, as an action with its arguments; null for one that only shows something at the bench, and for a remark.
function parseLine(text, files = {}) {
    const line = text.trim();
    if (line === '' || line.startsWith('#') || /^say\b/i.test(line)) return null;
    const words = line.split(/\s+/);
    const word = words.shift().toLowerCase();
    if (word in PLAIN) {
        nothingMore(words);
        return { do: 'request', code: PLAIN[word], a: 0, b: 0, data: new Uint8Array(0) };
    }
    const taken = LINES[word];
    if (!taken) throw new LineError(`${word}: no such line`);
    return taken(words, files);
}

const LINES = {
    state: nothingShown,
    map: nothingShown,
    board: words => ({ do: 'board', board: boardOf(words) }),
    flash(words, files) {
        if ((words[0] ?? '').toLowerCase() === 'fill') {
            nothingMore(words.slice(2));
            return { do: 'flash', fill: byteOf('flash fill', words[1]) };
        }
        const [bytes, rest] = dataOf(words, files);
        nothingMore(rest);
        return { do: 'flash', bytes };
    },
    to(words) {
        nothingMore(words.slice(1));
        return { do: 'to', to: numberOf('to', words[0], 0, 255) };
    },
    'set-address'(words) {
        const a = numberOf('address', words[0], 0, ANY);
        if ((words[1] ?? '').toLowerCase() !== 'type') throw new LineError('set-address: the word type and a number follow the address');
        nothingMore(words.slice(3));
        return { do: 'request', code: 0x01, a, b: numberOf('type', words[2], 0, ANY), data: new Uint8Array(0) };
    },
    write(words, files) {
        const a = numberOf('address', words[0], 0, ANY);
        const [data, rest] = dataOf(words.slice(1), files);
        nothingMore(rest);
        return { do: 'request', code: 0x06, a, b: 0, data };
    },
    read(words) {
        nothingMore(words.slice(2));
        const [a, b] = [numberOf('address', words[0], 0, ANY), numberOf('length', words[1], 0, ANY)];
        return { do: 'request', code: 0x08, a, b, data: new Uint8Array(0) };
    },
    reset: words => general(words, true),
    'reset-address': words => general(words, false),
    'reset-running'(words) {
        nothingMore(words);
        return { do: 'reset-running' };
    },
    application(words) {
        nothingMore(words.slice(1));
        const which = (words[0] ?? '').toLowerCase();
        if (!['answers', 'silent'].includes(which)) throw new LineError(`application ${which}: answers or silent`);
        return { do: 'application', answers: which === 'answers' };
    },
    upload(words, files) {
        const [image, rest] = dataOf(words, files);
        if ((rest[0] ?? '').toLowerCase() !== 'frames') throw new LineError('upload: the word frames and a number follow the bytes');
        nothingMore(rest.slice(2));
        if (!image.length) throw new LineError('upload: an image has at least one byte');
        return { do: 'upload', image, piece: numberOf('frames', rest[1], 1, MOST_BYTES) };
    },
    send(words) {
        const bytes = bytesOf('send', words.join(''));
        if (!bytes.length) throw new LineError('send: the address is missing');
        if (bytes.length > 1024) throw new LineError('send: at most 1024 bytes');
        return { do: 'send', bytes };
    },
    'i2c-read'(words) {
        nothingMore(words.slice(1));
        return { do: 'i2c-read', at: words.length ? numberOf('address', words[0], 0, 255) : null };
    },
    damage(words) {
        const what = (words[0] ?? '').toLowerCase();
        if (!['byte', 'reply'].includes(what)) throw new LineError(`damage ${what}: byte or reply, and a number`);
        return { do: 'damage', what, hit: damageOf(what, words.slice(1)) };
    },
    tally(words) {
        nothingMore(words.slice(1));
        if (!words.length) return null;
        if (words[0].toLowerCase() !== 'clear') throw new LineError(`tally ${words[0]}: clear, or nothing`);
        return { do: 'tally' };
    },
    // the page's own
    lose(words) {
        const what = (words[0] ?? '').toLowerCase();
        if (!['frame', 'reply'].includes(what)) throw new LineError(`lose ${what}: frame or reply`);
        return { do: 'lose', what, after: afterOf(words.slice(1)) };
    },
    hold(words) {
        nothingMore(words.slice(1));
        const which = (words[0] ?? '').toLowerCase();
        if (!['on', 'off'].includes(which)) throw new LineError(`hold ${which}: on or off`);
        return { do: 'hold', on: which === 'on' };
    },
    arrive(words) {
        nothingMore(words);
        return { do: 'arrive' };
    },
    power(words) {
        nothingMore(words);
        return { do: 'power' };
    },
    // the next frame of an upload or of a reset-running, or so many of them
    next(words) {
        nothingMore(words.slice(1));
        return { do: 'next', count: words.length ? numberOf('next', words[0], 1, 100000) : 1 };
    },
    stop(words) {
        nothingMore(words);
        return { do: 'stop' };
    },
};

function nothingShown(words) {
    nothingMore(words);
    return null;
}

function general(words, reset) {
    nothingMore(words);
    return { do: 'general', reset };
}

// A case: a heading, a line for each step, and the word end, so that a case that was cut is noticed.
const CASE_HEADING = 'childbus case 1';
const CASE_END = 'end';

function caseText(lines) {
    const joined = [];
    for (const line of lines) {
        const last = joined[joined.length - 1];
        if (line === 'next' && last?.startsWith('next')) joined[joined.length - 1] = `next ${Number(last.slice(5) || 1) + 1}`;
        else joined.push(line);
    }
    return [CASE_HEADING, ...joined, CASE_END, ''].join('\n');
}

function caseLines(text) {
    const lines = text.replace(/^\ufeff/, '').split(/\r?\n/);
    if (lines[0].trim() !== CASE_HEADING) throw new LineError(`this is no case: its first line is not "${CASE_HEADING}"`);
    const steps = lines.slice(1).map((line, i) => ({ line: line.trim(), place: i + 2 })).filter(({ line }) => line !== '');
    if (steps.pop()?.line !== CASE_END) throw new LineError(`a part of it is missing: its last line is not "${CASE_END}"`);
    return steps;
}
