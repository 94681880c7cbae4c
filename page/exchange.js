// A board, its master and the bus between them: settings, frames, replies. What the board does is the library's answer; here its values
// are kept, handed on and taken back.

const FLASH_BYTES = 131072;
const FIRST_ADDRESS = 8;
const NO_BYTES = new Uint8Array(0);

// The state's fields, as childbus.h lays them out.
function stateFields(state) {
    const view = new DataView(state.buffer, state.byteOffset);
    const [next, waiting, count, last] = [4, 8, 12, 16].map(at => view.getUint32(at, true));
    return {
        own: state[0] === 0 ? null : state[1],
        running: state[2] === 1,
        next, waiting, count, last,
        bytes: state.subarray(20, 20 + Math.min(waiting, 128)),
    };
}

function tallyFields(tally) {
    const view = new DataView(tally.buffer, tally.byteOffset);
    return [0, 2, 4, 6, 8].map(at => view.getUint16(at, true));
}

const withByte = (bytes, at, value) => {
    const copy = bytes.slice();
    copy[at] = value;
    return copy;
};
const stopped = state => withByte(state, 2, 0);
const pagesOf = board => board.size / board.page;

// Damages and losses that stand before frames or replies: those due now, and those that are left after this one.
const due = list => list.filter(item => item.after === 0);
const passed = list => list.filter(item => item.after > 0).map(item => ({ ...item, after: item.after - 1 }));

// A byte damaged twice in the same frame is whole again.
function withDamage(list, hit) {
    const rest = list.filter(item => item.byte !== hit.byte || item.after !== hit.after);
    return rest.length < list.length ? rest : [...list, hit];
}

// The bytes with every bit of some of them inverted: what arrives, and what happened to each.
function damaged(bytes, hits) {
    const arrived = bytes.slice();
    for (const { byte } of hits) {
        if (byte <= arrived.length) arrived[byte - 1] ^= 0xff;
    }
    return arrived;
}

class Exchange extends Steps {
    constructor(library, files) {
        super();
        this.library = library;
        this.files = files;
        this.flash = new Uint8Array(FLASH_BYTES).fill(0xff);
        this.first = this.now = this.withBoard({}, boardOf(['i2c']));
    }

    // ---- settings

    withBoard(now, board) {
        const profile = profileBytes(board);
        const state = this.library.fresh();
        const { number } = this.library.read({ profile, state, flash: this.flash }, FIRST_ADDRESS);
        if (number > 1) throw new LineError([numberText(number), ...this.wrongSettings(board)].join('; '));
        return {
            hold: false,
            ...now,
            board, profile, state,
            tally: new Uint8Array(TALLY_BYTES),
            answers: false, answered: null,
            to: FIRST_ADDRESS, code: 0, asked: 0,
            frameHits: [], replyHits: [], frameLosses: [], replyLosses: [],
            onBus: null, lastRead: null, plan: null,
            counts: new Uint16Array(pagesOf(board)), olds: new Map(),
        };
    }

    // The settings that the library refuses by themselves, S and O with the board's page.
    wrongSettings(board) {
        const paged = { ...DEFAULT_BOARD, bus: board.bus, page: board.page === 128 ? 128 : 64 };
        const refused = field => {
            const profile = profileBytes({ ...paged, [field]: board[field] });
            return this.library.read({ profile, state: this.library.fresh(), flash: this.flash }, FIRST_ADDRESS).number > 1;
        };
        return Object.values(BOARD_NUMBERS).filter(([field]) => refused(field)).map(([field, name]) => `wrong: ${name} ${board[field]}`);
    }

    lostBy(profile, after, flash) {
        return this.library.lost(profile, this.now.state, after, flash);
    }

    do_board({ board }) {
        const after = this.withBoard(this.now, board);
        return { kind: 'board', after, lost: this.lostBy(this.now.profile, after.state, this.flash) };
    }

    do_flash({ fill, bytes }) {
        const flash = this.flash.slice();
        if (bytes) flash.set(bytes.subarray(0, FLASH_BYTES));
        else flash.fill(fill);
        const after = { ...this.now, counts: new Uint16Array(pagesOf(this.now.board)), olds: new Map() };
        return { kind: 'flash', fill, length: bytes?.length, after, flash, patches: [{ at: 0, old: this.flash, new: flash }] };
    }

    do_to({ to }) {
        return { kind: 'to', after: { ...this.now, to } };
    }

    do_application({ answers }) {
        return { kind: 'application', after: { ...this.now, answers, answered: null } };
    }

    do_tally() {
        return { kind: 'tally', after: { ...this.now, tally: new Uint8Array(TALLY_BYTES) } };
    }

    do_damage({ what, hit }) {
        const field = what === 'byte' ? 'frameHits' : 'replyHits';
        const list = withDamage(this.now[field], hit);
        return { kind: 'damage', what, hit, whole: list.length < this.now[field].length, after: { ...this.now, [field]: list } };
    }

    do_lose({ what, after }) {
        if (what === 'reply' && after === 0 && this.now.onBus) return this.arrival(true);
        const field = what === 'frame' ? 'frameLosses' : 'replyLosses';
        return { kind: 'lose', what, count: after, after: { ...this.now, [field]: [...this.now[field], { after }] } };
    }

    do_hold({ on }) {
        return { kind: 'hold', after: { ...this.now, hold: on } };
    }

    // Power off and on: flash stays, and all that the board had in its memory is gone.
    do_power() {
        const state = this.library.fresh();
        const after = { ...this.now, state, tally: new Uint8Array(TALLY_BYTES), answered: null, onBus: null, lastRead: null };
        return { kind: 'power', after, lost: this.lostBy(this.now.profile, state, this.flash) };
    }

    // ---- frames

    get bus() {
        return this.now.board.bus;
    }

    boardNow(now = this.now, flash = this.flash) {
        return { profile: now.profile, state: now.state, tally: now.tally, flash };
    }

    encode(code, a, b, data, to = this.now.to) {
        return this.library.encode(this.bus, this.now.board.longest, code, to, a, b, data);
    }

    // The most data bytes of a write, and the most bytes of a read, that the encoder takes for this board.
    mostData() {
        return most(n => this.encode(0x06, 0, 0, new Uint8Array(n), FIRST_ADDRESS).number === 0);
    }

    mostRead() {
        return most(n => this.encode(0x08, 0, n, NO_BYTES, FIRST_ADDRESS).number === 0);
    }

    // The frame that an action would send; null for one that sends none.
    frameOf(action, to = this.now.to) {
        switch (action?.do) {
            case 'request': return this.encode(action.code, action.a, action.b, action.data, to);
            case 'general': return this.library.general(this.bus, this.now.board.longest, action.reset);
            case 'send': return { number: 0, frame: this.bus === 0 ? action.bytes.slice(1) : action.bytes };
            case 'next': return this.now.plan ? this.frameOf(this.planned(this.now.plan)) : null;
            case 'frame': return { number: 0, frame: action.frame };
            default: return null;
        }
    }

    free() {
        if (this.now.onBus) throw new LineError('a reply is still on the bus: let it arrive, or lose it');
    }

    do_request(action) {
        this.free();
        const { code, a, b } = action;
        const made = this.frameOf(action);
        if (made.number !== 0) return { kind: 'unmade', action, number: made.number, wrong: this.wrongArgument(action), after: this.now };
        const [length, moves] = [code === 0x08 ? b : 0, code === 0x01 ? a : null];
        return this.exchange({ code, length, to: this.now.to, expects: code !== 0x05, moves, planned: action.planned }, made.frame);
    }

    // Which argument of a request the encoder refuses, by what it says to the others alone; with the most that it takes.
    wrongArgument({ code, a, b, data }, to = this.now.to) {
        const made = (...args) => this.encode(code, ...args, to).number === 0;
        const [free, none] = [16, NO_BYTES];
        if (to === 0) return { name: 'all' };
        if (code === 0x01 && !made(a, 0, none)) {
            const reserved = a === 0 || this.encode(0, 0, 0, none, a).number === 0;
            return { name: reserved ? 'reserved' : 'address', value: a, most: most(n => n < free || made(n, 0, none)) };
        }
        if (code === 0x01) return { name: 'type', value: b, most: 255 };
        if (!made(0, 0, none)) return { name: 'to', value: to, most: most(n => n === 0 || this.encode(0, 0, 0, none, n).number === 0) };
        if (!made(a, 0, none)) return { name: 'place', value: a, most: 65535 };
        return code === 0x06
            ? { name: 'data', value: data.length, most: this.mostData() }
            : { name: 'length', value: b, most: this.mostRead() };
    }

    do_general(action) {
        this.free();
        return this.exchange({ code: 0x46, length: 0, to: 0, expects: false, general: true }, this.frameOf(action).frame);
    }

    do_send(action) {
        this.free();
        const { bytes } = action;
        const asked = { code: bytes[1] ?? 0, length: bytes[4] ?? 0, to: bytes[0], expects: true, raw: true };
        return this.exchange(asked, this.frameOf(action).frame);
    }

    // A frame to the board, and its reply to the master, or onto the bus if replies are held.
    exchange(asked, sent) {
        const now = this.now;
        const arrivedFrame = damaged(sent, due(now.frameHits));
        const frameLost = due(now.frameLosses).length > 0;
        const call = { kind: 'call', asked, sent, frameHits: due(now.frameHits), arrivedFrame, frameLost };
        const rest = { ...now, frameHits: passed(now.frameHits), frameLosses: passed(now.frameLosses) };
        const moved = asked.general ? { ...rest, to: FIRST_ADDRESS } : rest;
        if (frameLost) return this.unheard(call, moved);
        return this.heard(call, moved);
    }

    // A frame that did not reach the board: the master waits for a reply in vain.
    unheard(call, now) {
        const after = { ...now };
        return { ...call, ...this.atMaster(call, NO_BYTES, after), number: null, pages: [], after };
    }

    heard(call, now) {
        const { asked, arrivedFrame } = call;
        const board = this.boardNow(now);
        const answer = this.library.receive(board, asked.to, arrivedFrame);
        const application = this.applicationReply(now, asked.to, arrivedFrame);
        const pages = this.library.changedPages(now.profile, pagesOf(now.board), this.flash, answer.flash);
        const after = {
            ...now,
            state: answer.state, tally: answer.tally,
            answered: stateFields(answer.state).running ? application ?? now.answered : null,
            ...this.counted(now, pages),
        };
        const replied = application !== null || answer.number === 0;
        if (replied) Object.assign(after, { code: asked.code, asked: asked.length, lastRead: null });
        const told = {
            ...call, pages, flash: answer.flash,
            number: answer.number,
            silence: this.library.silence(now.profile, now.state, asked.to, arrivedFrame, answer.number),
            lost: this.library.lost(now.profile, now.state, answer.state, answer.flash),
            unworn: this.library.erasedNothing(now.profile, arrivedFrame, answer.number, answer.reply, answer.state),
            by: application !== null ? 'application' : 'bootloader',
        };
        if (!replied) return { ...told, after };
        return this.replied(told, after, application, answer);
    }

    // The reply as it stands on the bus: sent on RS485, on I²C read by the master where the board listens.
    replied(call, after, application, answer) {
        const { own } = stateFields(after.state);
        const readAt = this.bus === 0 ? own ?? call.asked.to : null;
        const fetched = this.bus === 0 ? this.fetch(after, call.flash, readAt) : { number: 0, reply: application?.reply ?? answer.reply };
        const made = { ...call, reply: fetched.reply, readAt, readNumber: fetched.number };
        if (fetched.number !== 0) return { ...made, after };
        if (after.hold) return { ...made, held: true, after: { ...after, onBus: { asked: call.asked, reply: fetched.reply, readAt } } };
        return { ...made, ...this.atMaster(made, fetched.reply, after), after };
    }

    // The last reply, by an I²C read at an address.
    fetch(now, flash, at) {
        const state = now.answered ? now.answered.state : now.state;
        return this.library.read({ profile: now.profile, state, flash }, at);
    }

    // What comes to the master of a reply, perhaps damaged or lost, and what its decoder makes of it. It changes `after`, which is new.
    atMaster(call, reply, after) {
        const came = reply.length > 0;
        const replyHits = came ? due(after.replyHits) : [];
        const replyLost = came && due(after.replyLosses).length > 0;
        if (came) Object.assign(after, { replyHits: passed(after.replyHits), replyLosses: passed(after.replyLosses) });
        const arrived = replyLost ? NO_BYTES : damaged(reply, replyHits);
        const decoded = call.asked.expects || came ? this.decode(call.asked, arrived) : null;
        after.lastRead = this.bus === 0 && came ? arrived : after.lastRead;
        if (decoded?.number === 0 && decoded.status === 0 && call.asked.moves) after.to = call.asked.moves;
        return { replyHits, replyLost, arrived, decoded };
    }

    // A reply taken apart. The reply to a command that the decoder doesn't serve is taken as that to start, which needs no results.
    decode(asked, bytes) {
        const decode = code => this.library.decode(this.bus, code, asked.to, asked.length, bytes);
        const first = decode(asked.code);
        const served = first.number !== 7;
        const taken = served ? first : decode(0x05);
        const results = bytes.slice(taken.start, taken.start + taken.len);
        return { ...taken, code: served ? asked.code : 0x05, served, results, version: this.versionOf(asked.code, taken, results) };
    }

    // What the version rule says of a version.
    versionOf(code, { number, status }, results) {
        return code === 0x00 && number === 0 && status === 0 ? this.library.version(results[0], results[1]) : null;
    }

    // The rewritten pages, counted, with their bytes before.
    counted(now, pages) {
        if (!pages.length) return {};
        const [counts, olds] = [now.counts.slice(), new Map(now.olds)];
        for (const page of pages) {
            const at = now.board.offset + page * now.board.page;
            counts[page] += 1;
            olds.set(page, this.flash.slice(at, at + now.board.page));
        }
        return { counts, olds };
    }

    // An application that answers the version request with 0.0, if it runs and answers, and the frame is that request, to this board: the
    // same bytes as the encoder's, which the bootloader would answer. Its reply is that to a read of two zeros, which has the same form.
    applicationReply(now, to, frame) {
        const bootloader = { profile: now.profile, state: stopped(now.state), tally: now.tally, flash: new Uint8Array(FLASH_BYTES) };
        if (!now.answers || !stateFields(now.state).running) return null;
        const at = this.bus === 0 ? to : frame[0] ?? 0;
        const version = this.encode(0x00, 0, 0, NO_BYTES, at);
        if (version.number !== 0 || version.frame.join() !== frame.join()) return null;
        if (this.library.receive(bootloader, to, frame).number !== 0) return null;
        const { reply, state } = this.library.receive(bootloader, to, this.encode(0x08, 0, 2, NO_BYTES, at).frame);
        return { reply, state };
    }

    // ---- replies that are held on the bus, and further reads

    do_arrive() {
        if (!this.now.onBus) throw new LineError('no reply is on the bus');
        return this.arrival(false);
    }

    arrival(lose) {
        const { asked, reply, readAt } = this.now.onBus;
        const losses = lose ? [{ after: 0 }, ...this.now.replyLosses] : this.now.replyLosses;
        const after = { ...this.now, onBus: null, replyLosses: losses };
        const came = this.atMaster({ asked }, reply, after);
        return this.planning({ kind: 'arrival', asked, reply, readAt, ...came, after, flash: this.flash });
    }

    do_i2c_read({ at }) {
        this.free();
        const now = this.now;
        const readAt = at ?? now.to;
        const { number, reply } = this.fetch(now, this.flash, readAt);
        const after = { ...now };
        const asked = { code: now.code, length: now.asked, to: now.to, expects: true, again: true };
        const read = { kind: 'read', asked, reply, readAt, readNumber: number, by: now.answered ? 'application' : 'bootloader' };
        if (number !== 0) return { ...read, after };
        const master = this.atMaster(read, reply, after);
        const which = now.lastRead ? this.library.twoReads(now.code, now.asked, now.lastRead, master.arrived) : null;
        return { ...read, ...master, which, after };
    }
}

// The largest n up to 255 of which a test holds, that holds of all up to it; 0 if it holds of none.
function most(test) {
    let [low, high] = [0, 255];
    while (low < high) {
        const middle = Math.ceil((low + high) / 2);
        if (test(middle)) low = middle;
        else high = middle - 1;
    }
    return low;
}
