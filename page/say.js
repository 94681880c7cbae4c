// What a step means, in words. All words on numbers, statuses, silences, alarms and changes come from one table, WORDS (words.json), which
// the bench's words and docs/NUMBERS.md agree with. A told line has the side that it belongs to: master, bus, board, or alarm, which must
// not be missed.

// A text with its % replaced by the values, one after another.
const filled = (text, ...values) => text.replace(/%/g, () => values.shift());
const counted = (n, word) => `${n} ${word}${n === 1 ? '' : 's'}`;
const few = (entry, n) => n === 1 ? entry.one : filled(entry.more, n);
const bytesText = bytes => Array.from(bytes, hex).join(' ').replace(/((?:[0-9a-f]{2} ){15}[0-9a-f]{2}) /g, '$1\n      ');

const said = (side, text, more = {}) => ({ side, text, ...more });
const advice = text => said('do', `do: ${text}`);

function numberText(number) {
    return `number ${number}, ${WORDS.numbers[number].words}`;
}

// A number with its meaning, and what to do.
function tellNumber(side, number) {
    const { do: todo } = WORDS.numbers[number];
    return [said(side, numberText(number), { number }), ...todo ? [advice(todo)] : []];
}

function tellAlarm({ alarm, words, look, do: todo }) {
    return [
        said('alarm', alarm),
        ...words ? [said('note', words)] : [],
        ...look ? [said('look', `look for: ${look}`)] : [],
        ...todo ? [advice(todo)] : [],
    ];
}

// An alarm about what is as it should be, and must be known all the same.
const calm = told => told.map(line => line.side === 'alarm' ? { ...line, calm: true } : line);

// ---- the frame, and the board's answer

function tellHits(bytes, hits) {
    return hits.map(({ byte }) => byte > bytes.length
        ? said('bus', filled(WORDS.call.noByte, byte))
        : said('bus', `${filled(WORDS.call.damaged, byte)}${hex(bytes[byte - 1])} -> ${hex(bytes[byte - 1] ^ 0xff)}`));
}

function tellAnswer({ number, silence }) {
    if (silence === 0) return number === 1 ? [...tellNumber('board', 1), said('board', WORDS.call.noReply)] : tellNumber('board', number);
    const entry = WORDS.silences[silence];
    if (entry.alarm) {
        const { look, ...plain } = entry;
        return [...tellNumber('board', number), ...tellAlarm(number === 1 ? plain : entry)];
    }
    return [...tellNumber('board', number), said('board', entry.words)];
}

function tellReply({ by, readAt, readNumber, reply }) {
    if (readNumber === 1) return [...tellNumber('board', 1), ...tellAlarm(WORDS.noRead)];
    if (readNumber > 1) return tellNumber('board', readNumber);
    const who = by === 'application' ? WORDS.call.application : WORDS.call.made;
    const where = readAt === null ? ': ' : filled(WORDS.call.readAt, readAt);
    return [said('board', `${who}${where}${bytesText(reply)}`)];
}

// ---- the master's side

function againKey(bus, code) {
    if (bus === 0) return code === 0x01 ? 'i2cAddress' : 'i2c';
    return { 0x01: 'address', 0x06: 'write', 0x07: 'finalize' }[code] ?? 'other';
}

function tellUndecoded(bus, code, number) {
    return [
        said('master', 'the master:'),
        ...tellNumber('master', number),
        ...number === 7 ? [advice(WORDS.master.unknown)] : [],
        ...number >= 8 && number <= 11 ? [advice(WORDS.again[againKey(bus, code)])] : [],
    ];
}

function resultsText(code, r) {
    const two = r[0] * 256 + r[1];
    switch (code) {
        case 0x00: return filled(WORDS.results.version, r[0], r[1]);
        case 0x03: return filled(WORDS.results.info, r[0], r[1], r[2], r[3] * 256 + r[4]);
        case 0x07: return filled(WORDS.results.count, two);
        case 0x09: return filled(WORDS.results.revision, r[0]);
        case 0x0c: return filled(WORDS.results.longest, two);
        default: return r.length ? `: ${bytesText(r)}` : '';
    }
}

function tellVersion(text, known) {
    if (!known) return [said('master', text)];
    if (known.number === 0) return [said('master', text + filled(WORDS.results.counts, known.major, known.minor))];
    return [said('master', text), ...tellNumber('master', known.number)];
}

function tellArguments(bus, code) {
    if (code === 0x01) {
        return [
            said('note', `wrong: ${WORDS.arguments.address}${WORDS.reserved[bus]}`),
            said('note', WORDS.arguments.stays),
            advice(`${WORDS.arguments.send}${WORDS.choice[bus]}${WORDS.listen}`),
        ];
    }
    return [advice(WORDS.arguments[{ 0x06: 'write', 0x08: 'read' }[code] ?? 'other'])];
}

function tellStatus(bus, { code, status, results, version }) {
    const { name, words, do: todo } = WORDS.statuses[status];
    const text = `status ${status}, ${name}`;
    if (status === 0) return tellVersion(text + resultsText(code, results), version);
    return [said('master', `${text}: ${words}`), ...todo ? [advice(todo)] : [], ...status === 5 ? tellArguments(bus, code) : []];
}

function tellDecoded(bus, asked, decoded) {
    if (!decoded) return [];
    const unserved = decoded.served ? [] : tellUndecoded(bus, asked.code, 7);
    const rest = decoded.number === 0 ? tellStatus(bus, decoded) : tellUndecoded(bus, decoded.code, decoded.number);
    return [...unserved, ...rest];
}

// ---- what must not be missed, and what changed

function tellAlarms({ lost, unworn, decoded, after }) {
    const { waiting, next } = stateFields(after.state);
    const ok = decoded?.number === 0 && decoded.status === 0;
    const wait = ok ? WORDS.alarms.okWaiting : WORDS.alarms.waiting;
    return [
        ...lost ? tellAlarm({ alarm: few(WORDS.alarms.lost, lost), do: WORDS.alarms.lost.do }) : [],
        ...waiting ? calm(tellAlarm({ alarm: few(wait, waiting), do: wait.do })) : [],
        ...unworn ? [said('alarm', (next === 0 ? WORDS.alarms.empty : WORDS.alarms.unworn).words, { fine: true })] : [],
    ];
}

const sameBytes = (a, b) => a.join() === b.join();

function tellChanges(before, after, pages) {
    const [from, to] = [stateFields(before.state), stateFields(after.state)];
    const words = WORDS.changes;
    const number = (text, name) => from[name] === to[name] ? [] : [filled(text, from[name], to[name])];
    const texts = [
        ...pages.map(page => filled(words.page, page)),
        ...from.own === to.own ? [] : [to.own === null ? words.default : filled(words.own, to.own)],
        ...from.last > 0 && to.last === 0 ? [words.noLast] : [],
        ...from.running && !to.running ? [words.stopped] : [],
        ...!from.running && to.running ? [words.runs] : [],
        ...number(words.next, 'next'), ...number(words.waiting, 'waiting'), ...number(words.count, 'count'),
        ...from.waiting === to.waiting && !sameBytes(from.bytes, to.bytes) ? [words.others] : [],
    ];
    return (texts.length ? texts : [words.nothing]).map(text => said('board', text));
}

// ---- uploads and reset-running

function tellEnd(step) {
    const { end, holds, since, length, sizes, answered, after } = step;
    const { waiting, count } = stateFields(after.state);
    const running = WORDS.running;
    const worded = ({ words, do: todo }) => [said('master', words), advice(todo)];
    switch (end) {
        case undefined: return [];
        case 'noSize': return tellAlarm(WORDS.upload.noSize);
        case 'tooLong': return tellAlarm({ ...WORDS.upload.tooLong, alarm: filled(WORDS.upload.tooLong.alarm, ...sizes) });
        case 'done': {
            const [back, done] = WORDS.upload.done.split('\n  ');
            return [
                said('master', `${WORDS.upload.back}${counted(length, 'byte')} ${back}`),
                said('master', `${done}${counted(count, 'page')} erased`),
            ];
        }
        case 'broken': return [
            ...tellAlarm(WORDS.ends[holds]),
            ...holds === 1 ? [said('board', `${WORDS.upload.since} ${since.join(' ')}`)] : [],
            ...waiting ? [said('alarm', few(WORDS.alarms.waiting, waiting))] : [],
        ];
        case 'noVersion': return worded(running.noVersion);
        case 'noneAfter': return worded(running.noneAfter);
        case 'notReset': return [...tellNumber('master', answered), said('master', answered === 1 ? running.already : running.nothing)];
        default: return { 0: worded(running.still), 1: [said('master', running.back)] }[answered] ?? [said('master', running.other)];
    }
}

function tellPlan({ stopped, unread, unlike }) {
    return [
        ...stopped === undefined ? [] : [said('master', filled(WORDS.upload.stopped, stopped))],
        ...unread === undefined ? [] : [said('alarm', filled(WORDS.upload.unread, unread))],
        ...unlike === undefined ? [] : [said('alarm', filled(WORDS.upload.unlike, unlike))],
    ];
}

function tellTo(step) {
    const { to } = step.after;
    const moved = step.asked?.general ? to !== step.before.to : step.asked?.moves && to === step.asked.moves && step.decoded?.status === 0;
    return moved ? [said('master', filled(WORDS.master.moved, to))] : [];
}

// ---- a step

function tellMaster(bus, step) {
    const { asked, reply, replyHits, replyLost, decoded, arrived } = step;
    if (!arrived) return [];
    return [
        ...reply ? tellHits(reply, replyHits) : [],
        ...replyLost ? [said('bus', WORDS.page.replyLost)] : [],
        ...!arrived.length && decoded ? [said('master', WORDS.page.nothingCame)] : [],
        ...tellDecoded(bus, asked, decoded),
    ];
}

function tellCall(bus, step) {
    const { asked, sent, frameHits, frameLost, reply, before, after, pages } = step;
    const request = [said('bus', `${filled(WORDS.call.request, asked.to)}${bytesText(sent)}`), ...tellHits(sent, frameHits)];
    if (frameLost) return [...request, said('bus', WORDS.page.frameLost), ...tellMaster(bus, step), ...tellAlarms(step)];
    return [
        ...request,
        ...reply ? tellReply(step) : tellAnswer(step),
        ...!reply && asked.expects ? [said('master', WORDS.page.nothingCame)] : [],
        ...step.held ? [said('bus', WORDS.page.held)] : [],
        ...tellMaster(bus, step),
        ...tellAlarms(step),
        ...tellChanges(before, after, pages),
    ];
}

function tellRead(bus, step) {
    const { waiting } = stateFields(step.after.state);
    const told = [...tellReply(step), ...tellMaster(bus, step)];
    const which = step.which === null || step.which === undefined ? [] : [said('master', WORDS.page.reads[step.which])];
    const entry = step.decoded?.number === 0 && step.decoded.status === 0 ? WORDS.alarms.okWaiting : WORDS.alarms.waiting;
    return [...told, ...waiting ? calm(tellAlarm({ alarm: few(entry, waiting), do: entry.do })) : [], ...which];
}

function damageKey(what, whole) {
    return `${whole ? 'whole' : 'hit'}${what === 'byte' ? 'Frame' : 'Reply'}`;
}

function tellSetting(step) {
    const { kind, after, lost, fill, hit, whole, what, count, length } = step;
    const { waiting } = stateFields(after.state);
    const { board } = after;
    const losing = lost ? tellAlarm({ alarm: few(WORDS.alarms.lost, lost), do: WORDS.alarms.lost.do }) : [];
    const later = n => n ? `, ${filled(WORDS.page.later, counted(n, 'other'))}` : '';
    switch (kind) {
        case 'board': {
            const text = filled(WORDS.board.profile, board.longest, board.page, board.size, board.offset, board.hardware);
            return [said('board', WORDS.board.fresh[board.bus] + text), ...losing];
        }
        case 'flash': return [
            said('board', fill === undefined ? filled(WORDS.board.file, length) : `${WORDS.board.fill}${hex(fill)}`),
            ...waiting ? tellAlarm({ alarm: few(WORDS.alarms.waiting, waiting), do: WORDS.alarms.left }) : [],
        ];
        case 'to': return [said('master', filled(WORDS.master.now, after.to))];
        case 'application': return [said('board', after.answers ? WORDS.board.answers : WORDS.board.silent)];
        case 'damage': return [said('bus', filled(WORDS.page[damageKey(what, whole)], hit.byte) + later(hit.after))];
        case 'lose': return [said('bus', (what === 'frame' ? WORDS.page.loseFrame : WORDS.page.loseReply) + later(count))];
        case 'hold': return [said('bus', after.hold ? WORDS.page.holdOn : WORDS.page.holdOff)];
        case 'power': return [said('board', WORDS.page.power), ...losing];
        case 'tally': return [said('board', WORDS.page.tallyClear)];
        default: return [];
    }
}

// The argument that is out of its range.
function tellWrong(bus, { name, value, most }) {
    if (name === 'all') return [said('note', `wrong: ${WORDS.master.all}`)];
    if (name === 'reserved') {
        return [
            said('note', `${filled(WORDS.master.reserved, value)}${WORDS.reserved[bus]}`),
            ...value === 0 ? [said('note', WORDS.master.zero)] : [],
            advice(WORDS.choice[bus] + WORDS.listen),
        ];
    }
    return [said('note', filled(WORDS.master[name], value, most))];
}

function tellUnmade(bus, { number, wrong }) {
    return [...tellNumber('master', number), ...tellWrong(bus, wrong), said('master', WORDS.master.unsent)];
}

// All that is said of a step, in the bench's order.
function tell(step) {
    const { bus } = step.after.board;
    const told = {
        call: () => tellCall(bus, step),
        read: () => tellRead(bus, step),
        arrival: () => [...tellMaster(bus, step), ...tellAlarms(step)],
        unmade: () => tellUnmade(bus, step),
        plan: () => [said('master', step.after.plan.kind === 'upload'
            ? filled(WORDS.page.uploadBegins, step.after.plan.image.length, step.after.plan.piece) : WORDS.page.resetBegins)],
        stop: () => [said('master', WORDS.page.stopped)],
    }[step.kind];
    return [...told ? told() : tellSetting(step), ...tellPlan(step), ...tellTo(step), ...tellEnd(step)];
}
