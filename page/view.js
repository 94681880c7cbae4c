// Draws a session. Nothing is decided here: every number, alarm, page and count is the session's, which has it from the library.

const byId = id => document.getElementById(id);
const ADVICE = ['do', 'look', 'note'];

function el(tag, props = {}, ...children) {
    const node = document.createElement(tag);
    for (const [name, value] of Object.entries(props)) {
        if (value === false || value === null || value === undefined) continue;
        if (name.startsWith('on')) node.addEventListener(name.slice(2), value);
        else node.setAttribute(name, value === true ? '' : value);
    }
    node.append(...children.flat().filter(child => child !== null && child !== undefined));
    return node;
}

// A button with its key, which is its id too: by it the focus finds it again.
function button(key, text, act, props = {}) {
    return el('button', { type: 'button', id: key, 'data-key': key, onclick: act, ...props }, text);
}

const shortened = (text, most) => text.length > most ? `${text.slice(0, most - 10)} …` : text;

// What a byte of a frame is, by its place: on I²C the address stands beside the frame, and the check sum has one byte, on RS485 two.
function requestParts(bus, bytes, general) {
    const n = bytes.length;
    const [head, tail] = bus === 0 ? [0, general && n === 1 ? 0 : 1] : [1, 2];
    const parts = [['address', 'address', 0, head], ['command', 'command', head, head + 1]];
    const placed = [0x06, 0x08].includes(bytes[head]) && n - tail >= head + 3;
    if (placed) parts.push(['arguments', 'flash address', head + 1, head + 3]);
    const from = placed ? head + 3 : head + 1;
    const name = !placed ? 'arguments' : bytes[head] === 0x06 ? 'data' : 'how many';
    return cut([...parts, ['arguments', name, from, n - tail], ['sum', 'check sum', Math.max(from, n - tail), n]], n);
}

function replyParts(bus, bytes) {
    const n = bytes.length;
    const [head, tail] = bus === 0 ? [0, 1] : [1, 2];
    const results = Math.min(bytes[head + 1] ?? 0, Math.max(0, n - head - 2 - tail));
    const end = head + 2 + results;
    return cut([
        ['address', 'address', 0, head], ['command', 'status', head, head + 1], ['arguments', 'length', head + 1, head + 2],
        ['arguments', 'results', head + 2, end], ['sum', 'check sum', end, end + tail], ['beside', 'ignored', end + tail, n],
    ], n);
}

// The parts that a frame of n bytes has.
function cut(parts, n) {
    return parts.map(([kind, name, from, to]) => ({ kind, name, from, to: Math.min(to, n) })).filter(part => part.from < part.to);
}

// A frame's bytes in labelled groups. With `click`, each byte is a button that damages it.
function drawFrame(bytes, parts, { hits = [], beside = null, click = null, key = '', wanted = 0 }) {
    const hit = new Set(hits.map(item => item.byte - 1));
    const drawByte = (byte, i) => {
        const damaged = hit.has(i);
        const now = hex(damaged ? byte ^ 0xff : byte);
        const shown = damaged ? [el('s', {}, hex(byte)), now] : now;
        const name = `byte ${i + 1}, ${now}${damaged ? `, damaged, was ${hex(byte)}` : ''}`;
        const look = `byte${damaged ? ' damaged' : ''}${wanted === i + 1 && !damaged ? ' wanted' : ''}`;
        if (!click) return el('span', { class: look, title: name }, shown);
        return el('button', { type: 'button', class: look, 'aria-label': name, 'aria-pressed': String(damaged), 'data-key': `${key}${i}`,
            title: `Damage ${name}`, onclick: () => click(i + 1) }, shown);
    };
    const groups = parts.map(({ kind, name, from, to }) => el('div', { class: `group ${kind}` },
        el('span', { class: 'bytes' }, Array.from(bytes.slice(from, to), (byte, i) => drawByte(byte, from + i))), el('span', {}, name)));
    const address = () => el('div', { class: 'group beside' },
        el('span', { class: 'bytes' }, el('span', { class: 'byte' }, String(beside))), el('span', {}, 'address, beside'));
    return el('div', { class: 'groups', 'data-roving': click ? key : null }, beside === null ? [] : address(), groups);
}

// A reply that the master cannot use, or a status other than OK.
function isFailure({ side, text, number }) {
    return side === 'master' && (number >= 7 && number <= 13 || /^status [1-9]/.test(text));
}

// Advice that names a line of the bench, with where the page has it.
function hereText(text) {
    const found = Object.keys(WORDS.page.here).find(name => text.includes(name));
    return found ? `${text} (${WORDS.page.here[found]})` : text;
}

// What docs/NUMBERS.md says of a number or a status.
function more({ means, next }) {
    return el('details', {}, el('summary', {}, 'more'), el('p', {}, means), el('p', { class: 'do' }, next));
}

const PHASES = {
    info: 'it asks the board who it is', write: 'writing', finalize: 'all bytes are accepted: finalize is next', read: 'reading back',
};

// Where the focus goes when a button is gone.
const AFTER = {
    'do-it': ['choice-0', 'next-lesson', 'leave-lesson'], 'next-lesson': ['do-it', 'choice-0'], 'begin-lesson': ['do-it'],
    begin: ['next'], 'reset-running': ['next'], next: ['begin'], all: ['pause', 'next', 'begin'], pause: ['next', 'begin'],
    stop: ['begin'],
    send: ['arrive'], arrive: ['send'], 'lose-reply': ['send'],
};

class View {
    constructor(actions) {
        this.actions = actions;
        this.page = null;
        document.addEventListener('keydown', event => this.arrow(event));
    }

    // ---- the whole page. While an upload goes on by itself the alarms stand still, so that nothing moves under the hand.

    draw(session, preview, busy) {
        const told = session.last ? tell(session.last) : [];
        this.drawPlace(session);
        if (!busy) this.drawAlarms([...told, ...session.earlierAlarms()]);
        this.drawMaster(session, told);
        this.drawBus(session, preview, told);
        this.drawBoard(session, told);
        this.drawSteps(session);
        document.querySelectorAll('[data-roving]').forEach(group => this.rove(group));
    }

    // The focus goes back to where it was, or, where that is gone, to what comes after it.
    focus(key) {
        const places = [key, ...AFTER[key] ?? (key.startsWith('choice') ? AFTER['do-it'] : [])];
        const found = places.map(place => document.querySelector(`[data-key="${CSS.escape(place)}"]`) ?? byId(place))
            .find(node => node && !node.disabled && node.offsetParent !== null);
        if (found && found !== document.activeElement) found.focus();
    }

    drawPlace(session) {
        const { at, steps, dropped } = session;
        byId('place').textContent = at === 0 ? 'at the beginning' : `step ${at} of ${steps.length}`;
        byId('back').disabled = at === 0;
        byId('forward').disabled = at === steps.length;
        byId('restore').hidden = dropped.length === 0;
        byId('restore').textContent = `Bring back ${counted(dropped.length, 'step')} put aside`;
    }

    // An alarm with what to do about it. A reply that cannot be used, or a refusal, comes first: what it asks for is right, and not what
    // is to be done about waiting bytes when all is well.
    drawAlarms(told) {
        const failed = told.filter(line => isFailure(line));
        const boxes = failed.map(line => this.alarmBox('alarm failure', line.text, told, line, true));
        const alarms = told.filter(item => item.side === 'alarm');
        for (const line of alarms.filter((item, i) => alarms.findIndex(({ text }) => text === item.text) === i)) {
            const look = line.fine ? 'alarm fine' : line.calm ? 'alarm calm' : 'alarm';
            boxes.push(this.alarmBox(look, line.text, told, line, !(line.calm && failed.length)));
        }
        byId('alarms').replaceChildren(...boxes);
    }

    alarmBox(look, text, told, line, advised) {
        const rest = told.slice(told.indexOf(line) + 1);
        const end = rest.findIndex(item => !ADVICE.includes(item.side));
        const lines = advised ? rest.slice(0, end < 0 ? rest.length : end) : [];
        return el('div', { class: look }, el('strong', {}, text), lines.map(item => el('div', { class: item.side }, hereText(item.text))));
    }

    // Whether a line is advice that belongs to an alarm: only such lines stand between them.
    follows(told, line) {
        let i = told.indexOf(line);
        if (!ADVICE.includes(line.side)) return false;
        while (i >= 0 && ADVICE.includes(told[i].side)) i -= 1;
        return told[i]?.side === 'alarm';
    }

    drawTold(id, told, sides) {
        const nodes = [];
        let shown = false;
        for (const line of told) {
            if (ADVICE.includes(line.side)) {
                if (shown && !this.follows(told, line)) nodes.push(el('p', { class: line.side }, hereText(line.text)));
                continue;
            }
            shown = sides.includes(line.side);
            if (!shown) continue;
            nodes.push(el('p', {}, line.text));
            const entry = line.number === undefined ? statusEntry(line.text) : WORDS.numbers[line.number];
            if (entry?.means) nodes.push(more(entry));
        }
        byId(id).replaceChildren(...nodes);
    }

    // ---- master

    drawMaster(session, told) {
        const { now } = session;
        const { plan } = now;
        byId('read-again').hidden = now.board.bus !== 0;
        byId('plan').hidden = !plan;
        byId('upload').hidden = Boolean(plan);
        if (plan) this.drawPlan(session);
        this.drawTold('told-master', told, ['master']);
    }

    drawPlan({ now }) {
        const { plan } = now;
        const { waiting, count } = stateFields(now.state);
        const upload = plan.kind === 'upload';
        const reading = plan.phase === 'read';
        const done = upload ? `${plan.place} of ${counted(plan.image.length, 'byte')} ${reading ? 'read back' : 'accepted'}` : '';
        byId('plan-text').textContent = upload
            ? `Upload, ${PHASES[plan.phase]}: ${done}, ${counted(count, 'page')} erased, ${counted(waiting, 'byte')} waiting`
            : 'reset-running';
        byId('progress').hidden = !upload;
        byId('progress').max = upload ? plan.image.length : 1;
        byId('progress').value = upload ? plan.place : 0;
    }

    // ---- bus

    drawBus(session, preview, told) {
        const { now } = session;
        byId('bus-name').textContent = `${now.board.bus === 0 ? 'I²C' : 'RS485'}, frames of at most ${now.board.longest} bytes`;
        byId('hold').checked = now.hold;
        byId('next-frame').replaceChildren(...now.onBus ? this.heldReply(now) : this.nextFrame(session, preview));
        byId('wire').replaceChildren(...this.wire(session));
        this.drawTold('told-bus', told.filter(line => !line.text.startsWith(filled(WORDS.call.request, '').slice(0, 8))), ['bus']);
    }

    nextFrame({ now }, preview) {
        if (!preview) return [];
        const { frame, to, general, number, error, wrong, wanted } = preview;
        const none = error ?? (number === 0 ? null : [numberText(number), ...wrong].join('; '));
        if (none) return [el('div', { class: 'frame' }, el('h3', {}, 'Next frame'), el('p', { class: 'gone' }, none))];
        const lost = due(now.frameLosses).length > 0;
        const { bus } = now.board;
        const damage = { hits: due(now.frameHits), click: byte => this.actions.damage(byte), key: 'frame-', wanted };
        const lose = button('lose-frame', lost ? 'This frame will be lost' : 'Lose this frame', () => this.actions.run('lose frame'),
            { disabled: lost });
        return [el('div', { class: 'frame' },
            el('h3', {}, 'Next frame ', el('small', {}, 'click a byte to damage it on its way')),
            drawFrame(frame, requestParts(bus, frame, general), { ...damage, beside: bus === 0 ? to : null }),
            el('div', { class: 'row' }, lose, ...this.ahead(now)))];
    }

    // Damage and losses that stand before later frames and replies.
    ahead(now) {
        const later = after => after ? `, ${filled(WORDS.page.later, counted(after, 'other'))}` : '';
        const texts = [
            ...now.replyHits.map(({ byte, after }) => filled(WORDS.page.hitReply, byte) + later(after)),
            ...now.replyLosses.map(({ after }) => WORDS.page.loseReply + later(after)),
            ...now.frameHits.filter(item => item.after).map(({ byte, after }) => filled(WORDS.page.hitFrame, byte) + later(after)),
        ];
        const lose = button('lose-next-reply', 'Lose its reply', () => this.actions.run('lose reply'));
        return [...due(now.replyLosses).length ? [] : [lose], ...texts.map(text => el('small', {}, text))];
    }

    heldReply(now) {
        const { reply, readAt } = now.onBus;
        return [el('div', { class: 'frame', id: 'held' },
            el('h3', {}, 'Reply on the bus ', el('small', {}, 'click a byte to damage it on its way')),
            drawFrame(reply, replyParts(now.board.bus, reply),
                { hits: due(now.replyHits), beside: readAt, click: byte => this.actions.run(`damage reply ${byte}`), key: 'reply-' }),
            el('div', { class: 'row' },
                button('arrive', 'Let it arrive', () => this.actions.run('arrive'), { class: 'main' }),
                button('lose-reply', 'Lose it', () => this.actions.run('lose reply'))))];
    }

    // The last frame, and the last reply to it, on the way or read once more.
    wire(session) {
        const { sent, replied } = session.lastFrames();
        return [...sent ? [this.sentFrame(sent)] : [], ...replied && !session.now.onBus ? [this.replyFrame(replied)] : []];
    }

    sentFrame({ sent, frameHits, frameLost, asked, after }) {
        const { bus } = after.board;
        return el('div', { class: 'frame' }, el('h3', {}, frameLost ? 'Last frame, lost on its way' : 'Last frame'),
            drawFrame(sent, requestParts(bus, sent, asked.general), { hits: frameHits, beside: bus === 0 ? asked.to : null }));
    }

    replyFrame({ kind, reply, replyHits, replyLost, readAt, held, after }) {
        if (!reply?.length) return el('p', { class: 'gone' }, 'No reply on the bus.');
        const state = replyLost ? ', lost on its way' : kind === 'read' ? ', read once more' : held ? ', held on the bus' : '';
        return el('div', { class: 'frame' }, el('h3', {}, `Reply${state}`),
            drawFrame(reply, replyParts(after.board.bus, reply), { hits: replyHits ?? [], beside: readAt }));
    }

    // ---- board

    drawBoard(session, told) {
        const { now } = session;
        const { board } = now;
        const fields = stateFields(now.state);
        byId('board-name').textContent = `type ${board.hardware}, ${board.size} bytes of working flash (S) from ${board.offset} (O) on`;
        byId('flash-name').textContent = `Flash, in pages of ${board.page} bytes`;
        byId('application').checked = now.answers;
        this.drawFacts(now, fields);
        this.drawWaiting(board, fields);
        this.drawMap(session, fields);
        this.drawPage(session, fields);
        this.drawTold('told-board', told, ['board']);
    }

    drawFacts(now, fields) {
        const [short, long, sum, foreign, answered] = tallyFields(now.tally);
        const dropped = `; dropped: ${short} too short, ${long} too long, ${sum} damaged, ${foreign} for others`;
        const application = `the application, which ${now.answers ? 'answers the version request' : 'is silent'}`;
        const facts = [
            ['listens to', fields.own === null ? '8 to 15, the default range' : `${fields.own}, its own address`],
            ['runs', fields.running ? application : 'the bootloader'],
            ['next address', fields.next],
            ['erase count', `${fields.count}, since the write at 0`],
            ...now.board.bus === 0 ? [['last reply', fields.last ? `${counted(fields.last, 'byte')}, kept for reads` : 'none']] : [],
            ['tally', `${answered} answered${now.board.bus === 0 ? '' : dropped}`],
        ];
        byId('facts').replaceChildren(...facts.flatMap(([name, value]) =>
            [el('dt', {}, name), el('dd', { id: `fact-${name.replace(' ', '-')}` }, String(value))]));
    }

    drawWaiting(board, { waiting, bytes, next }) {
        const page = Math.floor(next / board.page);
        byId('waiting').replaceChildren(waiting === 0
            ? el('div', { class: 'pile empty' }, 'No bytes wait.')
            : el('div', { class: 'pile' },
                el('strong', {}, `${counted(waiting, 'byte')} waiting here, in the board's memory: NOT in flash`),
                el('div', {}, Array.from(bytes, byte => el('span', { class: 'byte' }, hex(byte)))),
                el('p', {}, `For page ${page}, flash addresses ${next - waiting} to ${next - 1}: when it is full, or with finalize.`)));
    }

    drawMap(session, { waiting, next }) {
        const { now } = session;
        const { board, counts } = now;
        const expected = session.expectedPages();
        const waits = waiting ? Math.floor(next / board.page) : -1;
        const [cells, many] = [[], counts.length > 64];
        counts.forEach((count, page) => {
            if (page % (many ? 16 : 8) === 0) cells.push(el('span', { class: 'at' }, String(page * board.page)));
            cells.push(this.cell(page, count, expected.has(page), page === waits));
        });
        const { scrollTop } = byId('map');
        const named = { role: 'group', 'aria-label': 'Pages of the flash' };
        byId('map').replaceChildren(el('div', { class: many ? 'pages many' : 'pages', 'data-roving': 'page-', ...named }, cells));
        byId('map').scrollTop = now.plan && waits !== session.shown ? this.rowOf(next / board.page) : scrollTop;
        session.shown = waits;
        byId('legend').replaceChildren(...[
            ['page', '.', 'not rewritten yet'], ['page worn', '2', 'rewritten so often (+ ten times or more)'],
            ['page expected', '.!', 'about to be rewritten'], ['page waits', '.w', 'bytes wait for it'],
        ].flatMap(([look, mark, text]) => [el('span', { class: look }, mark), ` ${text}  `]));
    }

    // Where the map is to be scrolled to, so that a page is seen.
    rowOf(page) {
        const cell = document.querySelector(`[data-key="page-${Math.floor(page)}"]`);
        return cell ? cell.offsetTop - byId('map').clientHeight / 2 : 0;
    }

    cell(page, count, expected, waits) {
        const mark = count === 0 ? '.' : count < 10 ? String(count) : '+';
        const name = [
            `page ${page}`, count ? `rewritten ${counted(count, 'time')}` : 'untouched',
            expected ? 'about to be rewritten' : '', waits ? 'bytes wait for it' : '',
        ].filter(Boolean).join(', ');
        const look = ['page', count ? 'worn' : '', expected ? 'expected' : '', waits ? 'waits' : ''].filter(Boolean).join(' ');
        const marks = [mark, expected ? '!' : null, waits ? el('sup', {}, 'w') : null];
        const named = { title: name, 'aria-label': name, 'aria-pressed': String(this.page === page), 'data-key': `page-${page}` };
        return el('button', { type: 'button', class: look, onclick: () => this.actions.showPage(page), ...named }, marks);
    }

    // The bytes of the chosen page: before its last rewriting, now, and as they will be.
    drawPage(session) {
        const { now, flash } = session;
        const { board } = now;
        const box = byId('page-bytes');
        box.hidden = this.page === null || this.page >= pagesOf(board);
        if (box.hidden) return;
        const at = board.offset + this.page * board.page;
        const part = bytes => bytes.slice(at, at + board.page);
        const current = part(flash);
        const old = now.olds.get(this.page);
        const coming = session.expectedPages().has(this.page) ? part(now.plan?.tried ?? session.finalizedNow()) : null;
        const first = this.page * board.page;
        box.replaceChildren(
            el('h3', {}, `Page ${this.page}, flash addresses ${first} to ${first + board.page - 1} `,
                el('button', { type: 'button', 'data-key': 'close-page', onclick: () => this.actions.showPage(null) }, 'Close')),
            ...old ? [el('h4', {}, 'Old: before it was last rewritten'), byteTable(first, old, null)] : [],
            el('h4', {}, old ? 'New: in flash now (* another byte)' : 'In flash now'), byteTable(first, current, old),
            ...coming ? [el('h4', {}, now.plan?.tried ? 'After the upload (* another byte)' : 'After finalize (* another byte)'),
                byteTable(first, coming, current)] : []);
    }

    // ---- steps

    drawSteps({ steps, at }) {
        const from = Math.max(0, Math.min(at - 50, steps.length - 100));
        const shown = steps.slice(from, from + 100);
        byId('steps').start = from + 1;
        byId('steps').replaceChildren(...shown.map((step, i) => {
            const place = from + i + 1;
            const text = stepText(step);
            const look = place === at ? 'now' : place > at ? 'later' : '';
            return el('li', { class: look }, button(`step-${place}`, text, () => this.actions.go(place)));
        }));
        const here = byId(`step-${at}`);
        byId('steps').scrollTop = here ? here.offsetTop - byId('steps').clientHeight / 2 : 0;
    }

    // ---- keys: within a group of bytes or pages the arrows move, and one of them is in the order of the tabulator

    rove(group) {
        const buttons = [...group.querySelectorAll('button')];
        buttons.forEach((button, i) => { button.tabIndex = i === 0 ? 0 : -1; });
    }

    arrow(event) {
        const group = event.target.closest?.('[data-roving]');
        const row = group?.classList.contains('pages') && !group.classList.contains('many') ? 8 : 16;
        const step = { ArrowRight: 1, ArrowLeft: -1, ArrowDown: row, ArrowUp: -row, Home: -Infinity, End: Infinity }[event.key];
        if (!group || step === undefined) return;
        const buttons = [...group.querySelectorAll('button')];
        const to = buttons[Math.max(0, Math.min(buttons.length - 1, buttons.indexOf(event.target) + step))];
        event.preventDefault();
        event.target.tabIndex = -1;
        to.tabIndex = 0;
        to.focus();
    }
}

// A step's line, in short; of an upload's frame what it is.
function stepText({ line, plan }) {
    if (line !== 'next' || !plan) return shortened(line, 90);
    return `next: ${plan.phase}${['write', 'read'].includes(plan.phase) ? ` at ${plan.place}` : ''}`;
}

// The status that a line says, if it says one.
function statusEntry(text) {
    const found = /^status (\d),/.exec(text);
    return found ? WORDS.statuses[found[1]] : null;
}

// Bytes, eight in a row; those that are other ones than in `than` are marked.
function byteTable(first, bytes, than) {
    const rows = [];
    for (let i = 0; i < bytes.length; i += 8) {
        const look = (byte, j) => than && than[i + j] !== byte ? 'byte unlike' : 'byte';
        const cells = Array.from(bytes.slice(i, i + 8), (byte, j) => el('td', {}, el('span', { class: look(byte, j) }, hex(byte))));
        rows.push(el('tr', {}, el('th', {}, String(first + i)), cells));
    }
    return el('table', {}, rows);
}
