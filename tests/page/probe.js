// What a test reads from the page. Nothing here changes it, but for the place that it is scrolled to.
window.probe = (() => {
    const hexOf = bytes => bytes ? Array.from(bytes, byte => byte.toString(16).padStart(2, '0')).join('') : null;
    const all = selector => Array.from(document.querySelectorAll(selector));
    const texts = selector => all(selector).map(node => node.textContent);

    // The middle of an element on the screen, or why it cannot be clicked there.
    function place(selector) {
        const node = document.querySelector(selector);
        if (!node) return 'not there';
        node.scrollIntoView({ block: 'center', inline: 'nearest' });
        const box = node.getBoundingClientRect();
        if (!box.width || !box.height) return 'not seen';
        if (node.disabled) return 'disabled';
        const [x, y] = [box.x + box.width / 2, box.y + box.height / 2];
        const found = document.elementFromPoint(x, y);
        return node.contains(found) ? [x, y] : `covered by ${found?.id || found?.tagName}`;
    }

    function focus() {
        const { activeElement: node } = document;
        return node?.dataset?.key ?? (node?.id || node?.tagName);
    }

    // Puts the focus on a field, with its text chosen; or tells why not.
    function enter(id) {
        const where = place(`#${id}`);
        if (typeof where === 'string') return where;
        document.getElementById(id).focus();
        document.getElementById(id).select();
        return document.activeElement.id === id ? null : 'it takes no focus';
    }

    // Puts the focus on a list, and tells how many options below the chosen one another is.
    function way(id, value) {
        const list = document.getElementById(id);
        list.focus();
        return Array.from(list.options).findIndex(option => option.value === value) - list.selectedIndex;
    }

    // FNV-1a of 32 bits.
    function hash(bytes) {
        let sum = 0x811c9dc5;
        for (let i = 0; i < bytes.length; i++) sum = Math.imul(sum ^ bytes[i], 0x01000193);
        return sum >>> 0;
    }

    function base64(bytes) {
        let text = '';
        for (let i = 0; i < bytes.length; i += 4096) text += String.fromCharCode(...bytes.subarray(i, i + 4096));
        return btoa(text);
    }

    const facts = () => Object.fromEntries(all('#facts dt').map(name => [name.textContent, name.nextElementSibling.textContent]));
    const message = () => document.getElementById('message').hidden ? '' : document.getElementById('message').textContent;
    const marks = () => texts('#map [data-key^="page-"]');
    // a damaged byte shows the old one struck through before it
    const bytesIn = node => Array.from(node.querySelectorAll('.group:not(.beside) .byte'), byte => byte.lastChild.textContent).join('');

    function screen() {
        return {
            alarms: texts('#alarms .alarm:not(.failure) strong'), failures: texts('#alarms .failure strong'),
            advice: texts('#alarms .do, #alarms .look, #alarms .note'),
            master: texts('#told-master > p'), bus: texts('#told-bus > p'), board: texts('#told-board > p'),
            facts: facts(), marks: marks(), message: message(), waiting: document.getElementById('waiting').textContent,
            wire: all('#wire .frame').map(bytesIn), frame: all('#next-frame .frame').map(bytesIn).join(),
            place: document.getElementById('place').textContent,
        };
    }

    function snapshot() {
        const { now, flash } = childbus.session;
        return {
            state: hexOf(now.state), profile: hexOf(now.profile), tally: hexOf(now.tally), flash: hash(flash),
            facts: facts(), marks: marks(), alarms: texts('#alarms'), waiting: document.getElementById('waiting').textContent,
            onBus: Boolean(now.onBus), to: now.to,
        };
    }

    // The told lines of some steps, as the bench writes them.
    function told(from, to) {
        const indent = side => ['do', 'look', 'note'].includes(side) ? '    ' : '  ';
        const written = ({ side, text }) => side === 'alarm' ? `  ** ${text} **` : indent(side) + text;
        return childbus.session.steps.slice(from, to).flatMap(step => tell(step)).flatMap(line => written(line).split('\n'));
    }

    // The told lines of the last step by side, and its bytes on the wire.
    function last() {
        const step = childbus.session.last;
        if (!step) return null;
        const by = side => tell(step).filter(line => line.side === side).map(line => line.text);
        return {
            alarms: by('alarm'), master: by('master'), bus: by('bus'), board: by('board'),
            arrivedFrame: hexOf(step.arrivedFrame), reply: step.replyLost ? null : hexOf(step.arrived?.length ? step.arrived : step.reply),
            held: Boolean(step.held),
        };
    }

    function lesson() {
        const { lesson: now, session } = childbus;
        const button = document.getElementById('do-it');
        return {
            line: now.entry?.line ?? null, question: now.entry?.question ?? null, say: now.entry?.say ?? [],
            place: now.place, at: session.at, steps: session.steps.length, refused: Boolean(now.refusal),
            ready: Boolean(button) && !button.disabled,
            verdict: document.getElementById('verdict')?.textContent ?? '', end: document.getElementById('lesson-end')?.textContent ?? '',
            shown: document.body.innerText,
        };
    }

    // A step's values, for the same calls through another library.
    function dump(step) {
        const { plan, asked } = step;
        return {
            line: step.line, kind: step.kind, to: asked?.to, code: asked?.code, general: Boolean(asked?.general), raw: Boolean(asked?.raw),
            sent: hexOf(step.sent), arrivedFrame: hexOf(step.arrivedFrame), hits: step.frameHits?.map(hit => hit.byte),
            frameLost: Boolean(step.frameLost), number: step.number ?? null, reply: hexOf(step.reply), readAt: step.readAt ?? null,
            readNumber: step.readNumber ?? null, by: step.by ?? null, silence: step.silence ?? null, lost: step.lost ?? null,
            unworn: Boolean(step.unworn), pages: step.pages ?? [],
            plan: plan ? { kind: plan.kind, phase: plan.phase, place: plan.place } : null,
            profile: hexOf(step.after.profile), state: hexOf(step.after.state), tally: hexOf(step.after.tally),
            flash: hash(childbus.session.flash), readPiece: plan?.readPiece ?? null,
        };
    }

    // What is known of the board and its master now.
    function now() {
        const { now: { state, board, plan, onBus, to, code, asked, answers } } = childbus.session;
        const fields = stateFields(state);
        return {
            own: fields.own, running: fields.running, next: fields.next, waiting: fields.waiting, last: fields.last, bus: board.bus,
            longest: board.longest, size: board.size, page: board.page, hardware: board.hardware,
            planned: Boolean(plan), onBus: Boolean(onBus), to, code, asked, answers,
        };
    }

    return { place, focus, enter, way, hash, base64, screen, snapshot, told, last, lesson, dump, now, hexOf };
})();
