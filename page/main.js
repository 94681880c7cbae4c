// The page itself: what its buttons and keys do.

const LINK_MOST = 60000;
const HEX_RECORD = /^:[0-9a-f]{8}/i;

const decodeBase64 = text => Uint8Array.from(atob(text), char => char.charCodeAt(0));

class Page {
    constructor(library) {
        this.library = library;
        this.files = Object.fromEntries(Object.entries(FILES).map(([name, text]) => [name, decodeBase64(text)]));
        this.session = new Session(library, this.files);
        this.kept = null;
        this.lesson = null;
        this.image = null;
        this.busy = false;
        this.welcomed = false;
        // whether the master's form, and its address, were changed by hand since the last lesson's step
        this.typed = false;
        this.typedTo = false;
        this.done = new Set();
        this.view = new View(this);
        this.listen();
        this.openLink();
        this.draw();
    }

    // ---- lines

    // Does a line; a refused one says why, and changes nothing.
    run(line) {
        return this.attempt(() => this.runLine(line));
    }

    // The same without a message. The lesson goes on if it waits for this line.
    runLine(line) {
        const waited = this.lesson?.waitsFor(line);
        const step = this.session.run(line);
        if (waited) this.lesson.pass();
        return step;
    }

    // A line that goes where the form says; first it is looked at, so that nothing is done of one that is refused.
    sendLine(line) {
        return this.attempt(() => {
            parseLine(line, this.files);
            this.takeTo();
            return this.runLine(line);
        });
    }

    attempt(act) {
        this.say('');
        let done = null;
        try {
            done = act();
        } catch (error) {
            if (!(error instanceof LineError)) throw error;
            this.say(`Not done, and nothing has changed: ${error.message}`);
        }
        this.draw();
        return done;
    }

    say(text) {
        byId('message').textContent = text;
        byId('message').hidden = text === '';
    }

    draw() {
        const { activeElement } = document;
        const key = activeElement?.dataset?.key ?? activeElement?.id;
        this.drawArguments();
        this.view.draw(this.session, this.preview(), this.busy);
        drawLesson(this.lesson, this);
        this.lock();
        if (key) this.view.focus(key);
    }

    // While an upload goes on by itself only its pause can be pressed; while a reply is on the bus, nothing else goes there.
    lock() {
        const held = Boolean(this.session.now.onBus);
        for (const id of ['head', 'lesson', 'request', 'more-requests', 'upload', 'bus', 'board', 'history']) byId(id).inert = this.busy;
        for (const id of ['send', 'read-again', 'next', 'all', 'stop']) byId(id).disabled = held || this.busy;
        byId('pause').hidden = !this.busy;
        byId('all').hidden = this.busy;
        byId('welcome').hidden = this.welcomed || this.lesson !== null || this.session.steps.length > 0;
    }

    // ---- the next frame

    get command() {
        return byId('command').value;
    }

    drawArguments() {
        for (const span of document.querySelectorAll('#request .fields')) {
            span.hidden = !span.dataset.for.split(' ').includes(this.command);
        }
        byId('send').textContent = this.session.now.plan || this.lesson ? 'Send in between' : 'Send';
        byId('send').classList.toggle('main', this.lesson === null);
        if (!this.typedTo) byId('to').value = this.session.now.to;
    }

    // Where the master's form sends to: what is typed, or else where it sent to before.
    get to() {
        const typed = byId('to').value.trim();
        return this.typedTo && /^\d+$/.test(typed) && Number(typed) < 256 ? Number(typed) : this.session.now.to;
    }

    // Another address that was typed is where the master sends to from now on.
    takeTo() {
        const typed = byId('to').value.trim();
        const other = this.typedTo && typed !== String(this.session.now.to);
        this.typedTo = false;
        if (other) this.session.run(`to ${typed}`);
    }

    // A request of the master's form. The next write goes where this one ended.
    send() {
        const step = this.sendLine(this.line());
        if (step?.asked?.code !== 0x06 || step.decoded?.status !== 0 || this.command !== 'write') return;
        byId('flash-address').value = stateFields(step.after.state).next;
        this.draw();
    }

    // Damage to a byte of the next frame, by a click on it.
    damage(byte) {
        const wanted = this.lesson?.onPath ? this.lesson.wanted : 0;
        this.run(`damage byte ${byte}`);
        if (wanted && wanted !== byte) this.say(`The lesson asks for byte ${wanted}, which is marked. Back takes this one back.`);
    }

    // The line that the master's form makes.
    line() {
        const value = id => byId(id).value.trim();
        switch (this.command) {
            case 'write': return `write ${value('flash-address')} ${this.dataLine(value('data'))}`;
            case 'read': return `read ${value('flash-address')} ${value('length')}`;
            case 'set-address': return `set-address ${value('new-address')} type ${value('type')}`;
            case 'send': return `send ${value('raw')}`;
            default: return this.command;
        }
    }

    // Digits may have blanks between them here.
    dataLine(text) {
        return /^(fill|file)\b/i.test(text) ? text : text.replace(/\s+/g, '');
    }

    preview() {
        const { session } = this;
        try {
            const coming = session.now.plan ? { do: 'next' } : this.typed ? null : this.lesson?.coming(this.files);
            const action = coming ?? parseLine(this.line(), this.files);
            const asked = session.now.plan ? session.planned(session.now.plan) : action;
            const general = asked.do === 'general' || asked.do === 'frame';
            const to = coming ? session.now.to : this.to;
            const made = session.frameOf(action, to);
            const wrong = made?.number === 7 ? tellWrong(session.bus, session.wrongArgument(asked, to)).map(line => line.text) : [];
            const shown = general ? 0 : asked.do === 'send' ? asked.bytes[0] : to;
            return { ...made, general, wrong, to: shown, wanted: coming ? this.lesson?.wanted : 0 };
        } catch (error) {
            if (!(error instanceof LineError)) throw error;
            return { error: error.message };
        }
    }

    // ---- uploads

    imageText() {
        return this.image ? dataText(this.image.bytes) : this.dataLine(byId('image').value.trim());
    }

    // A file that was dropped or chosen: a case, or an image.
    async takeFile(file) {
        const refuse = why => this.say(`${file.name} is not taken, and nothing has changed: ${why}`);
        let text;
        try {
            text = new TextDecoder('latin1').decode(await file.slice(0, 200).arrayBuffer());
        } catch {
            return refuse('it is a folder, or cannot be read');
        }
        if (text.replace(/^\xef\xbb\xbf/, '').startsWith(CASE_HEADING.slice(0, 13))) return this.openCase(await file.text());
        if (file.size > MOST_BYTES) return refuse(`it has ${file.size} bytes, at most ${MOST_BYTES} are taken`);
        if (file.size === 0) return refuse('it is empty');
        return this.takeImage(file, new Uint8Array(await file.arrayBuffer()), text);
    }

    takeImage(file, bytes, text) {
        this.image = { name: file.name, bytes };
        const note = HEX_RECORD.test(text) ? ` It ${WORDS.board.hex}: its characters are taken as bytes.` : '';
        byId('image-note').textContent = `${file.name}, ${counted(bytes.length, 'byte')}.${note} Begin uploads it.`;
        this.say('');
    }

    // All frames of an upload, some at a time, so that the progress is seen and Pause can be pressed.
    async goOn() {
        this.busy = true;
        const { session } = this;
        try {
            while (this.busy && session.now.plan && !session.now.onBus) {
                const until = performance.now() + 60;
                while (performance.now() < until && session.now.plan && !session.now.onBus) session.run('next');
                this.draw();
                await new Promise(done => setTimeout(done));
            }
        } finally {
            this.busy = false;
            this.draw();
        }
    }

    // ---- steps

    go(to) {
        this.session.go(to);
        this.say('');
        this.draw();
    }

    showPage(page) {
        this.view.page = this.view.page === page ? null : page;
        this.draw();
    }

    // ---- cases

    // Opens a case: it is tried beside, and taken only if every line of it is understood.
    openCase(text) {
        this.busy = false;
        try {
            const session = new Session(this.library, this.files);
            for (const { line, place } of caseLines(text)) this.caseLine(session, line, place);
            this.leave();
            this.session = session;
            this.say(`The case is open: ${counted(session.steps.length, 'step')}. Back goes through it.`);
        } catch (error) {
            if (!(error instanceof LineError)) throw error;
            this.say(`The case is not opened, and nothing has changed: ${error.message}`);
        }
        this.draw();
    }

    caseLine(session, line, place) {
        try {
            session.run(line);
        } catch (error) {
            if (!(error instanceof LineError)) throw error;
            throw new LineError(`line ${place}, ${line.slice(0, 40)}: ${error.message}`);
        }
    }

    link() {
        const bytes = new TextEncoder().encode(caseText(this.session.lines()));
        const text = btoa(Array.from(bytes, byte => String.fromCharCode(byte)).join(''));
        return `${location.href.split('#')[0]}#case=${text.replaceAll('+', '-').replaceAll('/', '_').replace(/=+$/, '')}`;
    }

    // A case in the page's own link.
    openLink() {
        if (location.hash.startsWith('#case=')) this.openPasted(location.hash);
    }

    openPasted(text) {
        const found = /#case=(.*)$/s.exec(text.trim());
        if (!found) {
            this.openCase(text.trim());
            return;
        }
        let lines;
        try {
            lines = new TextDecoder('utf-8', { fatal: true }).decode(decodeBase64(found[1].replaceAll('-', '+').replaceAll('_', '/')));
        } catch {
            this.say('The case is not opened, and nothing has changed: the link is broken, a part of it is missing or another');
            return;
        }
        this.openCase(lines);
    }

    // ---- lessons

    lessonBegin(lesson) {
        byId('lessons-dialog').close();
        this.welcomed = true;
        if (this.lesson === null) this.kept = this.session;
        this.session = new Session(this.library, this.files);
        this.lesson = new Lesson(lesson, this.session);
        this.typed = false;
        this.say('');
        this.draw();
    }

    lessonChoose(choice) {
        this.lesson.choice = choice;
        this.draw();
    }

    lessonAct() {
        this.say('');
        this.typed = false;
        this.lesson.act();
        if (!this.lesson.entry) this.done.add(this.lesson.lesson.name);
        this.draw();
    }

    leave() {
        if (this.lesson) this.session = this.kept;
        this.lesson = null;
        this.kept = null;
    }

    lessonLeave() {
        this.leave();
        this.say('You are back where you were before the lesson.');
        this.draw();
    }

    // ---- buttons and keys

    listen() {
        const click = (id, act) => byId(id).addEventListener('click', act);
        const submit = (id, act) => byId(id).addEventListener('submit', event => {
            event.preventDefault();
            act(event);
        });
        click('back', () => this.go(this.session.at - 1));
        click('forward', () => this.go(this.session.at + 1));
        click('restore', () => {
            this.session.restore();
            this.draw();
        });
        submit('request', () => this.send());
        byId('to').addEventListener('input', () => { this.typedTo = true; });
        byId('request').addEventListener('input', () => {
            this.typed = true;
            this.draw();
        });
        click('read-again', () => this.sendLine('i2c-read'));
        click('reset-running', () => this.sendLine('reset-running'));
        submit('upload', () => this.sendLine(`upload ${this.imageText()} frames ${byId('frames').value.trim()}`));
        byId('image').addEventListener('input', () => this.forgetFile());
        click('next', () => this.run('next'));
        click('all', () => this.goOn());
        click('pause', () => { this.busy = false; });
        click('stop', () => this.run('stop'));
        byId('hold').addEventListener('change', event => this.run(`hold ${event.target.checked ? 'on' : 'off'}`));
        byId('application').addEventListener('change', event => this.run(`application ${event.target.checked ? 'answers' : 'silent'}`));
        click('power', () => this.run('power'));
        click('clear-tally', () => this.run('tally clear'));
        click('print', () => window.print());
        click('begin-lesson', () => this.lessonBegin(LESSONS[0]));
        click('close-welcome', () => {
            this.welcomed = true;
            this.draw();
        });
        byId('file').addEventListener('change', event => this.chosen(event.target, file => this.takeFile(file)));
        this.listenDrops();
        this.listenDialogs(click, submit);
        document.addEventListener('keydown', event => this.key(event));
        window.addEventListener('hashchange', () => this.openLink());
    }

    forgetFile() {
        this.image = null;
        byId('file').value = '';
        byId('image-note').textContent = '';
    }

    chosen(input, take) {
        if (input.files.length) take(input.files[0]);
    }

    listenDrops() {
        const drop = (name, act) => document.addEventListener(name, event => {
            event.preventDefault();
            act(event);
        });
        drop('dragover', () => document.body.classList.add('dropping'));
        drop('dragleave', () => document.body.classList.remove('dropping'));
        drop('drop', event => {
            document.body.classList.remove('dropping');
            if (event.dataTransfer.files.length) this.takeFile(event.dataTransfer.files[0]);
        });
    }

    listenDialogs(click, submit) {
        for (const close of document.querySelectorAll('dialog .close')) {
            close.addEventListener('click', () => close.closest('dialog').close());
        }
        click('show-lessons', () => this.showLessons());
        click('show-help', () => byId('help-dialog').showModal());
        click('show-board', () => this.showBoard());
        click('show-case', () => this.showCase());
        submit('board-form', event => {
            byId('board-dialog').close();
            if (event.submitter?.value === 'flash') this.run(`flash fill ${byId('set-fill').value.trim()}`);
            else this.run(this.boardLine());
        });
        click('save-case', () => this.saveCase());
        click('link-case', () => this.showLink());
        click('copy-link', () => {
            byId('link').select();
            navigator.clipboard?.writeText(byId('link').value).catch(() => {});
        });
        click('open-case', () => {
            byId('case-dialog').close();
            this.openPasted(byId('case-paste').value);
        });
        byId('case-file').addEventListener('change', event => this.chosen(event.target, async file => {
            byId('case-dialog').close();
            this.openCase(await file.text());
            event.target.value = '';
        }));
    }

    // The three errors first; those that were taken to their end have a mark.
    showLessons() {
        const item = lesson => el('li', {}, button(`lesson-${lesson.name}`, `${this.done.has(lesson.name) ? '✔ ' : ''}${lesson.title}`,
            () => this.lessonBegin(lesson)));
        byId('lesson-list').replaceChildren(
            el('h3', {}, 'The three errors'), el('ul', {}, LESSONS.slice(0, 3).map(item)),
            el('h3', {}, 'Further lessons'), el('ul', {}, LESSONS.slice(3).map(item)));
        byId('lessons-dialog').showModal();
    }

    showBoard() {
        const { board } = this.session.now;
        for (const [name, [field]] of Object.entries(BOARD_NUMBERS)) {
            byId(`set-${name.length === 1 ? name.toUpperCase() : name}`).value = board[field];
        }
        byId('set-bus').value = ['i2c', 'rs485'][board.bus];
        byId('set-serial').value = Array.from(board.serial, hex).join('');
        byId('board-dialog').showModal();
    }

    boardLine() {
        const value = name => byId(`set-${name}`).value.trim();
        const words = Object.values(BOARD_NUMBERS).map(([, name]) => `${name} ${value(name)}`);
        const serial = value('serial') === '' ? [] : [`serial ${value('serial')}`];
        return ['board', value('bus'), ...words, ...serial].join(' ');
    }

    showCase() {
        byId('case-text').value = caseText(this.session.lines());
        byId('link-row').hidden = true;
        byId('case-dialog').showModal();
    }

    saveCase() {
        const url = URL.createObjectURL(new Blob([byId('case-text').value], { type: 'text/plain' }));
        el('a', { href: url, download: 'childbus-case.txt' }).click();
        setTimeout(() => URL.revokeObjectURL(url), 1000);
    }

    showLink() {
        const link = this.link();
        const fits = link.length <= LINK_MOST;
        byId('link-row').hidden = false;
        byId('link').value = fits ? link : 'This case is too long for a link: save it as a file.';
        byId('link').select();
    }

    key(event) {
        if (event.target.closest('input, select, textarea, dialog') || event.ctrlKey || event.altKey || event.metaKey || this.busy) return;
        if (event.key === '[') this.go(this.session.at - 1);
        if (event.key === ']') this.go(this.session.at + 1);
    }
}

Library.load(decodeBase64(WASM)).then(library => {
    window.childbus = new Page(library);
    document.body.dataset.ready = 'yes';
}).catch(error => {
    byId('message').textContent = `The library could not be started in this browser: ${error.message}`;
    byId('message').hidden = false;
    throw error;
});
