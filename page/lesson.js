// Guided lessons: the bench's own scripts (lessons/*.txt), with a question before the answer is shown (lessons.json). A lesson has a
// session of its own; what was done before is kept beside it.

// What lines that only show something at the bench mean here.
const LOOK = {
    map: 'Look at the pages of the flash.',
    state: 'Look at the board: address, next address, waiting bytes.',
    tally: 'Look at the tally.',
};

class Lesson {
    constructor(lesson, session) {
        this.lesson = lesson;
        this.session = session;
        this.place = 0;
        this.path = [];
        this.choice = null;
        this.verdict = null;
        this.asked = 0;
        this.right = 0;
        this.refusal = null;
        this.said = [];
    }

    get entry() {
        return this.lesson.entries[this.place] ?? null;
    }

    // Whether the board is where the lesson left it, by its own steps alone.
    get onPath() {
        const { session, path } = this;
        return session.at === path.length && session.last === (path.at(-1) ?? null);
    }

    // The entry's line is done, on the lesson's own steps: what was tried besides is put aside. The frames of an upload go all at once.
    act() {
        const { session, entry } = this;
        session.follow(this.path);
        this.refusal = null;
        try {
            session.run(entry.line);
            while (session.now.plan && !session.now.onBus) session.run('next');
        } catch (error) {
            if (!(error instanceof LineError)) throw error;
            this.refusal = error.message;
        }
        this.pass();
    }

    // The entry's line was done, by the lesson's button or by hand.
    pass() {
        const { question } = this.entry;
        this.verdict = null;
        if (question) {
            const right = this.choice === question.right;
            this.asked += 1;
            this.right += right ? 1 : 0;
            this.verdict = { right, question, choice: this.choice };
        }
        this.choice = null;
        this.said = this.summary();
        this.path = this.session.steps.slice(0, this.session.at);
        this.place += 1;
    }

    // What was said on the way of several frames, and at their end, but for what stands among the alarms.
    summary() {
        const steps = this.session.steps.slice(this.path.length, this.session.at);
        if (steps.length < 2) return [];
        const alarms = steps.slice(0, -1).flatMap(tell).filter(line => line.side === 'alarm' && !line.calm && !line.fine);
        const end = tellEnd(steps.at(-1)).filter(({ side }) => side !== 'alarm' && !ADVICE.includes(side));
        return [...alarms, ...end].map(({ text }) => text);
    }

    // The next frame that the lesson will send, as an action, to be shown on the bus before it goes.
    coming(files) {
        for (const { line } of this.lesson.entries.slice(this.place)) {
            const action = parseLine(line, files);
            if (['request', 'general', 'send'].includes(action?.do)) return action;
            if (action && !['damage', 'to', 'application', 'lose', 'hold'].includes(action.do)) return null;
        }
        return null;
    }

    // The byte of the next frame that the lesson asks to be damaged; 0 for none.
    get wanted() {
        return Number(/^damage byte (\d+)$/.exec(this.entry?.line ?? '')?.[1] ?? 0);
    }

    // Whether a line that is done on the page is the one that the lesson waits for.
    waitsFor(line) {
        const { entry } = this;
        if (entry === null || entry.line !== line || !this.onPath) return false;
        return (!entry.question || this.choice !== null) && !/^(upload|reset-running)/.test(line);
    }
}

function drawLesson(lesson, actions) {
    const box = byId('lesson');
    box.hidden = lesson === null;
    if (lesson === null) return;
    const { entry, verdict, refusal } = lesson;
    const total = lesson.lesson.entries.length;
    box.replaceChildren(...[
        el('h2', {}, lesson.lesson.title, ' ', el('small', {}, `part ${Math.min(lesson.place + 1, total)} of ${total}`)),
        lesson.onPath ? null : el('p', { class: 'verdict', id: 'off-path' }, WORDS.page.offPath),
        refusal ? el('p', { class: 'verdict' }, `The line was refused: ${refusal}`) : null,
        verdict ? drawVerdict(verdict) : null,
        lesson.said.length ? el('div', { class: 'verdict' }, lesson.said.map(text => el('div', {}, text))) : null,
        ...entry ? drawEntry(lesson, entry, actions) : drawEnd(lesson, actions),
    ].filter(Boolean));
}

function drawVerdict({ right, question, choice }) {
    return el('div', { class: 'verdict', id: 'verdict' },
        el('strong', {}, right ? '✔ As you expected. ' : `✘ Not so. You expected: ${question.choices[choice] ?? 'nothing'}. `),
        question.why);
}

function drawEntry(lesson, entry, actions) {
    const { line, say, question } = entry;
    const look = LOOK[line];
    const ready = !question || lesson.choice !== null;
    return [
        ...say.map(text => el('p', {}, text)),
        look ? el('p', {}, look)
            : el('p', {}, 'Now: ', el('span', { class: 'line' }, shortened(line, 200)), ' ', el('small', {}, lineWords(line))),
        question ? drawQuestion(lesson, question, actions) : null,
        el('div', { class: 'row' },
            button('do-it', look ? 'Go on' : 'Do it', () => actions.lessonAct(), { class: 'main', disabled: !ready }),
            ready ? null : el('small', {}, 'What do you expect? Choose first.'),
            leaving(actions)),
    ];
}

// What a line does, for those who don't know the bench.
function lineWords(line) {
    const [first, second] = line.split(/\s+/);
    return WORDS.page.lines[`${first} ${second}`] ?? WORDS.page.lines[first] ?? '';
}

function drawQuestion(lesson, question, actions) {
    return el('fieldset', {}, el('legend', {}, el('strong', {}, question.ask)),
        question.choices.map((text, i) => {
            const choose = { onchange: () => actions.lessonChoose(i), checked: lesson.choice === i };
            return el('label', {}, el('input', { type: 'radio', name: 'choice', value: i, 'data-key': `choice-${i}`, ...choose }), text);
        }));
}

function drawEnd(lesson, actions) {
    const next = LESSONS[LESSONS.indexOf(lesson.lesson) + 1];
    return [
        el('p', { id: 'lesson-end' }, `The lesson is at its end. You expected ${lesson.right} of ${lesson.asked} rightly.`),
        el('p', {}, 'The board is as the lesson left it: try what you like, or step back through it.'),
        el('div', { class: 'row' },
            next ? button('next-lesson', `Next: ${next.title}`, () => actions.lessonBegin(next), { class: 'main' }) : null,
            button('same-lesson', 'Once more', () => actions.lessonBegin(lesson.lesson)),
            leaving(actions)),
    ];
}

function leaving(actions) {
    return button('leave-lesson', 'Leave the lesson', () => actions.lessonLeave());
}
