// All that happened, as steps that can be undone and done again. A step is a line with what it changed.

class Steps {
    steps = [];
    at = 0;
    // Steps that a new one in the past put aside.
    dropped = [];

    // Does a line; the step that it made, or null for a line that does nothing. A line that is refused changes nothing.
    run(line) {
        const action = parseLine(line, this.files);
        if (!action) return null;
        if (action.do === 'next' && action.count > 1) {
            let step = null;
            for (let i = 0; i < action.count; i++) step = this.run('next');
            return step;
        }
        return this.take(this.perform(line.trim(), action));
    }

    // What a line would do, with nothing done.
    perform(line, action) {
        const done = this[`do_${action.do.replace('-', '_')}`](action);
        const flash = done.flash ?? this.flash;
        const patches = done.patches ?? this.patches(done.after.board, done.pages ?? [], flash);
        return { line, ...done, before: this.now, after: this.retried(done.after, flash), flash, patches };
    }

    // A step of the future that is not gone back to is kept until the next one.
    take({ flash, ...step }) {
        if (this.at < this.steps.length) this.dropped = this.steps.slice(this.at);
        this.steps.length = this.at;
        this.steps.push(step);
        this.at += 1;
        this.now = step.after;
        this.flash = flash;
        return step;
    }

    patches(board, pages, flash) {
        return pages.map(page => {
            const at = board.offset + page * board.page;
            return { at, old: this.flash.slice(at, at + board.page), new: flash.slice(at, at + board.page) };
        });
    }

    // The step that made what is now; null at the beginning.
    get last() {
        return this.at ? this.steps[this.at - 1] : null;
    }

    // The last step that sent a frame since the board was set up, and the last one since then that had a reply, or should have had one.
    lastFrames() {
        const done = this.steps.slice(0, this.at);
        const from = done.findLastIndex(step => step.kind === 'board' || step.kind === 'power') + 1;
        const seen = done.slice(from);
        const sent = seen.findLastIndex(step => step.sent);
        const replied = seen.slice(Math.max(sent, 0)).findLast(step => step.reply || step.sent || step.kind === 'read');
        return { sent: seen[sent] ?? null, replied: replied ?? null };
    }

    go(to) {
        const flash = this.flash.slice();
        while (this.at > Math.max(0, to)) {
            this.at -= 1;
            for (const patch of this.steps[this.at].patches) flash.set(patch.old, patch.at);
        }
        while (this.at < Math.min(to, this.steps.length)) {
            for (const patch of this.steps[this.at].patches) flash.set(patch.new, patch.at);
            this.at += 1;
        }
        this.flash = flash;
        this.now = this.last ? this.last.after : this.first;
    }

    // Brings back the steps that a new one dropped: in place of those after the last step that both have.
    restore() {
        const lines = this.dropped;
        if (!lines.length) return;
        let from = this.steps.length;
        while (from > 0 && this.steps[from - 1].after !== lines[0].before) from -= 1;
        this.go(from);
        this.dropped = this.steps.slice(from);
        this.steps = [...this.steps.slice(0, from), ...lines];
    }

    // Another list of steps from the same beginning, up to its end. What was done instead is put aside.
    follow(path) {
        const same = path.every((step, i) => step === this.steps[i]);
        if (same) {
            this.go(path.length);
            return;
        }
        const common = path.findIndex((step, i) => step !== this.steps[i]);
        const other = this.steps.slice(common);
        this.go(0);
        this.steps = path.slice();
        this.go(path.length);
        this.dropped = other;
    }

    lines() {
        return this.steps.map(step => step.line);
    }
}
