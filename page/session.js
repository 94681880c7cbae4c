// What takes several frames, one after another: uploads and reset-running; and what is about to happen.

class Session extends Exchange {
    do_upload({ image, piece }) {
        const longest = this.mostData();
        if (piece > longest) throw new LineError(`frames ${piece}: at most ${longest} here`);
        const plan = { kind: 'upload', image, piece, phase: 'info', place: 0, readPiece: this.mostRead() };
        return { kind: 'plan', after: { ...this.now, plan } };
    }

    do_reset_running() {
        return { kind: 'plan', after: { ...this.now, plan: { kind: 'reset-running', phase: 'version' } } };
    }

    do_next() {
        const { plan } = this.now;
        if (!plan) throw new LineError('there is nothing to go on with');
        const action = this.planned(plan);
        this.free();
        const done = action.do === 'frame'
            ? this.exchange({ code: 0x46, length: 0, to: 0, expects: false, general: true, planned: true }, action.frame)
            : this.do_request({ ...action, planned: true });
        return this.planning({ ...done, plan, flash: done.flash ?? this.flash });
    }

    do_stop() {
        if (!this.now.plan) throw new LineError('there is nothing to stop');
        const { plan } = this.now;
        return { kind: 'stop', plan, after: { ...this.now, plan: null }, ...this.uploadEnd(plan, this.now, this.flash, false) };
    }

    // The next request of a plan.
    planned(plan) {
        const plain = code => ({ do: 'request', code, a: 0, b: 0, data: NO_BYTES });
        const { image, piece, place } = plan;
        switch (plan.phase) {
            case 'info': return plain(0x03);
            case 'write': return { do: 'request', code: 0x06, a: place, b: 0, data: image.slice(place, place + piece) };
            case 'finalize': return plain(0x07);
            case 'read': return { do: 'request', code: 0x08, a: place, b: Math.min(plan.readPiece, image.length - place), data: NO_BYTES };
            case 'reset': return { do: 'frame', frame: plan.frame };
            default: return plain(0x00);
        }
    }

    // A step that may be one of a plan: the plan after it, and its end if it ended. A step whose reply is held decides nothing yet.
    planning(step) {
        const plan = step.kind === 'arrival' && step.asked.planned ? this.now.plan : step.plan;
        if (!plan || step.held) return step;
        const fine = step.decoded?.number === 0 && step.decoded.status === 0;
        const next = plan.kind === 'upload' ? this.uploadNext(plan, step, fine) : this.resetNext(plan, step, fine);
        return { ...step, plan, ...next.told, after: { ...step.after, plan: next.plan } };
    }

    uploadNext(plan, step, fine) {
        const { image, phase, place, piece, readPiece } = plan;
        const end = (told = {}) => ({ plan: null, told: { ...told, ...this.uploadEnd(plan, step.after, step.flash, false) } });
        if (phase === 'info') return this.uploadBegin(plan, step, fine);
        if (!fine) return end({ write: { stopped: place }, read: { unread: place } }[phase]);
        if (phase === 'finalize') return { plan: { ...plan, phase: 'read', place: 0 } };
        const to = Math.min(image.length, place + (phase === 'write' ? piece : readPiece));
        if (phase === 'read' && !this.beginsWith(step.decoded.results, image.subarray(place, to))) return end({ unlike: place });
        if (to < image.length) return { plan: { ...plan, place: to } };
        if (phase === 'write') return { plan: { ...plan, phase: 'finalize', place: to } };
        return { plan: null, told: this.uploadEnd(plan, step.after, step.flash, true) };
    }

    // After the hardware info: the upload is tried on a copy of the board, and begun if that copy holds the image then.
    uploadBegin(plan, step, fine) {
        if (!fine) return { plan: null, told: { end: 'noSize' } };
        const tried = this.rehearse(plan, step.after, step.flash);
        const sizes = [plan.image.length, step.decoded.results[3] * 256 + step.decoded.results[4]];
        const holds = this.library.uploadEnd(step.after.profile, plan.image, step.flash, tried);
        if (holds !== 0) return { plan: null, told: { end: 'tooLong', sizes } };
        return { plan: { ...plan, phase: 'write', earlier: step.flash, tried } };
    }

    // The flash of a copy of the board after all writes of an image that are left, and a finalize.
    rehearse({ image, piece, place }, now, flash) {
        let board = this.boardNow(now, flash);
        for (let at = place; at < image.length; at += piece) {
            const { number, frame } = this.encode(0x06, at, 0, image.slice(at, at + piece), now.to);
            if (number !== 0) return board.flash;
            board = { ...board, ...this.library.receive(board, now.to, frame) };
        }
        return this.finalized(board);
    }

    // The flash of a copy of the board after a finalize.
    finalized(board) {
        const { own } = stateFields(board.state);
        const to = own ?? FIRST_ADDRESS;
        const { number, frame } = this.encode(0x07, 0, 0, NO_BYTES, to);
        return number === 0 ? this.library.receive(board, to, frame).flash : board.flash;
    }

    // How an upload ended: whole and read back, or broken off with what the flash holds.
    uploadEnd(plan, now, flash, fine) {
        if (plan.kind !== 'upload') return {};
        if (!plan.earlier) return { end: 'noSize' };
        const holds = this.library.uploadEnd(now.profile, plan.image, plan.earlier, flash);
        if (fine && holds === 0) return { end: 'done', length: plan.image.length };
        const since = holds === 1 ? this.library.changedPages(now.profile, pagesOf(now.board), plan.earlier, flash) : [];
        return { end: 'broken', holds, since };
    }

    // Whether bytes begin with others, by the library's own test.
    beginsWith(bytes, others) {
        const profile = profileBytes({ ...DEFAULT_BOARD, bus: 0, size: 65472 });
        return this.library.uploadEnd(profile, others, bytes, bytes) === 0;
    }

    resetNext(plan, step, fine) {
        if (plan.phase === 'reset') return { plan: { ...plan, phase: 'again' } };
        const first = plan.phase === 'version';
        if (!fine) return { plan: null, told: { end: first ? 'noVersion' : 'noneAfter' } };
        const [major, minor] = step.decoded.results;
        const { number, frame } = this.library.resetRunning(this.bus, step.after.board.longest, major, minor);
        if (!first) return { plan: null, told: { end: 'reset', answered: number } };
        if (number !== 0) return { plan: null, told: { end: 'notReset', answered: number } };
        return { plan: { ...plan, phase: 'reset', frame } };
    }

    // What must not be missed of the finalize of an upload that ended with the last step.
    earlierAlarms() {
        const { last } = this;
        if (last?.end !== 'done') return [];
        const begun = this.steps.slice(0, this.at).findLastIndex(step => step.kind === 'plan');
        const unworn = this.steps.slice(begun, this.at - 1).filter(step => step.unworn);
        return unworn.flatMap(step => tell(step).filter(line => line.side === 'alarm'));
    }

    // ---- what is about to happen

    // Something came in between an upload's frames: what the rest of it will do is tried anew.
    retried(after, flash) {
        const { plan } = after;
        if (!plan?.tried || plan !== this.now.plan || after.state === this.now.state) return after;
        return { ...after, plan: { ...plan, tried: this.rehearse(plan, after, flash) } };
    }

    // The pages that will be rewritten if the upload goes on to its finalize, or, where there is none, if a finalize comes now.
    expectedPages() {
        const tried = this.now.plan?.tried ?? this.finalizedNow();
        return new Set(this.library.changedPages(this.now.profile, pagesOf(this.now.board), this.flash, tried));
    }

    finalizedNow() {
        return this.finalized(this.boardNow());
    }
}
