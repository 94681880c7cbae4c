/*
 * The loops of the plain C. jobs.c includes this once for each build of it: CALL(name) is the build's function of that name,
 * LOOP(name) the name of a loop here.
 */

static size_t LOOP(board)(const struct job *job)
{
    size_t sum = 0;
    for (size_t i = 0; i < input_count; i++) {
        size_t made;
        sum += CALL(receive)(&boards.plain_profile, &boards.plain_state, ADDRESS, pool + inputs[i].at, inputs[i].len,
                             boards.flash[PLAIN], FLASH, boards.out[PLAIN], job->frame, &made);
        sum += made;
    }
    return sum;
}

static size_t LOOP(tally)(const struct job *job)
{
    size_t sum = 0;
    for (size_t i = 0; i < counted_calls(job); i++) {
        const struct input *in = counted_input(job, i);
        size_t made;
        sum += CALL(receive_tally)(&boards.plain_profile, &boards.plain_state, ADDRESS, pool + in->at, in->len,
                                   boards.flash[PLAIN], FLASH, boards.out[PLAIN], job->frame, &boards.plain_tally, &made);
        sum += made;
    }
    return sum;
}

static size_t LOOP(read)(const struct job *job)
{
    size_t sum = 0;
    for (uint32_t i = 0; i < job->amount; i++) {
        size_t made;
        sum += CALL(read)(&boards.plain_profile, &boards.plain_state, ADDRESS, FLASH, boards.out[PLAIN], job->frame,
                          &made);
        sum += made;
    }
    return sum;
}

static size_t LOOP(encode)(const struct job *job)
{
    size_t sum = 0;
    for (size_t i = 0; i < input_count; i++) {
        size_t made;
        sum += CALL(encode)(job->bus, job->frame, inputs[i].code, ADDRESS, inputs[i].a, inputs[i].b,
                            pool + inputs[i].at, inputs[i].len, boards.out[PLAIN], job->frame, &made);
        sum += made;
    }
    return sum;
}

static size_t LOOP(decode)(const struct job *job)
{
    size_t sum = 0;
    for (size_t i = 0; i < input_count; i++) {
        uint32_t status;
        size_t start, len;
        sum += CALL(decode)(job->bus, inputs[i].code, ADDRESS, inputs[i].b, pool + inputs[i].at, inputs[i].len,
                            &status, &start, &len);
        sum += status + start + len;
    }
    return sum;
}

static size_t LOOP(two)(const struct job *job)
{
    size_t sum = 0;
    for (uint32_t i = 0; i < job->amount; i++) {
        size_t start, len;
        sum += CALL(two_reads)(inputs[0].code, inputs[0].b, pool + inputs[1].at, inputs[1].len, pool + inputs[0].at,
                               inputs[0].len, &start, &len);
        sum += start + len;
    }
    return sum;
}

static size_t LOOP(end)(void)
{
    return CALL(upload_end)(&boards.plain_profile, pool, inputs[0].len, boards.flash[PLAIN], FLASH, boards.flash[PLAIN], FLASH);
}

static size_t LOOP(pages)(void)
{
    size_t sum = 0;
    for (size_t i = 0; i < input_count; i++)
        sum += CALL(page_changed)(&boards.plain_profile, inputs[i].a, pool, FLASH, boards.flash[PLAIN], FLASH);
    return sum;
}

static size_t LOOP(run)(const struct job *job)
{
    switch (job->kind) {
    case UPLOAD_FIRST:
    case UPLOAD_REPEATED:
    case READ_BACK:
        return LOOP(board)(job);
    case UPLOAD_TALLY:
    case DROPPED:
        return LOOP(tally)(job);
    case READ_REPLY:
        return LOOP(read)(job);
    case ENCODE_WRITE:
    case ENCODE_SHORT:
        return LOOP(encode)(job);
    case DECODE_FULL:
    case DECODE_SHORT:
        return LOOP(decode)(job);
    case UPLOAD_END:
        return LOOP(end)();
    case PAGES_CHANGED:
        return LOOP(pages)();
    default: /* TWO_READS */
        return LOOP(two)(job);
    }
}
