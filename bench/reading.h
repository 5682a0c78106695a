/* Reading a day's file of any size on a text that the proved reader accepts, as crates/dayread: for bench/plan.c and bench/long.c, which
 * define their own struct day before they include this. */
static const uint8_t *after_line(const uint8_t *at)
{
    while (*at != '\n')
        at++;
    return at + 1;
}

/* Reads a value and the one byte after it, a space or the end of the line. */
static uint32_t read_value(const uint8_t **at)
{
    uint32_t v = 0;
    for (; '0' <= **at; ++*at)
        v = 10 * v + (uint32_t)(**at - '0');
    ++*at;
    return v;
}

static size_t position_of(const struct day *d, uint32_t number)
{
    size_t i = 0;
    while (d->numbers[i] != number)
        i++;
    return i;
}

/* The head, the trains and the moves, up to the end or to the groups. Returns where it stopped. */
static const uint8_t *read_sections(struct day *d, size_t columns, const uint8_t *text, const uint8_t *end)
{
    const uint8_t *at = after_line(text);
    memset(d, 0, sizeof *d);
    d->trains = read_value(&at);
    d->tracks = read_value(&at);
    d->slots = (uint8_t)read_value(&at);
    d->revisit = read_value(&at);
    d->split = read_value(&at);
    at = after_line(at);
    for (size_t i = 0; i < d->trains; i++) {
        d->numbers[i] = read_value(&at);
        d->first[i] = (uint8_t)read_value(&at);
        d->last[i] = (uint8_t)read_value(&at);
    }
    at = after_line(at);
    while (at < end && *at != 'g') {
        size_t to = position_of(d, read_value(&at));
        size_t from = position_of(d, read_value(&at));
        d->boxes[to * columns + from] = (uint8_t)read_value(&at);
    }
    return at;
}
