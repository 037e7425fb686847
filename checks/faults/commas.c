/* Calls that write a roll as text and read it back, each made twice and held against document 02. */
#include "tally.h"
#include <string.h>

static uint8_t written[MOST_TEXT], back[MOST_TEXT], text[MOST_TEXT];

void try_export(struct slice roll)
{
    xew_opened checked = expected_check(roll.mine, roll.length);
    size_t need = checked.refusal ? 0 : expected_text(roll.mine, roll.length, written), start;
    size_t length = any_output(checked.refusal ? below(2 * roll.length + 1) : need, &start);
    xew_text expected = { .length = need };
    if (checked.refusal)
        expected = (xew_text){ .place = checked.place, .refusal = checked.refusal };
    else if (start > length || need > length - start)
        expected = (xew_text){ .refusal = start > length ? 5 : 6 };
    struct slice out = lend(&text_arena, "out", length, 1), lent = roll;
    maybe_null(&lent, EXPORT_ROLL);
    maybe_null(&out, EXPORT_OUT);
    for (int again = 0; again < 2; again++) {
        uint8_t byte = (uint8_t)bits();
        fill(&out, byte);
        BEGIN(EXPORT, "roll_len out_len start", lent.length, length, start);
        with_slice(&lent);
        with_slice(&out);
        xew_text t = xew_export(lent.lent, lent.length, out.lent, length, start);
        count(EXPORT, t.refusal, again);
        hold(t.length == expected.length && t.place == expected.place && t.refusal == expected.refusal,
             "xew_export: another answer than document 02's");
        size_t from = t.refusal ? 0 : start;
        hold(untouched(&out, byte, from, from + t.length), "xew_export: a byte changed beside the text or a refusal");
        hold(!memcmp((uint8_t *)out.mine + from, written, t.length), "xew_export: another text than document 02's");
    }
    if (checked.refusal)
        return;
    hold(need <= 3 * roll.length, "a text that has more than three bytes for each of its roll");
    xew_imported imported = expected_import(written, need, back);
    hold(imported.length == roll.length && !memcmp(back, roll.mine, roll.length), "the text of a roll is not imported as it");
}

void try_import(struct slice lent)
{
    xew_imported expected = expected_import(lent.mine, lent.length, written);
    enum text_fault met = text_fault;
    size_t need = expected.length, start, length = any_output(expected.refusal ? below(lent.length + 1) : need, &start);
    if (!expected.refusal) {
        hold(need <= lent.length, "a roll that has more bytes than its text");
        hold(expected_text(written, need, back) == lent.length && !memcmp(back, lent.mine, lent.length),
             "the roll of a text is not exported as it");
        if (start > length || need > length - start)
            expected = (xew_imported){ .refusal = start > length ? 5 : 6 };
    }
    struct slice out = lend(&out_arena, "out", length, 1);
    maybe_null(&lent, IMPORT_TEXT);
    maybe_null(&out, IMPORT_OUT);
    for (int again = 0; again < 2; again++) {
        uint8_t byte = (uint8_t)bits();
        fill(&out, byte);
        BEGIN(IMPORT, "text_len out_len start", lent.length, length, start);
        with_slice(&lent);
        with_slice(&out);
        xew_imported i = xew_import(lent.lent, lent.length, out.lent, length, start);
        count(IMPORT, i.refusal, again);
        hold(i.length == expected.length && i.line == expected.line && i.terms == expected.terms
                 && i.refusal == expected.refusal, "xew_import: another answer than document 02's");
        size_t from = i.refusal ? 0 : start;
        hold(untouched(&out, byte, from, from + i.length), "xew_import: a byte changed beside the roll or a refusal");
        hold(!memcmp((uint8_t *)out.mine + from, written, i.length), "xew_import: another roll than document 02's");
    }
    count_text_fault(met);
}

/* Other bytes in place of some; answers the length then. */
static size_t replaced(uint8_t *out, size_t length, size_t from, size_t to, const void *other, size_t size)
{
    memmove(out + from + size, out + to, length - to);
    memcpy(out + from, other, size);
    return length - (to - from) + size;
}

/* Where the line begins in which a place lies, and where the next one does. */
static size_t line_begins(const uint8_t *out, size_t at)
{
    while (at > 0 && out[at - 1] != '\n')
        at--;
    return at;
}

static size_t line_ends(const uint8_t *out, size_t length, size_t at)
{
    while (at < length && out[at] != '\n')
        at++;
    return at < length ? at + 1 : length;
}

/* Another number in place of the one at a place; at most limits, beyond them, with zeros before it, or none. */
static size_t renumbered(uint8_t *out, size_t length, size_t at)
{
    static const char *const numbers[] = {
        "0", "1", "2", "4", "5", "6", "7", "8", "11", "12", "16", "22", "23", "24", "25", "127", "128", "256", "00", "01", "007", "",
        "1048575", "1048576", "2176782336", "2176782337", "4294967295", "4294967296", "4294967297", "18446744073709551615",
        "18446744073709551616", "18446744073709551617", "99999999999999999999999999999999999999999999999999",
        "-1", "+1", "1.0", " 1", "1 ", "\"1\"", "1e0", "0x1",
    };
    const char *number = numbers[below(sizeof numbers / sizeof *numbers)];
    size_t from = at, to = at;
    while (from > 0 && out[from - 1] >= '0' && out[from - 1] <= '9')
        from--;
    while (to < length && out[to] >= '0' && out[to] <= '9')
        to++;
    return replaced(out, length, from, to, number, strlen(number));
}

/* Changes a line with the line behind it: lost, doubled, exchanged. */
static size_t relined(uint8_t *out, size_t length, size_t at)
{
    size_t begins = line_begins(out, at), middle = line_ends(out, length, at), ends = line_ends(out, length, middle);
    size_t size = middle - begins;
    switch (below(3)) {
    case 0: return replaced(out, length, begins, middle, "", 0);
    case 1:
        memmove(out + middle, out + begins, length - begins);
        return length + size;
    default:
        memcpy(back, out + begins, size);
        memmove(out + begins, out + middle, ends - middle);
        memcpy(out + ends - size, back, size);
        return length;
    }
}

static size_t changed(uint8_t *out, size_t length)
{
    static const char bytes[] = "0123456789,,\n\n \r\t-+.;\"x\0\200\377"; /* the one that ends it too */
    static const char *const after[] = { "\n", "1,0\n", "1,0", ",", "0", "1\n", "\r\n", "1,0,\n" };
    static const char *const feeds[] = { "\r\n", "\n\n", ",\n", "", " \n", "\r" };
    size_t at = length ? below(once_in(3) && length > 30 ? 30 : length) : 0, ends = line_ends(out, length, at);
    const char *other = once_in(2) ? after[below(8)] : feeds[below(6)];
    uint8_t byte = (uint8_t)bytes[below(sizeof bytes)];
    switch (length ? below(9) : 8) {
    case 0: out[at] = byte; return length;
    case 1: return replaced(out, length, at, at, &byte, 1);
    case 2: return replaced(out, length, at, at + 1, "", 0);
    case 3:
    case 4: return renumbered(out, length, at);
    case 5: return relined(out, length, at);
    case 6: return once_in(2) ? at : length - 1;
    case 7: /* the line feed of a line, and the count before it in the first */
        ends = once_in(2) ? line_ends(out, length, 0) : ends;
        return once_in(2) ? renumbered(out, length, ends - 1) : replaced(out, length, ends - 1, ends, other, strlen(other));
    default: return replaced(out, length, length, length, other, strlen(other));
    }
}

/* Numbers, commas and line feeds, in no order. */
static size_t text_noise(uint8_t *out)
{
    size_t length = below(once_in(10) ? 4000 : 60), at = 0;
    while (at < length)
        out[at++] = (uint8_t)"0123456789,,,,\n"[below(15)];
    if (length && once_in(2))
        out[at - 1] = '\n';
    return length;
}

void play_commas(uint8_t *bytes)
{
    size_t length = once_in(8) ? any_roll2(bytes) : any_roll(bytes);
    try_export(lend_copy(&roll_arena, "roll", bytes, length, 1));
    for (int i = 0; i < 4; i++) {
        size_t size = expected_text(bytes, good_roll(bytes, once_in(4) ? MOST_BYTES : 1500), text);
        if (once_in(12))
            size = once_in(4) ? 0 : text_noise(text);
        for (uint64_t times = below(3); times > 0; times--)
            size = changed(text, size);
        try_import(lend_copy(&import_arena, "text", text, size, 1));
    }
}
