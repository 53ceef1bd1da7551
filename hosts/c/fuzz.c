/* Calls the C interface at random, in any order, with good and bad arguments, and checks what has to hold behind each
 * call.
 *
 *     fuzz SEED CALLS           no allocation fails
 *     fuzz SEED CALLS memory    allocations fail at random; behind a failure the handle has to be usable, and its line
 *                               to go on
 *
 * Ends with 0, or says which call broke which property, and ends with 1. */
#define _XOPEN_SOURCE 700
#include "comvizga.h"

#include <signal.h>
#include <stdio.h>
#include <stdlib.h>
#include <string.h>
#include <unistd.h>

/* ---------------------------------------------------------------------------------------------- chance */

static uint64_t state;

static uint64_t chance(uint64_t below)
{
    state ^= state << 13;
    state ^= state >> 7;
    state ^= state << 17;
    return (state >> 11) % below;
}

#define ONE_OF(list) ((list)[chance(sizeof(list) / sizeof *(list))])

/* ---------------------------------------------------------- the allocator, in place of the C library's */

struct allocated {
    uint64_t is_there;
    void *at;
};
struct allocated rattle_alloc(size_t size, size_t align);
struct allocated rattle_realloc(void *at, size_t old_size, size_t size, size_t align);
void rattle_dealloc(void *at, size_t size, size_t align);

static long living;        /* blocks that are not freed */
static long taken;         /* how often memory was taken, or a block grew */
static int may_fail;       /* whether allocations may fail now */
static int has_failed;     /* whether one did since the last call was checked */
static int lasts;          /* whether behind a failure all allocations of the same call fail */
static long until_failure; /* where not 0: the allocation that fails, counted down */

static struct allocated allocated(void *before, size_t size)
{
    static char nothing[64];
    struct allocated none = {0, nothing};
    int fails = until_failure ? --until_failure == 0 : (lasts && has_failed) || (may_fail && chance(40) == 0);
    struct allocated block = {1, fails ? NULL : realloc(before, size ? size : 1)};
    has_failed |= fails;
    taken++;
    living += block.at && !before;
    return block.at ? block : none;
}

struct allocated rattle_alloc(size_t size, size_t align)
{
    return allocated(NULL, size ? size : align);
}

struct allocated rattle_realloc(void *at, size_t old_size, size_t size, size_t align)
{
    (void)old_size;
    return allocated(at, size ? size : align);
}

void rattle_dealloc(void *at, size_t size, size_t align)
{
    (void)size;
    (void)align;
    living--;
    free(at);
}

/* ----------------------------------------------------------------------------------------- the handles */

/* A line that is longer is dropped, and one that is much longer with its editor, whose killed text may be as long. */
enum { HANDLES = 3, LONGEST = 4096, LONG = 2000, TOO_LONG = 20000 };

struct slot {
    comvizga handle;
    int is_held;  /* whether it holds an editor */
    int has_line; /* whether a line goes on */
    int had_line; /* whether one was submitted */
};
static struct slot slots[HANDLES];
static long call;
static const char *called = "";

static void broken(const char *what, uint32_t status)
{
    printf("call %ld, %s, status %u: %s\n", call, called, (unsigned)status, what);
    exit(1);
}

/* Called where a call takes longer than a minute. */
static void is_late(int number)
{
    (void)number;
    broken("the call does not return", 0);
}

static void must(int holds, const char *what, uint32_t status)
{
    if (!holds)
        broken(what, status);
}

#define BIT(status) (UINT32_C(1) << (status))
enum {
    ENDS = BIT(COMVIZGA_SUBMITTED) | BIT(COMVIZGA_ENDED) | BIT(COMVIZGA_INTERRUPTED),
    GOES_ON = BIT(COMVIZGA_OK) | BIT(COMVIZGA_SUSPENDED),
    READS = GOES_ON | ENDS,
    REFUSES = BIT(COMVIZGA_NO_LINE) | BIT(COMVIZGA_HAS_LINE)
};

/* Whether a status is among these. */
static int is_of(uint32_t status, uint32_t statuses)
{
    return status < 32 && (statuses & BIT(status));
}

/* Checks that a status is one of those that a call of a handle may answer. Where an allocation failed it may be
 * COMVIZGA_NO_MEMORY, too, unless the call has to refuse. */
static void check(const struct slot *slot, int gave_null, uint32_t status, uint32_t may)
{
    if (gave_null)
        must(status == COMVIZGA_NULL, "a null pointer was taken", status);
    else if (!slot->is_held)
        must(status == COMVIZGA_EMPTY, "an empty handle was used", status);
    else if (status == COMVIZGA_NO_MEMORY)
        must(has_failed && (may & ~(uint32_t)REFUSES), "no allocation failed, or none was needed", status);
    else
        must(is_of(status, may), "a status that may not come", status);
    has_failed = 0;
}

static int is_going_on(struct slot *slot)
{
    size_t cursor;
    return comvizga_cursor(&slot->handle, &cursor) == COMVIZGA_OK;
}

/* Checks whether a line goes on behind a call that begins one or reads keys, by its status, and notes it. Only a line
 * that ends is lost. */
static void note_line(struct slot *slot, uint32_t status, int begins)
{
    int goes_on;
    if (!slot->is_held)
        return;
    goes_on = is_going_on(slot);
    if (is_of(status, GOES_ON))
        must(goes_on, "no line goes on", status);
    else if (is_of(status, ENDS))
        must(!goes_on, "a line that ended goes on", status);
    else if (begins && status == COMVIZGA_NO_MEMORY)
        must(goes_on || !slot->has_line, "the line before is lost", status);
    else
        must(goes_on == slot->has_line, "a line is lost, or goes on that did not", status);
    slot->has_line = goes_on;
    slot->had_line |= status == COMVIZGA_SUBMITTED;
}

/* Checks what a call answered that begins a line. */
static void check_begun(struct slot *slot, int gave_null, uint32_t status, int is_good)
{
    check(slot, gave_null, status, is_good ? READS : BIT(COMVIZGA_NOT_TEXT));
    note_line(slot, status, 1);
}

/* Checks what a call answered that reads keys, and where a line goes on may answer these. */
static void check_read(struct slot *slot, int gave_null, uint32_t status, uint32_t may)
{
    check(slot, gave_null, status, slot->has_line ? may : BIT(COMVIZGA_NO_LINE));
    note_line(slot, status, 0);
}

/* Checks what comvizga_abandon answered: the line is dropped, or goes on. */
static void check_abandoned(struct slot *slot, int gave_null, uint32_t status)
{
    check(slot, gave_null, status, BIT(slot->has_line ? COMVIZGA_OK : COMVIZGA_NO_LINE));
    slot->has_line &= status != COMVIZGA_OK;
    must(!slot->is_held || is_going_on(slot) == slot->has_line, "a line that is dropped, or not", status);
}

static int is_boundary(const uint8_t *text, size_t length, size_t at)
{
    return at == length || (at < length && (text[at] & 0xC0) != 0x80);
}

/* The bytes of the UTF-8 character at the front of a text, or 0. */
static size_t character(const uint8_t *text, size_t length)
{
    static const struct {
        uint8_t first, last, low, high;
        size_t bytes;
    } forms[] = {
        {0x00, 0x7F, 0, 0, 1},       {0xC2, 0xDF, 0x80, 0xBF, 2}, {0xE0, 0xE0, 0xA0, 0xBF, 3},
        {0xE1, 0xEC, 0x80, 0xBF, 3}, {0xED, 0xED, 0x80, 0x9F, 3}, {0xEE, 0xEF, 0x80, 0xBF, 3},
        {0xF0, 0xF0, 0x90, 0xBF, 4}, {0xF1, 0xF3, 0x80, 0xBF, 4}, {0xF4, 0xF4, 0x80, 0x8F, 4},
    };
    for (size_t i = 0; i < sizeof forms / sizeof *forms; i++) {
        if (*text < forms[i].first || *text > forms[i].last || length < forms[i].bytes)
            continue;
        for (size_t k = 1; k < forms[i].bytes; k++)
            if (text[k] < (k == 1 ? forms[i].low : 0x80) || text[k] > (k == 1 ? forms[i].high : 0xBF))
                return 0;
        return forms[i].bytes;
    }
    return 0;
}

static int is_text(const uint8_t *text, size_t length)
{
    for (size_t i = 0, bytes; i < length; i += bytes)
        if (!(bytes = character(text + i, length - i)))
            return 0;
    return 1;
}

/* Checks that the line is UTF-8 and the cursor between two of its characters. Returns the line's length. */
static size_t look(struct slot *slot)
{
    size_t length = 0, again = 0, cursor = 0;
    uint32_t status = comvizga_line(&slot->handle, NULL, 0, &length);
    uint8_t *text = malloc(length + 1);
    if (slot->is_held && (slot->has_line || slot->had_line)) {
        must(status == (length ? COMVIZGA_TOO_SMALL : COMVIZGA_OK), "the length of the line is not told", status);
        status = comvizga_line(&slot->handle, text, length, &again);
        must(status == COMVIZGA_OK && again == length, "the line is not given", status);
        must(is_text(text, length), "the line is not UTF-8", status);
        status = comvizga_cursor(&slot->handle, &cursor);
        must(status == (slot->has_line ? COMVIZGA_OK : COMVIZGA_NO_LINE), "the cursor", status);
        must(!slot->has_line || is_boundary(text, length, cursor), "the cursor is in no place", status);
    } else if (slot->is_held) {
        must(status == COMVIZGA_NO_LINE, "a line that never was", status);
    }
    free(text);
    return length;
}

/* ------------------------------------------------------------------------------------ random arguments */

struct text {
    char bytes[1024];
    size_t length;
};

static void add(struct text *text, const void *bytes, size_t length)
{
    if (text->length + length <= sizeof text->bytes) {
        memcpy(text->bytes + text->length, bytes, length);
        text->length += length;
    }
}

static void add_string(struct text *text, const char *string)
{
    add(text, string, strlen(string));
}

/* clang-format off */
static const char *const characters[] = {
    "a", "b", " ", "(", ")", "[", "}", "\"", "\\", "0", "7", "-", "+", "\n", "word ", "al", "#V3", "é", "\u0301", "日", "😀", "👩‍👩‍👧", "🇩🇪",
    "ﷺ", "\u200d", "\u00ad", "\ufffd", "\U0010ffff" };

/* Behind an Esc. */
static const char *const sequences[] = {
    "[A", "[B", "[C", "[D", "[H", "[F", "[3~", "[1;5C", "[1;5D", "OP", "[Z", "[200~", "[201~", "[8;24;80t", "[1;2R", "]0;title\x07",
    "P1$r\x1b\\", "]11;rgb:00", "P1$r", "X", "_G", "[M !!", "[999999999999999~", "[27;5;97~", "[97;6u", "\x1b", "f", "b", "d", "y", "<", "-", "3", ".", "R", "c" };

static const char *const broken_bytes[] = {
    "\xff", "\xc3", "\x80", "\xe2\x82", "\xf0\x9f\x98", "\xed\xa0\x80", "\xc0\xaf", "\xf4\x90\x80\x80", "\xfe\xfe" };
/* clang-format on */

/* A text of UTF-8. */
static struct text some_text(size_t most)
{
    struct text text = {"", 0};
    for (size_t count = chance(most + 1); count; count--)
        add_string(&text, ONE_OF(characters));
    if (chance(20) == 0)
        add(&text, "", 1);
    return text;
}

/* Bytes as a terminal may send them, and as it may not. */
static struct text some_bytes(void)
{
    struct text bytes = {"", 0};
    for (size_t count = chance(chance(4) ? 12 : 60); count; count--) {
        uint8_t any = (uint8_t)chance(256), control = (uint8_t)chance(32);
        switch (chance(10)) {
        case 0: add(&bytes, &any, 1); break;
        case 1:
        case 2: add(&bytes, &control, 1); break;
        case 3:
            add_string(&bytes, "\x1b");
            add_string(&bytes, ONE_OF(sequences));
            break;
        case 4: add_string(&bytes, ONE_OF(broken_bytes)); break;
        default: add_string(&bytes, ONE_OF(characters));
        }
    }
    if (bytes.length && chance(4) == 0)
        bytes.length -= chance(bytes.length);
    return bytes;
}

/* A pointer to a text: null at times, also where its length is not 0, which *gave_null then says. */
static const char *pointer_to(const struct text *text, int *gave_null)
{
    if (chance(40) && text->length)
        return text->bytes;
    *gave_null |= text->length != 0;
    return NULL;
}

static comvizga *pointer_to_handle(struct slot *slot, int *gave_null)
{
    int is_null = chance(200) == 0;
    *gave_null |= is_null;
    return is_null ? NULL : &slot->handle;
}

/* ------------------------------------------------------------------------------------------- the calls */

static void call_new(struct slot *slot)
{
    static const uint16_t sizes[] = {0, 1, 2, 3, 5, 10, 80, 80, 80, 80, 65535};
    static const size_t limits[] = {0, 1, 2, 50, 100, SIZE_MAX};
    comvizga_settings settings = comvizga_defaults();
    uint8_t *switches[] = {&settings.vi,
                           &settings.list_completions,
                           &settings.show_all_if_ambiguous,
                           &settings.hints,
                           &settings.brackets,
                           &settings.colors,
                           &settings.auto_add_history,
                           &settings.history_ignore_dups,
                           &settings.history_ignore_space,
                           &settings.bracketed_paste,
                           &settings.synchronized_output,
                           &settings.indent_size};
    int gave_null = 0;
    comvizga *handle = pointer_to_handle(slot, &gave_null);
    settings.max_history_size = ONE_OF(limits);
    settings.completion_prompt_limit = ONE_OF(limits);
    settings.columns = ONE_OF(sizes);
    settings.rows = ONE_OF(sizes);
    for (size_t i = 0; i < sizeof switches / sizeof *switches; i++)
        *switches[i] = (uint8_t)(chance(3) ? chance(2) : chance(256));
    uint32_t status = comvizga_new(chance(100) ? &settings : (gave_null = 1, NULL), handle);
    if (gave_null || slot->is_held) {
        must(status == (gave_null ? COMVIZGA_NULL : COMVIZGA_IN_USE), "a second editor", status);
    } else if (status == COMVIZGA_OK) {
        must(settings.columns, "0 columns were taken", status);
        slot->is_held = 1;
        if (chance(2))
            check(slot, 0, comvizga_bind(&slot->handle, "C-z", 3, "suspend", 7), BIT(COMVIZGA_OK));
    } else {
        must(status == COMVIZGA_NO_MEMORY ? has_failed : status == COMVIZGA_BAD_SETTING && !settings.columns,
             "no editor", status);
    }
}

static void free_slot(struct slot *slot)
{
    uint32_t status = comvizga_free(&slot->handle);
    check(slot, 0, status, BIT(COMVIZGA_OK));
    slot->is_held = slot->has_line = slot->had_line = 0;
    status = comvizga_free(&slot->handle);
    must(status == COMVIZGA_EMPTY, "freed twice", status);
}

static void call_free(struct slot *slot)
{
    if (chance(10))
        free_slot(slot);
    else
        must(comvizga_free(NULL) == COMVIZGA_NULL, "a null pointer was taken", COMVIZGA_OK);
}

static void call_begin(struct slot *slot)
{
    int gave_null = 0, is_good;
    struct text prompt = chance(10) ? some_text(4) : some_bytes();
    comvizga *handle = pointer_to_handle(slot, &gave_null);
    const char *at = pointer_to(&prompt, &gave_null);
    uint32_t status = comvizga_begin(handle, at, prompt.length);
    is_good = is_text((const uint8_t *)prompt.bytes, prompt.length);
    check_begun(slot, gave_null, status, is_good);
}

static void call_begin_with(struct slot *slot)
{
    int gave_null = 0, are_good = 1;
    struct text texts[4];
    const char *at[4];
    comvizga *handle = pointer_to_handle(slot, &gave_null);
    for (int i = 0; i < 4; i++) {
        texts[i] = chance(20) ? some_text(6) : some_bytes();
        at[i] = pointer_to(&texts[i], &gave_null);
        are_good &= is_text((const uint8_t *)texts[i].bytes, texts[i].length);
    }
    uint32_t status = comvizga_begin_with(handle, at[0], texts[0].length, at[1], texts[1].length, at[2],
                                          texts[2].length, at[3], texts[3].length);
    check_begun(slot, gave_null, status, are_good);
}

static void call_feed(struct slot *slot)
{
    int gave_null = 0;
    struct text bytes = some_bytes();
    comvizga *handle = pointer_to_handle(slot, &gave_null);
    const char *at = pointer_to(&bytes, &gave_null);
    uint32_t status = comvizga_feed(handle, at, bytes.length);
    check_read(slot, gave_null, status, READS);
}

static void call_flush(struct slot *slot)
{
    int gave_null = 0;
    uint32_t status = comvizga_flush(pointer_to_handle(slot, &gave_null));
    check_read(slot, gave_null, status, READS);
}

/* A second without a byte: whatever had begun has ended then, so that what is typed next is read as keys. */
static void call_flush_for_a_second(struct slot *slot)
{
    uint8_t waiting = 0;
    for (int i = 0; i < 20; i++) {
        uint32_t status = comvizga_flush(&slot->handle);
        check_read(slot, 0, status, READS);
        if (status != COMVIZGA_OK)
            return;
    }
    check(slot, 0, comvizga_is_waiting(&slot->handle, &waiting), BIT(COMVIZGA_OK));
    must(!waiting, "deaf behind a second", 0);
}

static void call_finish(struct slot *slot)
{
    int gave_null = 0;
    uint32_t status = comvizga_finish(pointer_to_handle(slot, &gave_null));
    check_read(slot, gave_null, status, ENDS | BIT(COMVIZGA_SUSPENDED));
}

static void call_abandon(struct slot *slot)
{
    int gave_null = 0;
    uint32_t status = comvizga_abandon(pointer_to_handle(slot, &gave_null));
    check_abandoned(slot, gave_null, status);
}

static void call_resize(struct slot *slot)
{
    static const uint16_t sizes[] = {0, 1, 2, 3, 7, 20, 80, 80, 132, 65535};
    int gave_null = 0;
    uint16_t columns = ONE_OF(sizes), rows = ONE_OF(sizes);
    size_t length = look(slot);
    uint32_t status = comvizga_resize(pointer_to_handle(slot, &gave_null), columns, rows);
    check(slot, gave_null, status, BIT(columns ? COMVIZGA_OK : COMVIZGA_BAD_SETTING));
    must(look(slot) == length, "the line is another one", status);
}

static void call_is_waiting(struct slot *slot)
{
    int gave_null = 0;
    uint8_t waiting = 0;
    comvizga *handle = pointer_to_handle(slot, &gave_null);
    uint32_t status = comvizga_is_waiting(handle, chance(50) ? &waiting : (gave_null = 1, NULL));
    check(slot, gave_null, status, BIT(COMVIZGA_OK));
    must(waiting <= 1, "neither 0 nor 1", status);
}

/* A buffer with a mark behind it. */
static uint8_t buffer[LONGEST + 1];
static const size_t buffer_sizes[] = {0, 1, 2, 3, 17, 100, LONGEST};

static void fill(void)
{
    memset(buffer, 0xA5, sizeof buffer);
}

static int is_filled(size_t from)
{
    for (; from < sizeof buffer; from++)
        if (buffer[from] != 0xA5)
            return 0;
    return 1;
}

/* Takes a piece, of what was drawn or of the history. */
static void take(struct slot *slot, uint32_t (*call_of)(comvizga *, void *, size_t, size_t *))
{
    int gave_null = 0;
    size_t size = ONE_OF(buffer_sizes), taken = 0;
    comvizga *handle = pointer_to_handle(slot, &gave_null);
    void *to = chance(50) ? buffer : NULL;
    size_t *told = chance(50) ? &taken : NULL;
    uint32_t status;
    gave_null |= (!to && size) || !told;
    fill();
    status = call_of(handle, to, size, told);
    check(slot, gave_null, status, BIT(COMVIZGA_OK));
    must(taken <= size, "more was taken than there is room", status);
    must(is_filled(to ? taken : 0), "written behind what was taken", status);
}

static void call_output(struct slot *slot)
{
    take(slot, comvizga_output);
}

static void call_saved(struct slot *slot)
{
    take(slot, comvizga_saved);
}

static void call_line(struct slot *slot)
{
    int gave_null = 0;
    size_t size = ONE_OF(buffer_sizes), length = 0;
    comvizga *handle = pointer_to_handle(slot, &gave_null);
    uint32_t status;
    fill();
    status = comvizga_line(handle, buffer, size, chance(50) ? &length : (gave_null = 1, NULL));
    check(slot, gave_null, status, BIT(COMVIZGA_OK) | BIT(COMVIZGA_TOO_SMALL) | BIT(COMVIZGA_NO_LINE));
    must(status != COMVIZGA_OK || length <= size, "a line is longer than its buffer", status);
    must(status != COMVIZGA_TOO_SMALL || length > size, "a line fits its buffer", status);
    must(is_filled(status == COMVIZGA_OK ? length : 0), "written behind the line", status);
}

static void call_cursor(struct slot *slot)
{
    int gave_null = 0;
    size_t cursor = 0;
    comvizga *handle = pointer_to_handle(slot, &gave_null);
    uint32_t status = comvizga_cursor(handle, chance(50) ? &cursor : (gave_null = 1, NULL));
    check(slot, gave_null, status, BIT(slot->has_line ? COMVIZGA_OK : COMVIZGA_NO_LINE));
}

static void call_history_add(struct slot *slot)
{
    int gave_null = 0, is_good;
    struct text line = chance(10) ? some_text(30) : some_bytes();
    comvizga *handle = pointer_to_handle(slot, &gave_null);
    const char *at = pointer_to(&line, &gave_null);
    uint32_t status = comvizga_history_add(handle, at, line.length);
    is_good = is_text((const uint8_t *)line.bytes, line.length);
    check(slot, gave_null, status, BIT(slot->has_line ? COMVIZGA_HAS_LINE : is_good ? COMVIZGA_OK : COMVIZGA_NOT_TEXT));
}

static void call_history_load(struct slot *slot)
{
    int gave_null = 0, is_good;
    struct text lines = {"", 0}, more = chance(10) ? some_text(60) : some_bytes();
    comvizga *handle = pointer_to_handle(slot, &gave_null);
    const char *at;
    uint32_t status;
    if (chance(2))
        add_string(&lines, chance(2) ? "#V3\n" : "#V2\n");
    add(&lines, more.bytes, more.length);
    at = pointer_to(&lines, &gave_null);
    status = comvizga_history_load(handle, at, lines.length);
    is_good = is_text((const uint8_t *)lines.bytes, lines.length);
    check(slot, gave_null, status, BIT(slot->has_line ? COMVIZGA_HAS_LINE : is_good ? COMVIZGA_OK : COMVIZGA_NOT_TEXT));
}

static void call_history_save(struct slot *slot)
{
    int gave_null = 0;
    uint32_t status = comvizga_history_save(pointer_to_handle(slot, &gave_null), (uint8_t)chance(3));
    check(slot, gave_null, status, BIT(slot->has_line ? COMVIZGA_HAS_LINE : COMVIZGA_OK));
}

static void call_set_words(struct slot *slot)
{
    int gave_null = 0, is_good;
    struct text words = chance(10) ? some_text(60) : some_bytes();
    comvizga *handle = pointer_to_handle(slot, &gave_null);
    const char *at = pointer_to(&words, &gave_null);
    uint32_t status = comvizga_set_words(handle, at, words.length);
    is_good = is_text((const uint8_t *)words.bytes, words.length);
    check(slot, gave_null, status, BIT(is_good ? COMVIZGA_OK : COMVIZGA_NOT_TEXT));
}

static void call_bind(struct slot *slot)
{
    static const char *const keys[] = {"C-z",  "C-x C-e", "M-f",   "F5",       "C-Left",  "Tab", "a",
                                       "",     " ",       "C-",    "C-x  C-e", "nothing", "é",   "C-x C-x C-x",
                                       "\xff", "M-C-a",   "S-Tab", "Esc",      "Enter"};
    static const char *const commands[] = {
        "suspend", "kill-line", "undo", "complete", "accept-line", "beginning-of-line", "reverse-search-history",
        "",        "nothing",   "Undo", "\xff"};
    int gave_null = 0;
    const char *key = ONE_OF(keys), *command = ONE_OF(commands);
    comvizga *handle = pointer_to_handle(slot, &gave_null);
    uint32_t status = comvizga_bind(handle, key, strlen(key), command, strlen(command));
    check(slot, gave_null, status,
          BIT(COMVIZGA_OK) | BIT(COMVIZGA_NO_KEY) | BIT(COMVIZGA_NO_COMMAND) | BIT(COMVIZGA_NOT_TEXT));
    must(status != COMVIZGA_OK || (*key && *command && *command != 'n' && *command != 'U' && *command != '\xff'),
         "bound", status);
}

static const struct {
    const char *name;
    void (*run)(struct slot *);
    unsigned often;
} calls[] = {
    {"new", call_new, 6},
    {"free", call_free, 1},
    {"begin", call_begin, 15},
    {"begin_with", call_begin_with, 5},
    {"feed", call_feed, 40},
    {"flush", call_flush, 5},
    {"flush, for a second", call_flush_for_a_second, 3},
    {"finish", call_finish, 1},
    {"abandon", call_abandon, 1},
    {"resize", call_resize, 3},
    {"output", call_output, 8},
    {"is_waiting", call_is_waiting, 2},
    {"line", call_line, 3},
    {"cursor", call_cursor, 2},
    {"history_add", call_history_add, 3},
    {"history_load", call_history_load, 1},
    {"history_save", call_history_save, 2},
    {"saved", call_saved, 3},
    {"set_words", call_set_words, 1},
    {"bind", call_bind, 1},
};

/* -------------------------------------------------------------------------------------------- the runs */

/* Begins a line, which has to work whatever came before. */
static void begin_anew(struct slot *slot)
{
    uint32_t status;
    called = "begin, behind that";
    status = comvizga_begin(&slot->handle, "> ", 2);
    check_begun(slot, 0, status, 1);
}

static void take_all(struct slot *slot)
{
    size_t taken;
    while (comvizga_output(&slot->handle, buffer, LONGEST, &taken) == COMVIZGA_OK && taken)
        ;
}

static void call_one(int fails)
{
    struct slot *slot = &slots[chance(HANDLES)];
    unsigned which = 0, place = 0;
    size_t length;
    for (size_t i = 0; i < sizeof calls / sizeof *calls; i++)
        place += calls[i].often;
    for (place = (unsigned)chance(place); place >= calls[which].often; which++)
        place -= calls[which].often;
    called = calls[which].name;
    alarm(60);
    has_failed = 0;
    may_fail = fails;
    lasts = fails && chance(2);
    calls[which].run(slot);
    may_fail = lasts = 0;
    length = look(slot);
    if (length > TOO_LONG)
        free_slot(slot);
    else if (length > LONG || chance(200) == 0)
        begin_anew(slot);
    if (chance(3) == 0)
        take_all(slot);
}

/* Frees all, after which no block may be left. */
static void free_all(void)
{
    called = "free, at the end";
    for (int i = 0; i < HANDLES; i++)
        comvizga_free(&slots[i].handle);
    must(living == 0, "memory is left", 0);
}

/* What a person does in a line, and what a program does beside it. */
static void do_much(struct slot *slot)
{
    static const char *const typed[] = {"one (two",
                                        "\r",
                                        ")\x1b[A",
                                        "\x01\x0b\x19\x1f",
                                        "\x12o\x12",
                                        "\x07",
                                        "\x15",
                                        "al\t\t\x07",
                                        "\x1b[200~a\nb\x1b[201~",
                                        "日本é",
                                        "\x15",
                                        "\x1b[A\x1b[A",
                                        "\x1b\x33x",
                                        "\r"};
    comvizga *handle = &slot->handle;
    size_t taken;
    check(slot, 0, comvizga_set_words(handle, "alpha\nalphabet\n", 15), BIT(COMVIZGA_OK));
    check(slot, 0, comvizga_history_load(handle, "#V3\nfirst\nsec\\nond\n", 19), BIT(COMVIZGA_OK));
    check(slot, 0, comvizga_history_add(handle, "another", 7), BIT(COMVIZGA_OK));
    check(slot, 0, comvizga_bind(handle, "C-x C-e", 7, "undo", 4), BIT(COMVIZGA_OK));
    check_begun(slot, 0, comvizga_begin(handle, "> ", 2), 1);
    for (size_t i = 0; i < sizeof typed / sizeof *typed; i++)
        check_read(slot, 0, comvizga_feed(handle, typed[i], strlen(typed[i])), READS);
    check_begun(slot, 0, comvizga_begin_with(handle, "> ", 2, "> ", 2, "dropped", 7, "", 0), 1);
    check_begun(slot, 0, comvizga_begin(handle, "> ", 2), 1);
    check_read(slot, 0, comvizga_feed(handle, "word\x1b", 5), READS);
    take_all(slot);
    check(slot, 0, comvizga_resize(handle, 20, 10), BIT(COMVIZGA_OK));
    look(slot);
    check_read(slot, 0, comvizga_flush(handle), READS);
    take_all(slot);
    check_read(slot, 0, comvizga_finish(handle), ENDS);
    check_begun(slot, 0, comvizga_begin(handle, "> ", 2), 1);
    do {
        take_all(slot);
        check_abandoned(slot, 0, comvizga_abandon(handle));
    } while (slot->has_line);
    check(slot, 0, comvizga_history_save(handle, 0), BIT(COMVIZGA_OK));
    check(slot, 0, comvizga_saved(handle, buffer, LONGEST, &taken), BIT(COMVIZGA_OK));
}

/* Does that with the allocation of that number failing, alone or with those behind it in the same call, and then types
 * a line, which has to work. Returns whether there was such an allocation. */
static int with_failure(long number, int for_the_call)
{
    comvizga_settings settings = comvizga_defaults();
    struct slot slot = {COMVIZGA_NOTHING, 1, 0, 0};
    size_t length = 0;
    uint32_t status;
    int came;
    called = "where the allocation of that number fails";
    call = number;
    alarm(60);
    settings.hints = settings.brackets = settings.auto_add_history = 1;
    until_failure = number;
    lasts = for_the_call;
    for (has_failed = 0; comvizga_new(&settings, &slot.handle) == COMVIZGA_NO_MEMORY; has_failed = 0)
        must(has_failed, "no allocation failed", COMVIZGA_NO_MEMORY);
    do_much(&slot);
    came = until_failure == 0;
    until_failure = lasts = 0;
    called = "a line behind a failure";
    for (int i = 0; i < 100 && (status = comvizga_begin(&slot.handle, "> ", 2)) != COMVIZGA_OK; i++)
        must(BIT(status) & ENDS, "no line begins", status);
    comvizga_flush(&slot.handle);
    status = comvizga_feed(&slot.handle,
                           "\x05\x15"
                           "fine\r",
                           7);
    must(status == COMVIZGA_SUBMITTED, "the line is not submitted", status);
    status = comvizga_line(&slot.handle, buffer, LONGEST, &length);
    must(status == COMVIZGA_OK && length == 4 && !memcmp(buffer, "fine", 4), "another line was submitted", status);
    comvizga_free(&slot.handle);
    must(living == 0, "memory is left", 0);
    return came;
}

/* Checks that the line that goes on is this one, or one of these two. */
static void must_be(struct slot *slot, const char *one, const char *other)
{
    size_t length = 0;
    uint32_t status = comvizga_line(&slot->handle, buffer, LONGEST, &length);
    must(status == COMVIZGA_OK
             && ((length == strlen(one) && !memcmp(buffer, one, length))
                 || (length == strlen(other) && !memcmp(buffer, other, length))),
         "another line goes on", status);
}

/* Begins a line while another one goes on, with the allocation of that number failing: the line before is there then,
 * or the new one. Returns whether there was such an allocation. */
static int begins_with_failure(long number)
{
    comvizga_settings settings = comvizga_defaults();
    struct slot slot = {COMVIZGA_NOTHING, 1, 0, 0};
    uint32_t status;
    int came;
    called = "begin where the allocation of that number fails";
    call = number;
    must(comvizga_new(&settings, &slot.handle) == COMVIZGA_OK, "no editor", 0);
    check_begun(&slot, 0, comvizga_begin(&slot.handle, "> ", 2), 1);
    check_read(&slot, 0, comvizga_feed(&slot.handle, "before", 6), READS);
    until_failure = number;
    status = comvizga_begin_with(&slot.handle, "new> ", 5, "new> ", 5, "be", 2, "hind", 4);
    came = until_failure == 0;
    until_failure = 0;
    must(status == (came ? COMVIZGA_NO_MEMORY : COMVIZGA_OK), "another status", status);
    has_failed = 0;
    must_be(&slot, came ? "before" : "behind", "behind");
    status = comvizga_feed(&slot.handle, "!", 1);
    must(status == COMVIZGA_OK, "the line does not go on", status);
    must_be(&slot, came ? "before!" : "be!hind", "be!hind");
    comvizga_free(&slot.handle);
    return came;
}

/* Checks that a key that is bound again takes no memory. */
static void binds_once(void)
{
    comvizga_settings settings = comvizga_defaults();
    struct slot slot = {COMVIZGA_NOTHING, 1, 0, 0};
    long before = 0;
    called = "bind";
    must(comvizga_new(&settings, &slot.handle) == COMVIZGA_OK, "no editor", 0);
    for (int i = 0; i < 1000; i++) {
        check(&slot, 0, comvizga_bind(&slot.handle, "C-x b", 5, "complete", 8), BIT(COMVIZGA_OK));
        before = i < 10 ? living : before;
    }
    must(living == before, "a key that is bound again takes memory", 0);
    comvizga_free(&slot.handle);
}

/* Returns how often memory is taken to read a character while that many keys are bound. */
static long taken_with(int keys)
{
    comvizga_settings settings = comvizga_defaults();
    struct slot slot = {COMVIZGA_NOTHING, 1, 0, 0};
    long before;
    called = "feed while keys are bound";
    must(comvizga_new(&settings, &slot.handle) == COMVIZGA_OK, "no editor", 0);
    for (int i = 0; i < keys; i++) {
        char name[] = {'C', '-', 'x', ' ', (char)('a' + i / 26), ' ', (char)('a' + i % 26)};
        check(&slot, 0, comvizga_bind(&slot.handle, name, sizeof name, "complete", 8), BIT(COMVIZGA_OK));
    }
    check_begun(&slot, 0, comvizga_begin(&slot.handle, "> ", 2), 1);
    check_read(&slot, 0, comvizga_feed(&slot.handle, "before", 6), READS);
    before = taken;
    check_read(&slot, 0, comvizga_feed(&slot.handle, "!", 1), READS);
    before = taken - before;
    comvizga_free(&slot.handle);
    return before;
}

int main(int count, char **words)
{
    long number = 1, most = count > 2 ? atol(words[2]) : 100000;
    int fails = count > 3;
    state = (count > 1 ? strtoull(words[1], NULL, 10) : 1) * UINT64_C(0x9E3779B97F4A7C15) | 1;
    signal(SIGALRM, is_late);
    binds_once();
    must(taken_with(0) == taken_with(100), "a character takes more memory where more keys are bound", 0);
    while (fails && begins_with_failure(number))
        number++;
    number = 1;
    while (fails && with_failure(number, 0) && with_failure(number, 1))
        number++;
    for (call = 1; call <= most; call++)
        call_one(fails);
    free_all();
    printf("fuzz: %ld calls%s\n", most, fails ? ", with allocations that fail" : "");
    if (fails)
        printf("fuzz: each of %ld allocations failed, alone and with those behind it\n", number - 1);
    return 0;
}
