/* The yard's tool, as a gateway would have it: keeps a unit's configuration in a file, and makes another unit hold it.

       yard keep FILE          reads the unit's 611 entries and keeps them as an image
       yard restore FILE       reads the unit, makes the list from what it holds to the kept image, sends it record by record with a tick
                               after each, reads all back and compares

   The unit is at the other end of standard output and standard input, and speaks the session printer's lines: S and a frame, T and four
   samples. What is done is shown on standard error. The status is 0 where all is as asked for, 1 where it is not, 2 where the words are
   not understood. tests/yard.py runs it. */
#include "restore_list.h"
#include "plain_rows.h" /* the names */
#include "bare.h"

enum { FROM_UNIT = 0, TO_UNIT = 1, SCREEN = 2 };
enum { ENTRIES = 611, COUNT = 4, HEAD = 7 };
enum { READ_ONLY = 0, WRITE_ANEW = 01 | 0100 | 01000, ALL_MAY_READ = 0644 };

static uint8_t current[RESTORE_LIST_MOST], list[RESTORE_LIST_MOST];
static uint8_t wanted[RESTORE_LIST_MOST + 1]; /* room to see that a file is longer */
static long wanted_length;

/* ---- The screen: a line is put together and shown at its end */

static char text[256];
static size_t text_length;

static void put_letter(char letter)
{
    if (text_length < sizeof text)
        text[text_length++] = letter;
}

static void put(const char *words)
{
    while (*words)
        put_letter(*words++);
}

static void put_number(int64_t number)
{
    char digits[24];
    size_t at = sizeof digits;
    uint64_t rest = (uint64_t)(number < 0 ? -number : number);
    digits[--at] = 0;
    do
        digits[--at] = (char)('0' + rest % 10);
    while ((rest /= 10) > 0);
    if (number < 0)
        digits[--at] = '-';
    put(digits + at);
}

static char hex_digit(uint32_t value) { return "0123456789ABCDEF"[value & 15]; }

static void put_hex(uint32_t value, int digits)
{
    while (digits-- > 0)
        put_letter(hex_digit(value >> 4 * digits));
    put_letter('h');
}

/* All of it; what cannot be written has nowhere to be told. */
static void write_all(int to, const void *bytes, size_t length)
{
    const uint8_t *from = bytes;
    while (length > 0) {
        long count = call(SYS_WRITE, to, from, (long)length);
        if (count <= 0)
            call(SYS_EXIT, 1, 0, 0);
        from += count;
        length -= (size_t)count;
    }
}

static void end_line(void)
{
    write_all(SCREEN, text, text_length);
    write_all(SCREEN, "\n", 1);
    text_length = 0;
}

static void say(const char *words)
{
    put(words);
    end_line();
}

static void stop(const char *words)
{
    say(words);
    call(SYS_EXIT, 1, 0, 0);
}

/* A line at every so many, and at the last. */
static void show_progress(int done, int all, int step, const char *words)
{
    if (done % step != 0 && done != all)
        return;
    put("  ");
    put_number(done);
    put(" of ");
    put_number(all);
    say(words);
}

/* ---- The unit: a line to it, a line from it */

enum { LINE = 64 };

/* The unit's answer to the line, without its line end; its length. */
static size_t answered(const char *line, size_t length, char answer[LINE])
{
    size_t at = 0;
    write_all(TO_UNIT, line, length);
    for (;;) {
        if (at == LINE)
            stop("The unit's answer is too long.");
        if (call(SYS_READ, FROM_UNIT, answer + at, 1) != 1)
            stop("The unit does not answer.");
        if (answer[at] == '\n')
            return at;
        at++;
    }
}

static uint32_t digit_value(char digit)
{
    if (digit >= '0' && digit <= '9')
        return (uint32_t)(digit - '0');
    return digit >= 'A' && digit <= 'F' ? (uint32_t)(digit - 'A' + 10) : 16;
}

/* One frame and the reply to it. */
static void serve(const uint8_t frame[8], uint8_t reply[8])
{
    char line[19] = "S ", answer[LINE];
    for (int i = 0; i < 8; i++) {
        line[2 + 2 * i] = hex_digit(frame[i] >> 4);
        line[3 + 2 * i] = hex_digit(frame[i]);
    }
    line[18] = '\n';
    if (answered(line, sizeof line, answer) != 16)
        stop("The unit does not reply with a frame.");
    for (int i = 0; i < 8; i++) {
        uint32_t high = digit_value(answer[2 * i]), low = digit_value(answer[2 * i + 1]);
        if (high > 15 || low > 15)
            stop("The unit does not reply with a frame.");
        reply[i] = (uint8_t)(high << 4 | low);
    }
}

static void tick(void)
{
    static const char line[] = "T 2500 2500 2500 2500\n";
    char answer[LINE];
    if (answered(line, sizeof line - 1, answer) < 1 || answer[0] != 'O')
        stop("The unit does not tick.");
}

static uint32_t number_at(const uint8_t *bytes, uint32_t size)
{
    uint32_t number = 0;
    while (size-- > 0)
        number = number << 8 | bytes[size];
    return number;
}

static const char *words_for(uint32_t code)
{
    switch (code) {
    case 0x05040001: return "the command is not known";
    case 0x06010002: return "it can only be read";
    case 0x06020000: return "there is no such object";
    case 0x06070012: return "the value has too many bytes";
    case 0x06070013: return "the value has too few bytes";
    case 0x06090011: return "there is no such sub-index";
    case 0x06090030: return "the value is not a number";
    case 0x06090031: return "the value is too high";
    case 0x06090032: return "the value is too low";
    default: return "for a reason of its own";
    }
}

static void put_name(const uint8_t *name)
{
    put_hex(number_at(name, 2), 4);
    put(":");
    put_number(name[2]);
}

static void put_reason(const uint8_t reply[8])
{
    uint32_t code = number_at(reply + 4, 4);
    put(": ");
    put(words_for(code));
    put(" (");
    put_hex(code, 8);
    put(").");
}

/* ---- Reading a unit */

/* Asks for one entry and writes its record; behind it. */
static uint8_t *read_entry(const struct row *row, uint32_t sub, uint8_t *record)
{
    uint32_t index = row->name >> 8, size = types[row->type].size;
    uint8_t frame[8] = {0x40, (uint8_t)index, (uint8_t)(index >> 8), (uint8_t)sub}, reply[8];
    serve(frame, reply);
    if (reply[0] != types[row->type].read || number_at(reply + 1, 3) != number_at(frame + 1, 3)) {
        put("The unit does not give ");
        put_name(frame + 1);
        if (reply[0] == 0x80)
            put_reason(reply);
        end_line();
        call(SYS_EXIT, 1, 0, 0);
    }
    memcpy(record, frame + 1, 3);
    memset(record + 3, 0, 4);
    record[3] = (uint8_t)size;
    memcpy(record + HEAD, reply + 4, size);
    return record + HEAD + size;
}

static void read_unit(uint8_t *image)
{
    uint8_t *record = image + COUNT;
    int done = 0;
    image[0] = ENTRIES & 0xFF;
    image[1] = ENTRIES >> 8;
    image[2] = image[3] = 0;
    for (const struct row *row = rows; row < rows + ROWS; row++)
        if (is_configured(row))
            for (uint32_t sub = first_sub(row); sub <= row->last; sub++) {
                record = read_entry(row, sub, record);
                show_progress(++done, ENTRIES, 100, " entries read");
            }
}

/* ---- Files */

static int opened(const char *file, long how)
{
    long opened = call(SYS_OPEN, (long)file, (const void *)how, ALL_MAY_READ);
    if (opened < 0) {
        put("The file cannot be opened: ");
        stop(file);
    }
    return (int)opened;
}

static void keep(const char *file)
{
    say("Reading the unit.");
    read_unit(current);
    write_all(opened(file, WRITE_ANEW), current, sizeof current);
    put("Kept ");
    put_number(ENTRIES);
    put(" entries, ");
    put_number((int64_t)sizeof current);
    say(" bytes.");
}

static void fetch(const char *file)
{
    int from = opened(file, READ_ONLY);
    long count;
    while ((count = call(SYS_READ, from, wanted + wanted_length, (long)sizeof wanted - wanted_length)) > 0)
        wanted_length += count;
}

/* ---- Restoring */

static const char *words_for_fault(int32_t fault)
{
    switch (fault) {
    case RESTORE_LIST_ENDED_EARLY: return "it ends early";
    case RESTORE_LIST_WRONG_COUNT: return "it does not count 611 records";
    case RESTORE_LIST_NOT_NEXT: return "a record is not that of the next entry";
    case RESTORE_LIST_WRONG_SIZE: return "a record has the wrong size";
    case RESTORE_LIST_OUT_OF_RANGE: return "a value is out of its range";
    case RESTORE_LIST_OUT_OF_ORDER: return "two values are not in order";
    default: return "there are bytes behind the last record";
    }
}

/* Says why there is no list. */
static void refuse(int32_t number)
{
    if (number == RESTORE_LIST_NO_ROOM) {
        put("Refused: there is no room for the list");
    } else if (number <= RESTORE_LIST_WANTED(RESTORE_LIST_ENDED_EARLY)) {
        put("Refused: the kept image is damaged, ");
        put(words_for_fault(-number - 10));
    } else {
        put("Refused: what the unit holds is no configuration, ");
        put(words_for_fault(-number));
    }
    put(" (");
    put_number(number);
    stop("). Nothing was sent.");
}

/* Sends one record; whether the unit took it. */
static int send_record(const uint8_t *record)
{
    uint32_t size = number_at(record + 3, 4);
    uint8_t frame[8] = {size == 4 ? 0x23 : size == 2 ? 0x2B : 0x2F}, reply[8];
    memcpy(frame + 1, record, 3);
    memcpy(frame + 4, record + HEAD, size);
    serve(frame, reply);
    if (reply[0] == 0x60 && number_at(reply + 1, 3) == number_at(frame + 1, 3))
        return 1;
    put("Refused: ");
    put_name(record);
    put(" = ");
    if (size == 4)
        put_hex(number_at(record + HEAD, 4), 8);
    else
        put_number(size == 1 ? record[HEAD] : (int16_t)number_at(record + HEAD, 2));
    put_reason(reply);
    end_line();
    return 0;
}

/* Sends the list up to the first record that is refused; how many were taken. */
static int send_list(int all)
{
    const uint8_t *record = list + COUNT;
    for (int done = 0; done < all; record += HEAD + number_at(record + 3, 4)) {
        if (!send_record(record))
            return done;
        tick();
        show_progress(++done, all, 10, " records sent");
    }
    return all;
}

/* How many records of the two images are the same. */
static int equal_records(void)
{
    int equal = 0;
    for (size_t at = COUNT; at < sizeof current; at += HEAD + number_at(wanted + at + 3, 4)) {
        uint32_t size = number_at(wanted + at + 3, 4);
        equal += number_at(current + at + HEAD, size) == number_at(wanted + at + HEAD, size);
    }
    return equal;
}

/* The list is made; how many records it has. */
static int make_list(void)
{
    int32_t length = restore_list(current, sizeof current, wanted, (size_t)wanted_length, list, sizeof list);
    if (length < 0)
        refuse(length);
    int all = (int)number_at(list, COUNT);
    put("The list has ");
    put_number(all);
    put(" records, ");
    put_number(length);
    say(" bytes.");
    return all;
}

static void restore(const char *file)
{
    fetch(file);
    say("Reading the unit.");
    read_unit(current);
    say("Comparing it with the kept image.");
    int all = make_list();
    say("Sending the list.");
    int sent = send_list(all);
    say("Reading the unit again.");
    read_unit(current);
    int equal = equal_records();
    int good = sent == all && equal == ENTRIES;
    put(good ? "Done: " : "NOT RESTORED: ");
    put_number(sent);
    put(" of ");
    put_number(all);
    put(" records sent, a tick after each; ");
    put_number(equal);
    put(" of ");
    put_number(ENTRIES);
    say(" entries are as kept.");
    call(SYS_EXIT, !good, 0, 0);
}

static int is(const char *word, const char *other)
{
    while (*word && *word == *other)
        word++, other++;
    return *word == *other;
}

void run(const long *words)
{
    const char *job = words[0] == 3 ? (const char *)words[2] : "", *file = words[0] == 3 ? (const char *)words[3] : "";
    if (is(job, "keep")) {
        keep(file);
    } else if (is(job, "restore")) {
        restore(file);
    } else {
        say("yard keep FILE, or yard restore FILE");
        call(SYS_EXIT, 2, 0, 0);
    }
    call(SYS_EXIT, 0, 0, 0);
}
