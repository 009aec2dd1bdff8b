/* The listing over the careful reader in C: standard input to a line a message, in large blocks both ways. */
#include "input.h"

#include <string.h>
#include <unistd.h>

/* The longest line is the last one, with three numbers of up to 20 digits. */
enum { BLOCK = 65536, LINE = 96 };

static input recording;
static char text[BLOCK];
static size_t full;
static uint64_t place, messages, gaps;
static int failed;

static void flush(void) {
    for (size_t at = 0; at < full;) {
        ssize_t done = write(STDOUT_FILENO, text + at, full - at);
        if (done < 0) {
            failed = 1;
            break;
        }
        at += (size_t)done;
    }
    full = 0;
}

static void put_text(const char *s, size_t length) {
    memcpy(text + full, s, length);
    full += length;
}

/* The number in decimal, from its last two digits on, and the byte behind it. */
static void put_number(uint64_t number, char behind) {
    static const char pairs[] = "0001020304050607080910111213141516171819202122232425262728293031323334353637383940414243444546474849"
                                "5051525354555657585960616263646566676869707172737475767778798081828384858687888990919293949596979899";
    char digits[20];
    size_t at = sizeof digits;
    while (number >= 100) {
        at -= 2;
        memcpy(digits + at, pairs + 2 * (number % 100), 2);
        number /= 100;
    }
    if (number >= 10) {
        at -= 2;
        memcpy(digits + at, pairs + 2 * number, 2);
    } else {
        digits[--at] = (char)('0' + number);
    }
    put_text(digits + at, sizeof digits - at);
    text[full++] = behind;
}

static void put_line(const reader_message *m) {
    if (full > BLOCK - LINE) {
        flush();
    }
    message_header head = message_head(m->bytes);
    put_number(place + m->gap, ' ');
    put_number(m->length, ' ');
    put_text(head.new ? "v2 " : "v1 ", 3);
    put_number(head.count, ' ');
    put_number(head.time, '\n');
    place += m->gap + m->length;
    messages++;
    gaps += m->gap;
}

static void put_end(void) {
    uint64_t gap = recording.reader.gap;
    if (full > BLOCK - LINE) {
        flush();
    }
    put_text("end ", 4);
    put_number(place + gap, ' ');
    put_text("messages ", 9);
    put_number(messages, ' ');
    put_text("gap ", 4);
    put_number(gaps + gap, '\n');
    flush();
}

int main(void) {
    reader_message message;
    put_text("at bytes form obs time\n", 23);
    for (input_open(&recording); input_next(&recording, &message);) {
        put_line(&message);
    }
    put_end();
    return recording.failed || failed;
}
