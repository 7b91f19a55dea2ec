/* The program with Hopcroft's sorting: a bundle from standard input into an empty store, and a line for each of its sheets. */
#include <unistd.h>

#include "operations.h"
#include "sheet.h"

static uint8_t bundle[BUNDLE_BYTES + 1];
static uint32_t store[STORE_WORDS], answers[SHEET_ROWS];
static char out[4096];
static size_t used;

static void flush(void)
{
    size_t done = 0;
    while (done < used) {
        ssize_t more = write(STDOUT_FILENO, out + done, used - done);
        if (more <= 0)
            _exit(1);
        done += (size_t)more;
    }
    used = 0;
}

static void put(char c)
{
    out[used++] = c;
    if (used == sizeof out)
        flush();
}

static void put_text(const char *text)
{
    while (*text != 0)
        put(*text++);
}

static void put_number(size_t n)
{
    char digits[20];
    int k = 0;
    do {
        digits[k++] = (char)('0' + n % 10);
        n /= 10;
    } while (n > 0);
    while (k > 0)
        put(digits[--k]);
}

static void put_spaced(uint32_t n)
{
    put(' ');
    put_number(n);
}

static void put_line(size_t place, uint32_t number, uint32_t added, uint32_t rows)
{
    put_number(place);
    put_spaced(number);
    put_spaced(added);
    for (uint32_t i = 0; i < rows; i++)
        put_spaced(answers[i]);
    put('\n');
}

static void one_sheet(size_t place, const uint8_t *sheet, size_t bytes)
{
    uint32_t added;
    uint32_t number = insert_into_sound(sort_by_hopcroft, store, STORE_WORDS, sheet, bytes, answers, SHEET_ROWS, &added);
    put_line(place, number, added, number == 0 ? two(sheet + 5) : 0);
}

static void put_rest(size_t rest)
{
    if (rest == 0)
        return;
    put_text("rest ");
    put_number(rest);
    put('\n');
}

static void walk(size_t bytes)
{
    size_t at = 0, place = 0, length;
    while ((length = next_sheet(bundle + at, bytes - at)) > 0) {
        one_sheet(++place, bundle + at, length);
        at += length;
    }
    put_rest(bytes - at);
}

static size_t read_all(void)
{
    size_t bytes = 0;
    ssize_t more;
    while (bytes < sizeof bundle && (more = read(STDIN_FILENO, bundle + bytes, sizeof bundle - bytes)) > 0)
        bytes += (size_t)more;
    return bytes;
}

int main(void)
{
    size_t bytes = read_all();
    if (bytes > BUNDLE_BYTES)
        put_text("long\n");
    else
        walk(bytes);
    flush();
    return 0;
}
