/* Calls the functions of obl0.h on files: doors COMMAND FILE .. NUMBER .., as doors run MODULE SCRIPT SCHEDULE PROCESSES TURNS, and
   doors answer WORD .., whose words with a dot in them are the files. Prints the answer, and ends with the status. */
#define _POSIX_C_SOURCE 200809L
#include "obl0.h"
#include <fcntl.h>
#include <stdlib.h>
#include <string.h>
#include <unistd.h>

enum { MOST = 1 << 22, WORDS = 16 };

struct text {
    uint8_t bytes[1 << 16];
    size_t length;
};

static struct text texts[3];
static uint8_t room[MOST];
static uint8_t words[1 << 16], files[1 << 18];
static size_t word_lengths[WORDS], file_lengths[2 * WORDS];

static size_t fill(const char *name, uint8_t *at, size_t most) {
    size_t length = 0;
    ssize_t got;
    const int file = open(name, O_RDONLY);
    if (file < 0) _exit(98);
    while ((got = read(file, at + length, most - length)) > 0) length += (size_t)got;
    if (got < 0) _exit(98);
    close(file);
    return length;
}

static uint32_t answer(int count, char **given, size_t *length) {
    size_t words_length = 0, files_length = 0, file_count = 0, output;
    for (int at = 0; at < count; at++) {
        const size_t size = strlen(given[at]);
        memcpy(words + words_length, given[at], size);
        words_length += word_lengths[at] = size;
        if (!strchr(given[at], '.')) continue;
        memcpy(files + files_length, given[at], size);
        files_length += file_lengths[file_count++] = size;
        files_length += file_lengths[file_count++] = fill(given[at], files + files_length, sizeof files - files_length);
    }
    return obl0_answer(words, words_length, word_lengths, (size_t)count, files, files_length, file_lengths, file_count, room, MOST,
                       &output, length);
}

static uint32_t called(int count, char **given, size_t *length) {
    const char *name = given[0];
    struct text *t = texts;
    int at = 1;
    if (!strcmp(name, "answer")) return answer(count - 1, given + 1, length);
    for (; at < count && at <= 3 && strchr(given[at], '.'); at++) t[at - 1].length = fill(given[at], t[at - 1].bytes, sizeof t[0].bytes);
    const size_t number = at < count ? strtoul(given[at], NULL, 10) : 0;
    const uint64_t turns = at + 1 < count ? strtoull(given[at + 1], NULL, 10) : 0;
    if (!strcmp(name, "check")) return obl0_check(t[0].bytes, t[0].length, room, MOST, length);
    if (!strcmp(name, "explain")) return obl0_explain(t[0].bytes, t[0].length, room, MOST, length);
    if (!strcmp(name, "seq")) return obl0_seq(t[0].bytes, t[0].length, t[1].bytes, t[1].length, number, room, MOST, length);
    if (!strcmp(name, "verify")) return obl0_verify(t[0].bytes, t[0].length, t[1].bytes, t[1].length, room, MOST, length);
    if (!strcmp(name, "order")) return obl0_order(t[0].bytes, t[0].length, t[1].bytes, t[1].length, OBL0_MOST, room, MOST, length);
    if (!strcmp(name, "run"))
        return obl0_run(t[0].bytes, t[0].length, t[1].bytes, t[1].length, t[2].bytes, t[2].length, number, turns, room, MOST, length);
    if (!strcmp(name, "draw"))
        return obl0_draw(t[0].bytes, t[0].length, t[1].bytes, t[1].length, t[2].bytes, t[2].length, number, turns, room, MOST, length);
    _exit(97);
}

int main(int count, char **given) {
    size_t length = 0, done = 0;
    if (count < 2 || count > WORDS) _exit(97);
    const uint32_t status = called(count - 1, given + 1, &length);
    if (length > MOST) _exit(96);
    while (done < length) {
        const ssize_t put = write(1, room + done, length - done);
        if (put < 0) _exit(98);
        done += (size_t)put;
    }
    _exit((int)status);
}
