/*
 * The command, by the library: reads the files into memory, calls one function, and writes what it hands out.
 *
 *     call show FILE | conflicts FILE | check FILE | inventory FILE | missing FROM TO | missing-by FROM INVENTORY
 *     call join LOG FILE.. | split UNIT LOG FILE.. | rule LETTER KEY PLACE FILE | rehearse LOG SITES SCRIPT
 *     call sketch CELLS SALT FILE | missing-by-sketch FROM SKETCH | seal FILE | prove FACTS FILE.. | prove-keys KEYS FILE..
 *     call verify SEAL FACTS PROOF | absent SEAL FACTS PROOF | grew OLD NEW PROOF [LIST]
 *     call verify-keys SEAL KEYS PROOF | absent-keys SEAL KEYS PROOF
 *     call sealed FILE | growth SEALED FILE.. | omit LIST FILE..
 *
 * An empty LOG is none, and so is 0 for CELLS or SALT. PLACE, SITES, CELLS and SALT are decimal numbers below 2^64, without a sign or
 * leading zeros. The exit status is that of the command; 3 where a file can't be read or the output not written, 2 where the words
 * are none of these.
 */
#include "cadf.h"

#include <errno.h>
#include <stdio.h>
#include <stdlib.h>
#include <string.h>

static _Noreturn void stop(int status, const char *why)
{
    fprintf(stderr, "cadf: %s\n", why);
    exit(status);
}

/* The file of that name, in memory that is never freed. */
static struct cadf_bytes file(const char *name)
{
    FILE *from = fopen(name, "rb");
    size_t room = 4096, length = 0, count;
    uint8_t *bytes = malloc(room);
    if (!from)
        stop(3, "read fault");
    while (bytes && (count = fread(bytes + length, 1, room - length, from)) > 0)
        if ((length += count) == room)
            bytes = realloc(bytes, room *= 2);
    if (!bytes)
        stop(CADF_OUT_OF_MEMORY, "out of memory");
    if (ferror(from))
        stop(3, "read fault");
    fclose(from);
    return cadf_bytes_of(bytes, length);
}

static struct cadf_bytes word(const char *text)
{
    return cadf_bytes_of(text, strlen(text));
}

/* The number that a word is. strtoull alone takes blanks, signs and what follows, too. */
static uint64_t number(const char *text)
{
    char *end;
    errno = 0;
    unsigned long long value = strtoull(text, &end, 10);
    if (text[0] < '0' || text[0] > '9' || (text[0] == '0' && text[1]) || *end || errno)
        stop(CADF_ARGUMENT_REFUSED, "words");
    return value;
}

/* The files of these names, read at the first call. */
static struct cadf_bytes *files(int count, char **names)
{
    static struct cadf_bytes inputs[4096];
    for (int at = 0; at < count; at++)
        if (!inputs[at].bytes)
            inputs[at] = file(names[at]);
    return inputs;
}

/* Calls the function that the words name. */
static int call(int count, char **words, uint8_t *output, size_t room, size_t *length)
{
    static struct cadf_bytes first, second;
    const char *name = words[0];
    bool is_of_two = count == 3 && strcmp(name, "rehearse");
    if (count >= 2 && count < 4098 && !strcmp(name, "join")) {
        struct cadf_bytes log = word(words[1]);
        return cadf_join(files(count - 2, words + 2), count - 2, &log, output, room, length);
    }
    if (count >= 3 && count < 4099 && !strcmp(name, "split")) {
        struct cadf_bytes by = word(words[1]), log = word(words[2]);
        return cadf_split(&by, files(count - 3, words + 3), count - 3, &log, output, room, length);
    }
    if (count >= 2 && count < 4098 && (!strcmp(name, "prove") || !strcmp(name, "prove-keys"))) {
        const struct cadf_bytes *inputs = files(count - 1, words + 1);
        return cadf_prove(name[5] != 0, inputs, inputs + 1, count - 2, output, room, length);
    }
    if (count >= 2 && count < 4098 && !strcmp(name, "growth")) {
        const struct cadf_bytes *inputs = files(count - 1, words + 1);
        return cadf_growth(inputs, inputs + 1, count - 2, output, room, length);
    }
    if (count >= 2 && count < 4098 && !strcmp(name, "omit")) {
        const struct cadf_bytes *inputs = files(count - 1, words + 1);
        return cadf_omit(inputs, inputs + 1, count - 2, output, room, length);
    }
    if ((count == 4 || count == 5) && !strcmp(name, "grew")) {
        const struct cadf_bytes *inputs = files(count - 1, words + 1), none = word("");
        return cadf_grew(count == 5 ? inputs + 3 : &none, inputs, inputs + 1, inputs + 2, output, room, length);
    }
    if (count == 4 && (!strcmp(name, "verify") || !strcmp(name, "absent") || !strcmp(name, "verify-keys") || !strcmp(name, "absent-keys"))) {
        const struct cadf_bytes *inputs = files(3, words + 1);
        return cadf_verify(name[6] != 0, name[0] == 'a', inputs, inputs + 1, inputs + 2, output, room, length);
    }
    if (!first.bytes && count > 1) {
        first = file(words[is_of_two ? 1 : count - 1]);
        second = is_of_two ? file(words[2]) : word("");
    }
    if (count == 2 && (!strcmp(name, "show") || !strcmp(name, "conflicts")))
        return cadf_show(name[0] == 'c', &first, output, room, length);
    if (count == 2 && !strcmp(name, "check"))
        return cadf_check(&first, output, room, length);
    if (count == 2 && !strcmp(name, "inventory"))
        return cadf_inventory(&first, output, room, length);
    if (count == 2 && !strcmp(name, "seal"))
        return cadf_seal(&first, output, room, length);
    if (count == 2 && !strcmp(name, "sealed"))
        return cadf_sealed(&first, output, room, length);
    if (count == 3 && !strcmp(name, "missing"))
        return cadf_missing(&first, &second, output, room, length);
    if (count == 3 && !strcmp(name, "missing-by"))
        return cadf_missing_by(&first, &second, output, room, length);
    if (count == 3 && !strcmp(name, "missing-by-sketch"))
        return cadf_missing_by_sketch(&first, &second, output, room, length);
    if (count == 4 && !strcmp(name, "sketch"))
        return cadf_sketch(number(words[1]), number(words[2]), &first, output, room, length);
    if (count == 5 && !strcmp(name, "rule")) {
        struct cadf_bytes key = word(words[2]);
        uint8_t letter = strlen(words[1]) == 1 ? words[1][0] : 0;
        return cadf_rule(letter, &key, number(words[3]), &first, output, room, length);
    }
    if (count == 4 && !strcmp(name, "rehearse")) {
        struct cadf_bytes log = word(words[1]);
        return cadf_rehearse(&log, number(words[2]), &first, output, room, length);
    }
    stop(CADF_ARGUMENT_REFUSED, "words");
}

int main(int count, char **words)
{
    size_t room = 1 << 16, length;
    uint8_t *output = malloc(room);
    int status;
    if (count < 2)
        stop(CADF_ARGUMENT_REFUSED, "words");
    if (!output)
        stop(CADF_OUT_OF_MEMORY, "out of memory");
    while (status = call(count - 1, words + 1, output, room, &length), length > room) {
        free(output);
        output = malloc(room = length);
        if (!output)
            stop(CADF_OUT_OF_MEMORY, "out of memory");
    }
    if (status)
        fprintf(stderr, "cadf: %.*s\n", (int)length, (char *)output);
    else if (fwrite(output, 1, length, stdout) != length || fflush(stdout))
        stop(3, "write fault");
    free(output);
    return status;
}
