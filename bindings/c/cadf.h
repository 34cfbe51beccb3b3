/*
 * The engines of cadf over bytes in memory: what the command of the same name writes, without a process and without files.
 *
 * A call reads its inputs from memory and puts a text into the caller's buffer. It returns the exit status of the command:
 *
 *     CADF_WRITTEN (0)            the text is what the command writes to standard output
 *     CADF_INPUT_REFUSED (1)      an input is refused; the text is the command's error line, without `cadf: ` and line feed
 *     CADF_ARGUMENT_REFUSED (2)   a log, a key, a letter, a place, a number of sites or cells, a salt or a unit is refused;
 *                                 the text says which
 *     CADF_OUT_OF_MEMORY (4)      an allocation failed; the text is `out of memory`
 *
 * `*length` is the length of the text; for a status above 0 it is at most 128. That is proved, and so is which text it is
 * for 0 and 2; for 1 and 4 that is tested. If it is above `room`, the buffer has the first `room` bytes of it, and nothing
 * beyond the buffer is touched: call again with so much room. No text ends with a zero byte. For a status above 0, what the
 * buffer holds after the text is undefined.
 *
 *     struct cadf_bytes log = cadf_bytes_of(text, strlen(text));
 *     size_t length;
 *     int status = cadf_check(&log, NULL, 0, &length);             // how much room
 *     uint8_t *line = malloc(length);
 *     status = cadf_check(&log, line, length, &length);
 *
 * What each caller must ensure; nothing checks it:
 *
 *  - Each address is that of as many bytes as its length or room says, for the whole call. The functions below take NULL
 *    for an output without room, for a log or a list that isn't given, and for an input of no bytes. The elements of the arrays of
 *    cadf_join, cadf_split, cadf_prove, cadf_growth and cadf_omit are taken as they are: fill them by cadf_bytes_of, or with
 *    addresses that aren't NULL.
 *  - The output and `*length` overlap neither one another nor an input, and no other thread writes to an input meanwhile.
 *    What the buffer and `*length` held before isn't read.
 *  - A length or a room is at most 2^63-1. An input above 2^30 bytes is refused; a longer output is no input.
 *  - malloc, realloc and free come from one allocator, and blocks have the alignment that C asks for.
 *  - The stack has 256 KiB left.
 *  - No call is made from a signal handler, nor in the forked child of a process with threads before it calls exec. So
 *    Python's multiprocessing is to start its workers by `spawn` or `forkserver` if there are threads. Under eventlet
 *    and gevent a call is like any computation: other green threads wait for it.
 *
 * Any number of threads may call at the same time. There is nothing to initialise, and a call leaves nothing allocated.
 *
 * The soname, libcadf.so.0, changes with the signature of a function, with the meaning of an argument or a status, and when a
 * function is removed. A function more, and other texts as FORMATS.md versions them, change the version alone.
 */
#ifndef CADF_H
#define CADF_H

#include <stdbool.h>
#include <stddef.h>
#include <stdint.h>

#ifdef __cplusplus
extern "C" {
#endif

enum cadf_status {
    CADF_WRITTEN = 0,
    CADF_INPUT_REFUSED = 1,
    CADF_ARGUMENT_REFUSED = 2,
    CADF_OUT_OF_MEMORY = 4
};

/* Bytes of the caller's. */
struct cadf_bytes {
    const uint8_t *bytes;
    size_t length;
};

/* The version of the library: major * 65536 + minor * 256 + patch. */
uint32_t cadf_version(void);

/* The log that the input tells, or its conflicts. */
int cadf_show(bool conflicts, const struct cadf_bytes *input, uint8_t *output, size_t room, size_t *length);

/* One line: `ok`, the log, the number of facts, the number of conflicts. */
int cadf_check(const struct cadf_bytes *input, uint8_t *output, size_t room, size_t *length);

/* The replica file of all inputs, under the log, or the first that an input names. A log of no bytes is none. */
int cadf_join(const struct cadf_bytes *inputs, size_t count, const struct cadf_bytes *log,
              uint8_t *output, size_t room, size_t *length);

/* The split file of all inputs by a unit, `month`, `day` or `hour`, under the log, or the first that an input names. */
int cadf_split(const struct cadf_bytes *by, const struct cadf_bytes *inputs, size_t count, const struct cadf_bytes *log,
               uint8_t *output, size_t room, size_t *length);

/* The replica file of what `to` lacks of `from`. */
int cadf_missing(const struct cadf_bytes *from, const struct cadf_bytes *to,
                 uint8_t *output, size_t room, size_t *length);

/* The replica file of what `from` has beyond the inventory. */
int cadf_missing_by(const struct cadf_bytes *from, const struct cadf_bytes *inventory,
                    uint8_t *output, size_t room, size_t *length);

/* The replica file of what `from` has beyond the sketch; or a refusal that says how many cells to ask for. */
int cadf_missing_by_sketch(const struct cadf_bytes *from, const struct cadf_bytes *sketch,
                           uint8_t *output, size_t room, size_t *length);

/* The sketch file of the input: of so many cells, 0 for 198, and with that odd salt, 0 for the input's own. */
int cadf_sketch(uint64_t cells, uint64_t salt, const struct cadf_bytes *input,
                uint8_t *output, size_t room, size_t *length);

/* The inventory file of the input. */
int cadf_inventory(const struct cadf_bytes *input, uint8_t *output, size_t room, size_t *length);

/* The seal file of the input: its log, the number and the root of its facts, and those of their keys. */
int cadf_seal(const struct cadf_bytes *input, uint8_t *output, size_t room, size_t *length);

/* The proof file, under the seal of all inputs, of which facts they have and which they don't; with `keys`, of which keys of a
 * key file their facts have. `facts`, or that file, is input 1. */
int cadf_prove(bool keys, const struct cadf_bytes *facts, const struct cadf_bytes *inputs, size_t count,
               uint8_t *output, size_t room, size_t *length);

/* A line for each fact, with its digest, by a seal and a proof: that it is there; with `absent`, that it isn't. Refused
 * unless all are so, and if there is no fact. With `keys` the same for each key of a key file, in place of facts. */
int cadf_verify(bool keys, bool absent, const struct cadf_bytes *seal, const struct cadf_bytes *facts,
                const struct cadf_bytes *proof, uint8_t *output, size_t room, size_t *length);

/* The sealed list of the input: the digests of its facts and of their keys. */
int cadf_sealed(const struct cadf_bytes *input, uint8_t *output, size_t room, size_t *length);

/* The proof of growth from what the sealed list has to all inputs. `sealed` is input 1. */
int cadf_growth(const struct cadf_bytes *sealed, const struct cadf_bytes *inputs, size_t count,
                uint8_t *output, size_t room, size_t *length);

/* One line, by a proof under an earlier seal and a later one: how many facts were added, and with an erased list how many
 * were erased. Refused unless all that was sealed is there still, or in the list, which is input 4. A list of no bytes is
 * none. */
int cadf_grew(const struct cadf_bytes *erased, const struct cadf_bytes *earlier, const struct cadf_bytes *later,
              const struct cadf_bytes *proof, uint8_t *output, size_t room, size_t *length);

/* The replica file of all inputs without what the erased list has. `list` is input 1. */
int cadf_omit(const struct cadf_bytes *list, const struct cadf_bytes *inputs, size_t count,
              uint8_t *output, size_t room, size_t *length);

/* The input's replica file with a ruling more: the value at that place, from 1, of the key of that letter is to be shown. */
int cadf_rule(uint8_t letter, const struct cadf_bytes *key, uint64_t place, const struct cadf_bytes *input,
              uint8_t *output, size_t room, size_t *length);

/* A line for each of 1 to 64 sites of the log after the schedule of the script. */
int cadf_rehearse(const struct cadf_bytes *log, uint64_t sites, const struct cadf_bytes *script,
                  uint8_t *output, size_t room, size_t *length);

/*
 * The functions of the library take no NULL. Below, each has one around it that does, and a macro of its name that calls
 * this one: `cadf_check(..)` takes NULL, `(cadf_check)(..)` is the library's own.
 */

static const uint8_t cadf_no_bytes[1] = {0};

/* The bytes at an address, which may be NULL for none. */
static inline struct cadf_bytes cadf_bytes_of(const void *bytes, size_t length)
{
    struct cadf_bytes found = {cadf_no_bytes, 0};
    if (bytes) {
        found.bytes = (const uint8_t *)bytes;
        found.length = length;
    }
    return found;
}

/* The same of a pointer to bytes, which may be NULL. */
static inline struct cadf_bytes cadf_bytes_at(const struct cadf_bytes *bytes)
{
    return bytes ? cadf_bytes_of(bytes->bytes, bytes->length) : cadf_bytes_of(NULL, 0);
}

static inline int cadf_show_or_null(bool conflicts, const struct cadf_bytes *input,
                                    uint8_t *output, size_t room, size_t *length)
{
    uint8_t nowhere = 0;
    const struct cadf_bytes one = cadf_bytes_at(input);
    return cadf_show(conflicts, &one, output ? output : &nowhere, output ? room : 0, length);
}

static inline int cadf_check_or_null(const struct cadf_bytes *input, uint8_t *output, size_t room, size_t *length)
{
    uint8_t nowhere = 0;
    const struct cadf_bytes one = cadf_bytes_at(input);
    return cadf_check(&one, output ? output : &nowhere, output ? room : 0, length);
}

static inline int cadf_join_or_null(const struct cadf_bytes *inputs, size_t count, const struct cadf_bytes *log,
                                    uint8_t *output, size_t room, size_t *length)
{
    uint8_t nowhere = 0;
    const struct cadf_bytes none = cadf_bytes_of(NULL, 0), named = cadf_bytes_at(log);
    return cadf_join(inputs ? inputs : &none, inputs ? count : 0, &named,
                     output ? output : &nowhere, output ? room : 0, length);
}

static inline int cadf_split_or_null(const struct cadf_bytes *by, const struct cadf_bytes *inputs, size_t count,
                                     const struct cadf_bytes *log, uint8_t *output, size_t room, size_t *length)
{
    uint8_t nowhere = 0;
    const struct cadf_bytes none = cadf_bytes_of(NULL, 0), unit = cadf_bytes_at(by), named = cadf_bytes_at(log);
    return cadf_split(&unit, inputs ? inputs : &none, inputs ? count : 0, &named,
                      output ? output : &nowhere, output ? room : 0, length);
}

static inline int cadf_missing_or_null(const struct cadf_bytes *from, const struct cadf_bytes *to,
                                       uint8_t *output, size_t room, size_t *length)
{
    uint8_t nowhere = 0;
    const struct cadf_bytes first = cadf_bytes_at(from), second = cadf_bytes_at(to);
    return cadf_missing(&first, &second, output ? output : &nowhere, output ? room : 0, length);
}

static inline int cadf_missing_by_or_null(const struct cadf_bytes *from, const struct cadf_bytes *inventory,
                                          uint8_t *output, size_t room, size_t *length)
{
    uint8_t nowhere = 0;
    const struct cadf_bytes first = cadf_bytes_at(from), second = cadf_bytes_at(inventory);
    return cadf_missing_by(&first, &second, output ? output : &nowhere, output ? room : 0, length);
}

static inline int cadf_missing_by_sketch_or_null(const struct cadf_bytes *from, const struct cadf_bytes *sketch,
                                                 uint8_t *output, size_t room, size_t *length)
{
    uint8_t nowhere = 0;
    const struct cadf_bytes first = cadf_bytes_at(from), second = cadf_bytes_at(sketch);
    return cadf_missing_by_sketch(&first, &second, output ? output : &nowhere, output ? room : 0, length);
}

static inline int cadf_sketch_or_null(uint64_t cells, uint64_t salt, const struct cadf_bytes *input,
                                      uint8_t *output, size_t room, size_t *length)
{
    uint8_t nowhere = 0;
    const struct cadf_bytes one = cadf_bytes_at(input);
    return cadf_sketch(cells, salt, &one, output ? output : &nowhere, output ? room : 0, length);
}

static inline int cadf_inventory_or_null(const struct cadf_bytes *input, uint8_t *output, size_t room, size_t *length)
{
    uint8_t nowhere = 0;
    const struct cadf_bytes one = cadf_bytes_at(input);
    return cadf_inventory(&one, output ? output : &nowhere, output ? room : 0, length);
}

static inline int cadf_seal_or_null(const struct cadf_bytes *input, uint8_t *output, size_t room, size_t *length)
{
    uint8_t nowhere = 0;
    const struct cadf_bytes one = cadf_bytes_at(input);
    return cadf_seal(&one, output ? output : &nowhere, output ? room : 0, length);
}

static inline int cadf_prove_or_null(bool keys, const struct cadf_bytes *facts, const struct cadf_bytes *inputs, size_t count,
                                     uint8_t *output, size_t room, size_t *length)
{
    uint8_t nowhere = 0;
    const struct cadf_bytes none = cadf_bytes_of(NULL, 0), one = cadf_bytes_at(facts);
    return cadf_prove(keys, &one, inputs ? inputs : &none, inputs ? count : 0,
                      output ? output : &nowhere, output ? room : 0, length);
}

static inline int cadf_verify_or_null(bool keys, bool absent, const struct cadf_bytes *seal, const struct cadf_bytes *facts,
                                      const struct cadf_bytes *proof, uint8_t *output, size_t room, size_t *length)
{
    uint8_t nowhere = 0;
    const struct cadf_bytes first = cadf_bytes_at(seal), second = cadf_bytes_at(facts), third = cadf_bytes_at(proof);
    return cadf_verify(keys, absent, &first, &second, &third, output ? output : &nowhere, output ? room : 0, length);
}

static inline int cadf_sealed_or_null(const struct cadf_bytes *input, uint8_t *output, size_t room, size_t *length)
{
    uint8_t nowhere = 0;
    const struct cadf_bytes one = cadf_bytes_at(input);
    return cadf_sealed(&one, output ? output : &nowhere, output ? room : 0, length);
}

static inline int cadf_growth_or_null(const struct cadf_bytes *sealed, const struct cadf_bytes *inputs, size_t count,
                                      uint8_t *output, size_t room, size_t *length)
{
    uint8_t nowhere = 0;
    const struct cadf_bytes none = cadf_bytes_of(NULL, 0), one = cadf_bytes_at(sealed);
    return cadf_growth(&one, inputs ? inputs : &none, inputs ? count : 0,
                       output ? output : &nowhere, output ? room : 0, length);
}

static inline int cadf_grew_or_null(const struct cadf_bytes *erased, const struct cadf_bytes *earlier,
                                    const struct cadf_bytes *later, const struct cadf_bytes *proof,
                                    uint8_t *output, size_t room, size_t *length)
{
    uint8_t nowhere = 0;
    const struct cadf_bytes list = cadf_bytes_at(erased), first = cadf_bytes_at(earlier), second = cadf_bytes_at(later);
    const struct cadf_bytes third = cadf_bytes_at(proof);
    return cadf_grew(&list, &first, &second, &third, output ? output : &nowhere, output ? room : 0, length);
}

static inline int cadf_omit_or_null(const struct cadf_bytes *list, const struct cadf_bytes *inputs, size_t count,
                                    uint8_t *output, size_t room, size_t *length)
{
    uint8_t nowhere = 0;
    const struct cadf_bytes none = cadf_bytes_of(NULL, 0), one = cadf_bytes_at(list);
    return cadf_omit(&one, inputs ? inputs : &none, inputs ? count : 0,
                     output ? output : &nowhere, output ? room : 0, length);
}

static inline int cadf_rule_or_null(uint8_t letter, const struct cadf_bytes *key, uint64_t place,
                                    const struct cadf_bytes *input, uint8_t *output, size_t room, size_t *length)
{
    uint8_t nowhere = 0;
    const struct cadf_bytes name = cadf_bytes_at(key), one = cadf_bytes_at(input);
    return cadf_rule(letter, &name, place, &one, output ? output : &nowhere, output ? room : 0, length);
}

static inline int cadf_rehearse_or_null(const struct cadf_bytes *log, uint64_t sites, const struct cadf_bytes *script,
                                        uint8_t *output, size_t room, size_t *length)
{
    uint8_t nowhere = 0;
    const struct cadf_bytes name = cadf_bytes_at(log), one = cadf_bytes_at(script);
    return cadf_rehearse(&name, sites, &one, output ? output : &nowhere, output ? room : 0, length);
}

#define cadf_show(...) cadf_show_or_null(__VA_ARGS__)
#define cadf_check(...) cadf_check_or_null(__VA_ARGS__)
#define cadf_join(...) cadf_join_or_null(__VA_ARGS__)
#define cadf_split(...) cadf_split_or_null(__VA_ARGS__)
#define cadf_missing(...) cadf_missing_or_null(__VA_ARGS__)
#define cadf_missing_by(...) cadf_missing_by_or_null(__VA_ARGS__)
#define cadf_missing_by_sketch(...) cadf_missing_by_sketch_or_null(__VA_ARGS__)
#define cadf_sketch(...) cadf_sketch_or_null(__VA_ARGS__)
#define cadf_inventory(...) cadf_inventory_or_null(__VA_ARGS__)
#define cadf_seal(...) cadf_seal_or_null(__VA_ARGS__)
#define cadf_prove(...) cadf_prove_or_null(__VA_ARGS__)
#define cadf_verify(...) cadf_verify_or_null(__VA_ARGS__)
#define cadf_sealed(...) cadf_sealed_or_null(__VA_ARGS__)
#define cadf_growth(...) cadf_growth_or_null(__VA_ARGS__)
#define cadf_grew(...) cadf_grew_or_null(__VA_ARGS__)
#define cadf_omit(...) cadf_omit_or_null(__VA_ARGS__)
#define cadf_rule(...) cadf_rule_or_null(__VA_ARGS__)
#define cadf_rehearse(...) cadf_rehearse_or_null(__VA_ARGS__)

#ifdef __cplusplus
}
#endif

#endif
