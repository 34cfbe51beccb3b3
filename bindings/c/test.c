/*
 * Tries each function of the library: each status that can come, every size of buffer around the right one, and where it is
 * linked with --wrap=malloc, --wrap=realloc and --wrap=free and compiled with -DREFUSES, a refused allocation in each place.
 *
 *     test VERSION
 *
 * VERSION is what `cadf --version` prints. What each call writes to memory is what tests/reference/cadf writes for the same inputs.
 * All calls are made on a stack of the least size that cadf.h asks for.
 */
#include "cadf.h"

#include <pthread.h>
#include <stdio.h>
#include <stdlib.h>
#include <string.h>

#define GUARD 0xA5
#define BEHIND 9
#define STACK (256 * 1024)
#define DEPTH 100

static int failures;

static void fail(const char *name, const char *what)
{
    fprintf(stderr, "test: %s: %s\n", name, what);
    failures++;
}

#ifdef REFUSES
/* ---- allocations, of which one is refused */

static long made, held, refused_at;
static bool counts;

void *__real_malloc(size_t size);
void *__real_realloc(void *block, size_t size);
void __real_free(void *block);

static bool is_refused(void)
{
    return counts && ++made == refused_at;
}

void *__wrap_malloc(size_t size)
{
    void *block = is_refused() ? NULL : __real_malloc(size);
    held += counts && block;
    return block;
}

void *__wrap_realloc(void *block, size_t size)
{
    void *found = is_refused() ? NULL : __real_realloc(block, size);
    held += counts && !block && found;
    return found;
}

void __wrap_free(void *block)
{
    held -= counts && block;
    __real_free(block);
}
#endif

/* ---- inputs */

#define TEXT(text) {(const uint8_t *)(text), sizeof(text) - 1}

static const struct cadf_bytes a_log = TEXT("{\"id\":\"g\",\"events\":[],\"name\":\"a\"}");
static const struct cadf_bytes b_log = TEXT("{\"id\":\"g\",\"events\":[],\"name\":\"b\"}");
static const struct cadf_bytes other_log = TEXT("{\"id\":\"h\",\"events\":[]}");
static const struct cadf_bytes cut = TEXT("{\"id\":\"g\",");
static const struct cadf_bytes script = TEXT("learn 0 {\"id\":\"g\",\"events\":[],\"name\":\"a\"}\nsend 0\ndeliver 1 1\n");
static const struct cadf_bytes bad_script = TEXT("ask 0\nask 00\n");
static const struct cadf_bytes g = TEXT("g"), h = TEXT("h"), key = TEXT("name"), control = TEXT("\x01"), day = TEXT("day"), latin = TEXT("\xff");

#define FILE_OF(nodes, digest) "CADF-REPLICA 2\nL \"g\"\n[1,0,\"P\"]\n[2,0,\"name\"]\n" nodes "Z " digest "\n"
#define A_FILE FILE_OF("[3,1,\"\\\"a\\\"\"]\n", "a0764a54cd022e59d25b5e180f495c67fc980287e011f251b152af3c32425fbb")
#define BOTH_FILE FILE_OF("[3,1,\"\\\"a\\\"\"]\n[3,1,\"\\\"b\\\"\"]\n", "f1169f82e01d0f2193aadd2a99bc5cf2674061a6dc41c23082c2b1e276c2f2cf")
#define BOTH_SPLIT "CADF-SPLIT 1\nL \"g\"\nB day\nP shared\n" BOTH_FILE \
    "Z 8a55b2bd4f2177412f6977f225a2a804569304f5a869c87934eacb159831be45\n"
#define RULED_FILE FILE_OF("[3,1,\"\\\"a\\\"\"]\n[3,1,\"\\\"b\\\"\"]\n[1,0,\"U\"]\n[2,0,\"P\"]\n[3,0,\"name\"]\n" \
    "[4,1,\"ac8d8342bbb2362d13f0a559a3621bb407011368895164b628a54f7fc33fc43c\"]\n", \
    "756e3e679a3c75ae29cc52a65b9cbfa33d6273da569a5a1e5914ff4190bf58ce")
#define A_DIGEST "d887dfc183257ab7b6690a08aa6a376f17bb1a76c5ceefb71bc319bd3f703cf1"
#define B_DIGEST "996bc98dddbb85f9086eaa19d3baa801145d5cee05855ba7b6536a33eeb07b11"
#define B_INVENTORY "CADF-INVENTORY 1\nL \"g\"\n" B_DIGEST "\n" \
    "Z a50c88d1acddfe24de2cc6470468677d07207dc1b6d3e11fe4484f4c3585dda7\n"
#define B_SEAL "CADF-SEAL 1\nL \"g\"\nN 1\nR 7caf5b525a72384c774aa38bd6f9fd71c859df24278720b6f81e21cb301616ba\n" \
    "M 1\nS 33433a06464951cfd05ff3c988a54d354ecf889e7308e235530d65e6ad134bfc\n" \
    "Z 7445d3b2e7412a76b3f8c83b18d32596faf7c4967a8afafbf016fb5fb3a880d6\n"

#define B_PROOF "CADF-PROOF 1\nL \"g\"\nP " B_DIGEST "\nZ 10331aa9c38a66c912bf33dc833182bc44a01f6fa4a81b49be7aff5e4df57a46\n"
#define BOTH_PROOF "CADF-PROOF 1\nL \"g\"\nN\nH 0219e6711fc48070eae5013c45fe272208a39a140b050cbad62bc9ae41505858\n" \
    "P " A_DIGEST "\nZ 303f972c2a96b3902be2cf671725933471bcb70246c95964a7ea9839a316451d\n"

#define SKETCH_OF(layout, cells, digest) "CADF-SKETCH 1\nL \"g\"\nS " layout " a50c88d1acddfe24de2cc6470468677d07207dc1b6d3e11fe4484f4c3585dda7\n" \
    "C 1 1 0 0 1 1 0 0 1 0 1 1 0 1 0 1 1 1 1 0 0 1 0 0 1 1 0 0 0 1 1 0 1 " \
    "1 1 0 1 1 1 0 1 1 0 1 1 1 0 1 1 1 0 0 0 0 1 0 1 1 1 1 1 1 0 0 1\n" \
    cells "Z " digest "\n"
#define B_CELL "996bc98dddbb85f9086eaa19d3baa801145d5cee05855ba7b6536a33eeb07b116113b3ac35454111\n"
#define NO_CELL "0000000000000000000000000000000000000000" "0000000000000000000000000000000000000000\n"
#define B_SKETCH SKETCH_OF("6 1", NO_CELL B_CELL B_CELL NO_CELL B_CELL NO_CELL, "3bf794ca0f5d10d025c4ba0398db0090410b816d203bb0013c9071c01e87a31e")
#define FEW_SKETCH SKETCH_OF("3 1", B_CELL B_CELL B_CELL, "71e763ac7eb26f197d34fc7cd04ab1a795d4b97345d7af89985c2ba198c9dd17")
#define OWN_SKETCH SKETCH_OF("3 11893031150108409381", B_CELL B_CELL B_CELL, "697cb959e6ee2f0916b20a10e7d63d15f7b48e930d4ecf568500782a4520674d")

static const struct cadf_bytes both = TEXT(BOTH_FILE), b_inventory = TEXT(B_INVENTORY);
static const struct cadf_bytes b_seal = TEXT(B_SEAL), b_proof = TEXT(B_PROOF), both_proof = TEXT(BOTH_PROOF);
static const struct cadf_bytes b_sketch = TEXT(B_SKETCH), few_sketch = TEXT(FEW_SKETCH);

/* A log with a property that is nested so deep. */
static struct cadf_bytes nested_log(void)
{
    static const char before[] = "{\"id\":\"g\",\"events\":[],\"name\":";
    static char text[sizeof before + 2 * DEPTH];
    memcpy(text, before, sizeof before - 1);
    memset(text + sizeof before - 1, '[', DEPTH);
    memset(text + sizeof before - 1 + DEPTH, ']', DEPTH);
    text[sizeof text - 1] = '}';
    return cadf_bytes_of(text, sizeof text);
}

/* ---- calls */

typedef int call(uint8_t *output, size_t room, size_t *length);

#define CALL(name, ...) static int name(uint8_t *output, size_t room, size_t *length) { return __VA_ARGS__; }
#define OUT output, room, length

CALL(shows, cadf_show(false, &both, OUT))
CALL(shows_conflicts, cadf_show(true, &both, OUT))
CALL(shows_cut, cadf_show(false, &cut, OUT))
CALL(shows_nothing, cadf_show(false, NULL, OUT))
CALL(checks, cadf_check(&both, OUT))
CALL(checks_cut, cadf_check(&cut, OUT))
CALL(misses, cadf_missing(&a_log, &b_log, OUT))
CALL(misses_other, cadf_missing(&a_log, &other_log, OUT))
CALL(misses_by, cadf_missing_by(&a_log, &b_inventory, OUT))
CALL(misses_by_cut, cadf_missing_by(&a_log, &cut, OUT))
CALL(misses_by_sketch, cadf_missing_by_sketch(&a_log, &b_sketch, OUT))
CALL(misses_by_few_cells, cadf_missing_by_sketch(&a_log, &few_sketch, OUT))
CALL(misses_by_cut_sketch, cadf_missing_by_sketch(&a_log, &cut, OUT))
CALL(sketches, cadf_sketch(6, 1, &b_log, OUT))
CALL(sketches_few_cells, cadf_sketch(3, 1, &b_log, OUT))
CALL(sketches_with_own_salt, cadf_sketch(3, 0, &b_log, OUT))
CALL(sketches_cut, cadf_sketch(0, 0, &cut, OUT))
CALL(sketches_four_cells, cadf_sketch(4, 2, &cut, OUT))
CALL(sketches_many_cells, cadf_sketch(12582915, 1, &cut, OUT))
CALL(sketches_even_salt, cadf_sketch(3, 2, &cut, OUT))
CALL(lists, cadf_inventory(&b_log, OUT))
CALL(lists_cut, cadf_inventory(&cut, OUT))
CALL(seals, cadf_seal(&b_log, OUT))
CALL(seals_cut, cadf_seal(&cut, OUT))
CALL(proves_nothing, cadf_prove(false, &a_log, NULL, 0, OUT))
CALL(proves_no_facts, cadf_prove(false, NULL, &b_log, 1, OUT))
CALL(verifies, cadf_verify(false, false, &b_seal, &b_log, &b_proof, OUT))
CALL(verifies_absent, cadf_verify(false, true, &b_seal, &a_log, &b_proof, OUT))
CALL(verifies_but_absent, cadf_verify(false, false, &b_seal, &a_log, &b_proof, OUT))
CALL(verifies_but_present, cadf_verify(false, true, &b_seal, &b_log, &b_proof, OUT))
CALL(verifies_other_count, cadf_verify(false, false, &b_seal, &b_log, &both_proof, OUT))
CALL(verifies_other, cadf_verify(false, false, &b_seal, &other_log, &b_proof, OUT))
CALL(verifies_cut, cadf_verify(false, false, &cut, NULL, NULL, OUT))
CALL(verifies_no_facts, cadf_verify(false, false, &b_seal, NULL, &b_proof, OUT))
CALL(verifies_no_proof, cadf_verify(false, false, &b_seal, &b_log, NULL, OUT))
CALL(proves_no_keys, cadf_prove(true, &b_log, &b_log, 1, OUT))
CALL(verifies_no_keys, cadf_verify(true, false, &b_seal, &b_log, &b_proof, OUT))
CALL(rules, cadf_rule('P', &key, 1, &both, OUT))
CALL(rules_no_value, cadf_rule('P', &key, 9, &both, OUT))
CALL(rules_no_letter, cadf_rule('X', &control, 0, &cut, OUT))
CALL(rules_high_letter, cadf_rule(0xC5, &key, 1, &both, OUT))
CALL(rules_no_key, cadf_rule('P', &control, 0, &cut, OUT))
CALL(rules_empty_key, cadf_rule('P', NULL, 1, &both, OUT))
CALL(rules_key_no_text, cadf_rule('P', &latin, 1, &both, OUT))
CALL(rules_no_place, cadf_rule('P', &key, 0, &cut, OUT))
CALL(rules_far_place, cadf_rule('P', &key, 1000000000, &cut, OUT))
CALL(rehearses, cadf_rehearse(&g, 3, &script, OUT))
CALL(rehearses_bad, cadf_rehearse(&g, 3, &bad_script, OUT))
CALL(rehearses_no_sites, cadf_rehearse(&g, 0, &script, OUT))
CALL(rehearses_many_sites, cadf_rehearse(&g, 65, &script, OUT))
CALL(rehearses_no_log, cadf_rehearse(NULL, 65, &script, OUT))

static int checks_nested(uint8_t *output, size_t room, size_t *length)
{
    const struct cadf_bytes log = nested_log();
    return cadf_check(&log, output, room, length);
}

static int joined(const struct cadf_bytes *first, const struct cadf_bytes *log, uint8_t *output, size_t room, size_t *length)
{
    const struct cadf_bytes inputs[] = {*first, b_log, a_log};
    return cadf_join(inputs, sizeof inputs / sizeof *inputs, log, output, room, length);
}

CALL(joins, joined(&a_log, NULL, OUT))
CALL(joins_named, joined(&a_log, &g, OUT))
CALL(joins_other, joined(&a_log, &h, OUT))
CALL(joins_cut, joined(&cut, NULL, OUT))
CALL(joins_no_log, joined(&cut, &control, OUT))
CALL(joins_log_no_text, joined(&cut, &latin, OUT))
CALL(joins_nothing, cadf_join(NULL, 0, NULL, OUT))

static int parted(const struct cadf_bytes *by, const struct cadf_bytes *first, const struct cadf_bytes *log,
                  uint8_t *output, size_t room, size_t *length)
{
    const struct cadf_bytes inputs[] = {*first, b_log};
    return cadf_split(by, inputs, sizeof inputs / sizeof *inputs, log, output, room, length);
}

CALL(splits, parted(&day, &a_log, NULL, OUT))
CALL(splits_other, parted(&day, &a_log, &h, OUT))
CALL(splits_cut, parted(&day, &cut, NULL, OUT))
CALL(splits_no_unit, parted(NULL, &cut, &control, OUT))
CALL(splits_unit_no_text, parted(&latin, &cut, NULL, OUT))
CALL(splits_no_log, parted(&day, &cut, &control, OUT))
CALL(splits_nothing, cadf_split(&day, NULL, 0, NULL, OUT))

static int proved(const struct cadf_bytes *facts, const struct cadf_bytes *first, uint8_t *output, size_t room, size_t *length)
{
    const struct cadf_bytes inputs[] = {*first, b_log};
    return cadf_prove(false, facts, inputs, sizeof inputs / sizeof *inputs, output, room, length);
}

CALL(proves, proved(&a_log, &a_log, OUT))
CALL(proves_absent, proved(&a_log, &b_log, OUT))
CALL(proves_other, proved(&other_log, &a_log, OUT))
CALL(proves_cut, proved(&a_log, &cut, OUT))

struct expected {
    const char *name;
    call *call;
    int status;
    const char *text;
};

#define ROW(call, status, text) {#call, call, status, text}

static const struct expected rows[] = {
    ROW(shows, 0, "{\"events\":[],\"geolocations\":[],\"id\":\"g\",\"metrics\":[],\"resources\":[],"
                  "\"typeURI\":\"http://schemas.dmtf.org/cloud/audit/1.0/log\"}\n"),
    ROW(shows_conflicts, 0, "{\"conflicts\":[{\"key\":\"name\",\"kind\":\"P\",\"values\":[\"a\",\"b\"]}],\"log\":\"g\",\"rulings\":[]}\n"),
    ROW(shows_cut, 1, "input 1: not JSON"),
    ROW(shows_nothing, 1, "input 1: not JSON"),
    ROW(checks, 0, "ok \"g\" atoms 2 conflicts 1\n"),
    ROW(checks_nested, 0, "ok \"g\" atoms 1 conflicts 0\n"),
    ROW(checks_cut, 1, "input 1: not JSON"),
    ROW(misses, 0, A_FILE),
    ROW(misses_other, 1, "input 2: other log"),
    ROW(misses_by, 0, A_FILE),
    ROW(misses_by_cut, 1, "input 2: truncated"),
    ROW(misses_by_sketch, 0, A_FILE),
    ROW(misses_by_few_cells, 1, "input 2: too few cells: ask for 36"),
    ROW(misses_by_cut_sketch, 1, "input 2: truncated"),
    ROW(sketches, 0, B_SKETCH),
    ROW(sketches_few_cells, 0, FEW_SKETCH),
    ROW(sketches_with_own_salt, 0, OWN_SKETCH),
    ROW(sketches_cut, 1, "input 1: not JSON"),
    ROW(sketches_four_cells, 2, "cells"),
    ROW(sketches_many_cells, 2, "cells"),
    ROW(sketches_even_salt, 2, "salt"),
    ROW(lists, 0, B_INVENTORY),
    ROW(lists_cut, 1, "input 1: not JSON"),
    ROW(seals, 0, B_SEAL),
    ROW(seals_cut, 1, "input 1: not JSON"),
    ROW(proves, 0, BOTH_PROOF),
    ROW(proves_absent, 0, B_PROOF),
    ROW(proves_other, 1, "input 1: other log"),
    ROW(proves_cut, 1, "input 2: not JSON"),
    ROW(proves_nothing, 1, "no log named"),
    ROW(proves_no_facts, 1, "input 1: not JSON"),
    ROW(verifies, 0, "present P \"name\" " B_DIGEST "\n"),
    ROW(verifies_absent, 0, "absent P \"name\" " A_DIGEST "\n"),
    ROW(verifies_but_absent, 1, "fact 1: absent"),
    ROW(verifies_but_present, 1, "fact 1: present"),
    ROW(verifies_other_count, 1, "input 3: other count"),
    ROW(verifies_other, 1, "input 2: other log"),
    ROW(verifies_cut, 1, "input 1: truncated"),
    ROW(verifies_no_facts, 1, "input 2: not JSON"),
    ROW(verifies_no_proof, 1, "input 3: truncated"),
    ROW(proves_no_keys, 1, "input 1: truncated"),
    ROW(verifies_no_keys, 1, "input 2: truncated"),
    ROW(rules, 0, RULED_FILE),
    ROW(rules_no_value, 1, "no such value"),
    ROW(rules_no_letter, 2, "letter"),
    ROW(rules_high_letter, 2, "letter"),
    ROW(rules_no_key, 2, "key"),
    ROW(rules_empty_key, 2, "key"),
    ROW(rules_key_no_text, 2, "key"),
    ROW(rules_no_place, 2, "place"),
    ROW(rules_far_place, 2, "place"),
    ROW(rehearses, 0, "site 0 atoms 1 as 0\nsite 1 atoms 1 as 0\nsite 2 atoms 0 as 2\n"),
    ROW(rehearses_bad, 1, "line 2: script"),
    ROW(rehearses_no_sites, 2, "sites"),
    ROW(rehearses_many_sites, 2, "sites"),
    ROW(rehearses_no_log, 2, "log name"),
    ROW(joins, 0, BOTH_FILE),
    ROW(joins_named, 0, BOTH_FILE),
    ROW(joins_other, 1, "input 1: other log"),
    ROW(joins_cut, 1, "input 1: not JSON"),
    ROW(joins_no_log, 2, "log name"),
    ROW(joins_log_no_text, 2, "log name"),
    ROW(joins_nothing, 1, "no log named"),
    ROW(splits, 0, BOTH_SPLIT),
    ROW(splits_other, 1, "input 1: other log"),
    ROW(splits_cut, 1, "input 1: not JSON"),
    ROW(splits_no_unit, 2, "unit"),
    ROW(splits_unit_no_text, 2, "unit"),
    ROW(splits_no_log, 2, "log name"),
    ROW(splits_nothing, 1, "no log named"),
};

/* ---- what is tried of each */

/* Calls with so much room. The buffer has the text as far as it fits, and nothing beyond it is touched. */
static void with_room(const struct expected *row, size_t room)
{
    size_t whole = strlen(row->text), length = SIZE_MAX, fits = room < whole ? room : whole;
    uint8_t *buffer = malloc(room + BEHIND);
    memset(buffer, GUARD, room + BEHIND);
    if (row->call(buffer, room, &length) != row->status || length != whole)
        fail(row->name, "another status or length");
    else if (memcmp(buffer, row->text, fits))
        fail(row->name, "another text");
    for (size_t at = row->status ? room : fits; at < room + BEHIND; at++)
        if (buffer[at] != GUARD) {
            fail(row->name, "it wrote beyond the text");
            break;
        }
    free(buffer);
}

static void with_all_rooms(const struct expected *row)
{
    size_t whole = strlen(row->text), length = SIZE_MAX;
    if (row->call(NULL, 0, &length) != row->status || length != whole)
        fail(row->name, "another size");
    for (size_t room = 0; room <= whole + 1; room += whole < 64 || room < 2 || room + 2 > whole ? 1 : whole - 3)
        with_room(row, room);
    with_room(row, whole + 4096);
}

#ifdef REFUSES
/* Calls with an allocation refused in each place: the answer is the right one, or that there is no memory; all is freed. */
static void with_refusals(const struct expected *row)
{
    static uint8_t buffer[4096];
    size_t length;
    refused_at = made = 0;
    counts = true;
    row->call(buffer, sizeof buffer, &length);
    counts = false;
    if (held)
        fail(row->name, "a block is held");
    for (long last = made, at = 1; at <= last; at++) {
        refused_at = at;
        made = held = 0;
        counts = true;
        int status = row->call(buffer, sizeof buffer, &length);
        counts = false;
        bool is_right = status == row->status && length == strlen(row->text) && !memcmp(buffer, row->text, length);
        bool is_memory = status == CADF_OUT_OF_MEMORY && length == 13 && !memcmp(buffer, "out of memory", 13);
        if (!is_right && !is_memory)
            fail(row->name, "a refused allocation gives another answer");
        if (held)
            fail(row->name, "a refused allocation leaves a block");
    }
}
#endif

static void has_version(const char *told)
{
    char version[64];
    uint32_t number = cadf_version();
    snprintf(version, sizeof version, "cadf %u.%u.%u", number >> 16, number >> 8 & 255, number & 255);
    if (strcmp(version, told))
        fail("cadf_version", version);
}

static void *try_all(void *version)
{
    has_version(version);
    for (size_t at = 0; at < sizeof rows / sizeof *rows; at++) {
        with_all_rooms(&rows[at]);
#ifdef REFUSES
        with_refusals(&rows[at]);
#endif
    }
    return NULL;
}

int main(int count, char **words)
{
    pthread_attr_t attributes;
    pthread_t thread;
    if (count != 2)
        return fprintf(stderr, "usage: test VERSION\n"), 2;
    if (pthread_attr_init(&attributes) || pthread_attr_setstacksize(&attributes, STACK)
        || pthread_create(&thread, &attributes, try_all, words[1]) || pthread_join(thread, NULL))
        fail("main", "no thread");
    printf("test: %zu calls, %d failures\n", sizeof rows / sizeof *rows, failures);
    return failures != 0;
}
