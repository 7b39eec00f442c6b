/*
 * Judges a captured list, whole and in pieces, tells how many of its writes made a difference, shows what it sets, forecasts how
 * short it could be, shows how a list is filled, and draws one fragment with the state that the list leaves.
 *
 *     forecast FILE        FILE holds the list's words, four bytes a word, the lowest byte first
 *
 * Ends with status 0, with 1 where a call was refused, and with 2 where FILE is no list of words.
 */
#include <stdio.h>
#include <string.h>

#include "pica.h"
#include "pica_names.h"

struct state {
    uint32_t cells[PICA_CELLS_LENGTH];
    uint32_t fog[PICA_FOG_LENGTH];
    uint32_t light[PICA_LIGHT_LENGTH];
};

/* A whole state is lent to every call, always in this order. */
#define LENT(s) (s)->cells, PICA_CELLS_LENGTH, (s)->fog, PICA_FOG_LENGTH, (s)->light, PICA_LIGHT_LENGTH

/* One word more than the limit, so that a list that is too long is refused as such and not cut. */
#define MOST_LOADED (PICA_LIST_LENGTH_MOST + 1)

/* A later library may refuse by a number that this header has no name for. */
static const char *named(const char *name) { return name ? name : "(no name)"; }

/* 1 where the call was answered; else says why not. */
static int answered(const char *what, uint64_t answer) {
    if (pica_number(answer) == 0) return 1;
    uint32_t number = pica_number(answer);
    printf("%s: refused with %u at %u: %s\n", what, (unsigned)number, (unsigned)pica_value(answer), named(pica_refusal_text(number)));
    printf("  what to do: %s\n", named(pica_refusal_advice(number)));
    return 0;
}

/* The words of a file, MOST_LOADED at most; -1 where it cannot be read or ends within a word. */
static long load(const char *path, uint32_t *words) {
    unsigned char bytes[4];
    long count = 0;
    size_t got = 0;
    FILE *file = fopen(path, "rb");
    if (!file) return -1;
    while (count < MOST_LOADED && (got = fread(bytes, 1, 4, file)) == 4)
        words[count++] = bytes[0] | (uint32_t)bytes[1] << 8 | (uint32_t)bytes[2] << 16 | (uint32_t)bytes[3] << 24;
    if (ferror(file) || (got != 0 && got != 4)) count = -1;
    fclose(file);
    return count;
}

/* A refused list leaves the state as it was, and the count of differences too. */
static int show_read(struct state *s, const uint32_t *list, size_t length) {
    const struct state before = *s;
    const uint32_t untouched = 12345;
    uint32_t differences = untouched;
    uint64_t answer = pica_read(LENT(s), list, length, &differences);
    if (!answered("read", answer)) {
        int is_same = memcmp(&before, s, sizeof before) == 0 && differences == untouched;
        printf("state and differences: %s\n", is_same ? "as they were" : "changed");
        return 0;
    }
    printf("read: %u writes from %u words, %u of the writes made a difference\n", (unsigned)pica_value(answer), (unsigned)length,
           (unsigned)differences);
    return 1;
}

/* "made a difference" or "made none", for what pica_write answered. */
static const char *made(uint64_t answer) { return pica_value(answer) ? "made a difference" : "made none"; }

/*
 * What has been set makes no difference when it is set again. The list once more, into the state that it left: only port data still
 * counts, since its index moves, and what the list sets to one value and then to another. And a single write, of which the answer
 * tells: register 40 gets what it doesn't hold, and then the same.
 */
static int show_again(const struct state *read, const uint32_t *list, size_t length) {
    struct state s = *read;
    uint32_t differences;
    if (!answered("read again", pica_read(LENT(&s), list, length, &differences))) return 0;
    printf("read again: %u of the writes made a difference\n", (unsigned)differences);
    const uint32_t id = 0x40, mask = 15, value = ~s.cells[id];
    uint64_t first = pica_write(LENT(&s), id, mask, value), again = pica_write(LENT(&s), id, mask, value);
    if (!answered("write", first) || !answered("write again", again)) return 0;
    printf("write: another value to %s %s, the same again %s\n", named(pica_register_name(id)), made(first), made(again));
    return 1;
}

/*
 * The same list as a probe hands it over: in parts, cut anywhere, here of 1, 2, 4, 8 .. words. Nothing is kept of them but the
 * reader's words. The writes go to a spare state, and the live one is as it was until the close.
 */
static int show_pieces(const struct state *read, const uint32_t *list, size_t length) {
    static struct state live, spare;
    uint32_t reader[PICA_READER], differences;
    unsigned parts = 0;
    if (!answered("open", pica_open(LENT(&live), LENT(&spare), reader))) return 0;
    for (size_t at = 0, part = 1; at < length; at += part, part *= 2) {
        if (part > length - at) part = length - at;
        uint64_t come = pica_feed(LENT(&spare), reader, list + at, part);
        if (!answered("feed", come)) return 0;
        printf("%s%u", parts++ ? ", " : "pieces: words come ", (unsigned)pica_value(come));
    }
    uint64_t answer = pica_close(LENT(&live), LENT(&spare), reader, &differences);
    printf("%sthe state is %s\n", parts ? "; " : "pieces: ", memcmp(&live, read, sizeof live) == 0 ? "that of reading at once" : "another");
    if (!answered("close", answer)) return 0;
    printf("close: %u writes from %u parts, %u of the writes made a difference\n", (unsigned)pica_value(answer), parts,
           (unsigned)differences);
    return 1;
}

/* A field's number, and its name where it is a code with one. */
static int show_fields(const struct state *s) {
    static const enum pica_field shown[] = {
        PICA_FIELD_CULLING,               PICA_FIELD_VIEWPORT_WIDTH,       PICA_FIELD_VIEWPORT_XY_X,
        PICA_FIELD_DEPTHMAP_ENABLE,       PICA_FIELD_STAGE0_SOURCE_RGB0,   PICA_FIELD_STAGE0_COMBINER_RGB,
        PICA_FIELD_STAGE5_SOURCE_RGB0,    PICA_FIELD_FOG_COLOUR_RED,       PICA_FIELD_FOG_INDEX,
        PICA_FIELD_BUFFER_COLOUR_ALPHA,   PICA_FIELD_BLENDING_LOGIC_OP,    PICA_FIELD_TESTS_ALPHA_FUNCTION,
        PICA_FIELD_TESTS_ALPHA_REFERENCE, PICA_FIELD_TESTS_DEPTH_FUNCTION, PICA_FIELD_BUFFERS_DEPTH_FORMAT,
        PICA_FIELD_LIGHT_PORT_INDEX,
    };
    uint32_t fields[PICA_FIELDS_LENGTH];
    if (!answered("decode", pica_decode(LENT(s), fields))) return 0;
    for (size_t k = 0; k < sizeof shown / sizeof *shown; k++) {
        uint32_t value = fields[shown[k]];
        const char *code = pica_code_name(shown[k], value);
        /* The signed fields come in two's complement, and no unsigned one that is shown is too large for an int. */
        printf("  %s %d%s%s\n", named(pica_field_name(shown[k])), (int)(int32_t)value, code ? ", " : "", code ? code : "");
    }
    printf("  fog entry 127 %u\n", (unsigned)s->fog[127]);
    printf("  light table 0, entry 128 %u\n", (unsigned)s->light[128]);
    return 1;
}

/*
 * How short the list could be: its writes are packed into the shortest list that says them. The first packing lends no space
 * and asks for the length, which the refusal's place tells; the second has just so many words. No list has more writes than
 * words, and none that is packed more words than two a write plus two.
 */
static int show_forecast(const uint32_t *list, size_t length) {
    static uint32_t ids[MOST_LOADED], masks[MOST_LOADED], values[MOST_LOADED];
    static uint32_t space[2 * PICA_RUN_LENGTH_MOST + 2];
    uint64_t answer = pica_writes(list, length, ids, length, masks, length, values, length);
    if (!answered("writes", answer)) return 0;
    uint32_t writes = pica_value(answer);
    for (uint32_t k = 0; k < writes && k < 3; k++)
        printf("write %u: %s (%03X), mask %X, value %08X\n", (unsigned)k, named(pica_register_name(ids[k])), (unsigned)ids[k],
               (unsigned)masks[k], (unsigned)values[k]);
    answer = pica_pack(ids, writes, masks, writes, values, writes, NULL, 0);
    answer = pica_pack(ids, writes, masks, writes, values, writes, space, pica_number(answer) == PICA_NO_ROOM ? pica_value(answer) : 0);
    if (!answered("pack", answer)) return 0;
    printf("forecast: %u writes, %u words captured, %u words at the shortest\n", (unsigned)writes, (unsigned)length,
           (unsigned)pica_value(answer));
    return 1;
}

/*
 * A list's words are a multiple of 4. Here the write with mask 0 is dropped, the other takes two words, and the pair 0 0 fills the list.
 * Without the pair the list is refused; a capture that lacks its last pair is mended in the same way.
 */
static int show_filling(struct state *s) {
    static const uint32_t ids[] = {0x40, 0x41}, masks[] = {15, 0}, values[] = {1, 2};
    uint32_t list[2 * 2 + 2], differences;
    uint64_t packed = pica_pack(ids, 2, masks, 2, values, 2, list, 2 * 2 + 2);
    if (!answered("pack two writes", packed)) return 0;
    printf("filling: %u words", (unsigned)pica_value(packed));
    for (uint32_t k = 0; k < pica_value(packed); k++) printf("%s %08X", k ? "" : ",", (unsigned)list[k]);
    uint64_t alone = pica_read(LENT(s), list, 2, &differences);
    printf("; the first two alone are refused with %u: %s\n", (unsigned)pica_number(alone), named(pica_refusal_text(pica_number(alone))));
    return pica_number(alone) == PICA_ILLEGAL_LENGTH;
}

static uint32_t colour(uint32_t red, uint32_t green, uint32_t blue, uint32_t alpha) { return red | green << 8 | blue << 16 | alpha << 24; }

static int show_fragment(const struct state *s) {
    static const char *const verdicts[] = {"alpha failure", "stencil failure", "depth failure", "pass"};
    uint32_t given[PICA_GIVEN_LENGTH] = {0}, stored[PICA_STORED_LENGTH];
    given[PICA_GIVEN_PRIMARY] = colour(255, 128, 64, 255);
    given[PICA_GIVEN_TEXTURE0] = colour(200, 128, 255, 192);
    given[PICA_GIVEN_INCOMING_DEPTH] = 4000000;
    given[PICA_GIVEN_STORED_COLOUR] = colour(10, 20, 30, 40);
    given[PICA_GIVEN_STORED_STENCIL] = 5;
    given[PICA_GIVEN_STORED_DEPTH] = 16777215;
    uint64_t answer = pica_fragment(LENT(s), given, stored);
    if (!answered("fragment", answer)) return 0;
    uint32_t c = stored[PICA_STORED_COLOUR];
    printf("fragment: %s\n", verdicts[pica_value(answer)]);
    printf("  stored colour %u %u %u %u\n", (unsigned)(c & 255), (unsigned)(c >> 8 & 255), (unsigned)(c >> 16 & 255), (unsigned)(c >> 24));
    printf("  stored stencil %u\n", (unsigned)stored[PICA_STORED_STENCIL]);
    printf("  stored depth %u\n", (unsigned)stored[PICA_STORED_DEPTH]);
    return 1;
}

/* An empty run, as an empty std::vector hands it over: null with length 0. Its list is the empty one, and has no writes. */
static int show_empty(struct state *s) {
    uint32_t differences;
    uint64_t packed = pica_pack(NULL, 0, NULL, 0, NULL, 0, NULL, 0), read = pica_read(LENT(s), NULL, 0, &differences);
    uint64_t writes = pica_writes(NULL, 0, NULL, 0, NULL, 0, NULL, 0);
    if (!answered("pack an empty run", packed) || !answered("read an empty list", read)) return 0;
    if (!answered("writes of an empty list", writes)) return 0;
    printf("empty: %u words, %u writes, %u of them read, %u made a difference\n", (unsigned)pica_value(packed),
           (unsigned)pica_value(writes), (unsigned)pica_value(read), (unsigned)differences);
    return 1;
}

int main(int argc, char **argv) {
    static uint32_t list[MOST_LOADED];
    static struct state s;
    if (argc != 2) {
        fprintf(stderr, "usage: forecast FILE\n");
        return 2;
    }
    long length = load(argv[1], list);
    if (length < 0) {
        fprintf(stderr, "forecast: %s is no list of words\n", argv[1]);
        return 2;
    }
    size_t words = (size_t)length;
    int is_read = show_read(&s, list, words), is_fed = show_pieces(&s, list, words);
    if (!is_read || !is_fed) return 1;
    int is_shown = show_again(&s, list, words) && show_fields(&s) && show_forecast(list, words) && show_empty(&s) && show_filling(&s);
    return is_shown && show_fragment(&s) ? 0 : 1;
}
