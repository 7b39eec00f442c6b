/*
 * Ilgadeuk's C functions: command lists of the PICA200 read, whole or in pieces, taken apart, written, decoded and packed, and one
 * fragment's result.
 *
 * This is the header of version 0.5.0, and goes with the libpica.a of that version, which stands beside it where both come from
 * one build; CHANGELOG.md has what each version brought. The library needs nothing but the C library. Where it is installed,
 *
 *     cc replayer.c $(pkg-config --cflags --libs pica)
 *
 * compiles and links with it; without, name the folder of this header with -I, and libpica.a as an input. It is for x86-64 Linux,
 * and for processors of level x86-64-v2 or above.
 *
 * ANSWERS. Each function answers one 64-bit number. Its high 32 bits are 0 where the call was answered, else the number of the
 * refusal; its low 32 bits are the answer, or the refusal's place. pica_number() and pica_value() take it apart. A place that is
 * given no meaning below is 0.
 *
 * BUFFERS. Each buffer is a pointer to 32-bit words, with its length in words where the length is not fixed. All of them belong to
 * the caller: the library keeps nothing between calls and allocates nothing. The functions ask only that the pointers and lengths
 * are true:
 *   - a pointer is aligned for uint32_t, and its length's words are there. For a length of 0 any pointer will do, null too, as an
 *     empty std::vector may give it; the buffers whose length is fixed, differences, reader, fields, given and stored, are never
 *     null;
 *   - a buffer that a call writes to overlaps no other that it is lent.
 * Everything else is answered or refused, whatever the words are. A refused call changes no buffer; only pica_close, where it
 * refuses a list, makes the reader and the spare state ready for the next one.
 *
 * A STATE is three buffers: 768 register cells (the cell of register i is cells[i]), 128 fog entries, and 6,144 light entries
 * (entry k of table t is light[256 * t + k]). Of a cell only the bits that the register holds count, of an entry only the low 24;
 * all other bits are never read and never changed. A state of zeros is a state like any other.
 *
 * A LIST is a row of words: commands, one after another, that fill it. Its words are a multiple of 4 in number, sixteen bytes; any
 * other length is refusal 15. The empty list is a list too. A command is
 *
 *     word 0         its first parameter
 *     word 1         its header
 *     words 2 ..     its extra parameters, as many as the header says
 *     one word more  as padding, where the words so far are odd in number, so that each command starts at an even index. Any value
 *                    is accepted; pica_pack writes 0
 *
 * and its header
 *
 *     bits 0-15      the id of a register, 000h to 2FFh
 *     bits 16-19     the mask. Each bit stands for a byte of every parameter, bit 16 for the lowest; a byte whose bit is 0 is not
 *                    written. Mask 0 writes nothing
 *     bits 20-27     the number of extra parameters, 0 to 255
 *     bits 28-30     unused. Any value is accepted; pica_pack writes 0
 *     bit 31         consecutive: where it is 1 each parameter goes to the id after the one before, else all go to the same id
 *
 * So a command is one write (id, mask, value) for each of its parameters, in their order: AAAAAAAA 802F011C BBBBBBBB CCCCCCCC are
 * three, to 11C, 11D and 11E, and 1 001F0041 2 0 are two, both to 41, with a padding word. Writes with mask 0 are checked like all
 * others, but are not among a list's writes: no count has them, pica_writes doesn't give them and pica_pack drops them. So the pair
 * 0 0, parameter 0 and header 0, behind words that are even in number and no multiple of 4 fills the list and adds no write to it.
 * A word is a number and not four bytes: where a capture is a file with the lowest byte first, put its words together so
 * (samples/c/forecast.c has load()).
 *
 * A DIFFERENCE. A write makes a difference where the cell, entry or index that it touches differs afterwards:
 *   - a write to a held register, one of those that enum pica_field has fields of, where a held bit in the bytes of its mask was
 *     another before. So the same value again makes none, nor does mask 0, nor a mask of bytes in which the register holds no bit;
 *   - a write to port data, E8h-EFh or 1C8h-1CFh, always: the port's index moves, though the entry may have held that value, and
 *     though the index may name a light table that keeps nothing;
 *   - a write to any other id never: nothing is held of it.
 * pica_write answers whether its write made one. pica_read and pica_close count those of a list, each write judged on the state
 * that the ones before it left: where a register holds 1, of the writes 1, 2, 2 and 1 to it the second and the last make a
 * difference. They store the count in differences[0]. It is never more than the number of writes that they answer, and where it is
 * 0 the state is as it was. A refused call leaves differences[0] as it was.
 *
 * Calls may run at the same time as long as none of them writes a buffer that another one is lent.
 */
#ifndef PICA_H
#define PICA_H

#include <stddef.h>
#include <stdint.h>

#ifdef __cplusplus
extern "C" {
#endif

/*
 * The version of this header and of the library that is built beside it: MAJOR.MINOR.PATCH, and one number to compare, so that
 * #if PICA_VERSION >= 2000 asks for 0.2.0 or a later one.
 */
#define PICA_VERSION_MAJOR 0
#define PICA_VERSION_MINOR 5
#define PICA_VERSION_PATCH 0
#define PICA_VERSION (PICA_VERSION_MAJOR * 1000000 + PICA_VERSION_MINOR * 1000 + PICA_VERSION_PATCH)

/* The lengths that buffers must have, in words: a state's three, and those that are fixed. */
#define PICA_CELLS_LENGTH 768
#define PICA_FOG_LENGTH 128
#define PICA_LIGHT_LENGTH 6144
#define PICA_READER 12
#define PICA_FIELDS_LENGTH 204
#define PICA_GIVEN_LENGTH 11
#define PICA_STORED_LENGTH 3

/* The greatest lengths: of a list that is read, in words, and of a run that is packed, in writes. */
#define PICA_LIST_LENGTH_MOST 65536
#define PICA_RUN_LENGTH_MOST 4096

/* The refusals. Numbers 11 and 16 to 21 are not used. */
enum pica_refusal {
    PICA_LIST_TOO_LONG = 1,        /* a list over 65,536 words */
    PICA_WORDS_MISSING = 2,        /* a command needs more words than are left, a lone word included; the padding word counts */
    PICA_ID_ABOVE_2FF = 3,         /* a write to an id above 2FFh */
    PICA_JUMP_REGISTER = 4,        /* a write to 23Ch or 23Dh */
    PICA_PORT_MASK = 5,            /* a write to port data, E8h-EFh or 1C8h-1CFh, with a mask other than Fh */
    PICA_BUFFER_LENGTH = 6,        /* a state buffer of the wrong length */
    PICA_LENGTHS_DIFFER = 7,       /* ids, masks and values differ in length */
    PICA_TOO_MANY_WRITES = 8,      /* over 4,096 writes */
    PICA_MASK_ABOVE_15 = 9,        /* a mask above 15 */
    PICA_NO_ROOM = 10,             /* the space is shorter than the shortest list */
    PICA_DEPTH_ABOVE_LARGEST = 12, /* a depth above 65,535 for depth format 0, above 16,777,215 for any other */
    PICA_CODE_WITHOUT_NAME = 13,   /* a register holds a code that has no name */
    PICA_NOT_BUILT = 14,           /* E0h, 100h or 117h asks for what is not built */
    PICA_ILLEGAL_LENGTH = 15,      /* a list whose words are no multiple of 4 */
    PICA_TOO_FEW_PLACES = 22       /* the buffers have fewer places than the list has writes */
};

/* What became of a fragment. */
enum pica_verdict {
    PICA_ALPHA_FAILURE = 0,
    PICA_STENCIL_FAILURE = 1,
    PICA_DEPTH_FAILURE = 2,
    PICA_PASS = 3
};

/* The number of the refusal, 0 where the call was answered. */
static inline uint32_t pica_number(uint64_t answer) { return (uint32_t)(answer >> 32); }

/* What the call answered; where it was refused, the refusal's place. */
static inline uint32_t pica_value(uint64_t answer) { return (uint32_t)answer; }

/*
 * Reads a list of command words into a state: every write of every command, one after another.
 *
 * Answers the number of writes, those with mask 0 left out.
 * Refuses, in this order:
 *   6   at 0
 *   1   at 0
 *   15  at 0
 *   then for each command in turn, with the index of the command's first word in the list as place,
 *     2             where the command's words are not all there,
 *     3, 4 or 5     by its first write at fault, with mask 0 too.
 * cells, fog, light: changed as the writes say; on a refusal, wherever in the list it is, they are as they were.
 * list: only read.
 * differences: how many of the writes made a difference; on a refusal as it was. A plain uint32_t will do: pass its address.
 */
uint64_t pica_read(uint32_t *cells, size_t cells_length, uint32_t *fog, size_t fog_length, uint32_t *light, size_t light_length,
                   const uint32_t *list, size_t list_length, uint32_t differences[1]);

/*
 * A LIST IN PIECES is opened, fed part after part as it comes, and closed. Verdict, place, both counts and the live state are then
 * those of pica_read on the parts joined, wherever they were cut; no more of them is kept than the reader's words. The writes go to
 * a spare state, lent beside the live one, so that the live state is as it was until the close:
 *
 *     uint32_t reader[PICA_READER], differences[1];
 *     pica_open(cells, 768, fog, 128, light, 6144, spare_cells, 768, spare_fog, 128, spare_light, 6144, reader);
 *     while ((n = receive(part)) != 0)
 *         pica_feed(spare_cells, 768, spare_fog, 128, spare_light, 6144, reader, part, n);
 *     answer = pica_close(cells, 768, fog, 128, light, 6144, spare_cells, 768, spare_fog, 128, spare_light, 6144, reader,
 *                         differences);
 *
 * Nobody else is to write to either state from the opening to the close: an accepted close takes what was written to the spare for
 * the list's own, and what was written to the live state is lost. The first of the reader's words is the number of words that have
 * come. Any words may stand there, also some that no call left: each call is then still answered, or refused by 1 to 6 or 15,
 * though what the close counts may be any number.
 */

/*
 * Opens a list that arrives in pieces.
 *
 * Answers 0.
 * Refuses 6 at 0, for a buffer of either state.
 * cells, fog, light: only read.
 * spare_cells, spare_fog, spare_light: take the bits that count of the live state; all their other bits stay. On a refusal they are
 * as they were.
 * reader: zeros, whatever stood there; on a refusal as it was.
 */
uint64_t pica_open(const uint32_t *cells, size_t cells_length, const uint32_t *fog, size_t fog_length, const uint32_t *light,
                   size_t light_length, uint32_t *spare_cells, size_t spare_cells_length, uint32_t *spare_fog,
                   size_t spare_fog_length, uint32_t *spare_light, size_t spare_light_length, uint32_t reader[PICA_READER]);

/*
 * Feeds the next part of the list, of any length, 0 too.
 *
 * Answers how many words of the list have come. Past 65,536, where the close will refuse 1, it stays at 65,537.
 * Refuses 6 at 0, and counts no word: the part can be fed again. What is wrong with the list is told by the close alone.
 * spare_cells, spare_fog, spare_light: changed as the part's writes say, up to the list's first one at fault; on a refusal as they
 * were.
 * reader: goes on by the part's words; on a refusal as it was.
 * part: only read.
 */
uint64_t pica_feed(uint32_t *spare_cells, size_t spare_cells_length, uint32_t *spare_fog, size_t spare_fog_length,
                   uint32_t *spare_light, size_t spare_light_length, uint32_t reader[PICA_READER], const uint32_t *part,
                   size_t part_length);

/*
 * Closes the list.
 *
 * Answers the number of its writes, those with mask 0 left out.
 * Refuses 6 at 0, for a buffer of either state; then 1 at 0, 15 at 0, both by the words of all parts, and for each command in turn
 * 2, or 3, 4 or 5, as pica_read does, with the index in the whole list as place.
 * cells, fog, light: take the bits that count of the spare state; on a refusal as they were.
 * spare_cells, spare_fog, spare_light: as they were; on a refusal other than 6 they take the bits that count of the live state.
 * reader: zeros, as freshly opened; on refusal 6 as it was.
 * differences: how many of the list's writes made a difference; on a refusal, whichever it is, as it was.
 * So after an answer, and after a refusal other than 6, the next list can be fed at once.
 */
uint64_t pica_close(uint32_t *cells, size_t cells_length, uint32_t *fog, size_t fog_length, uint32_t *light, size_t light_length,
                    uint32_t *spare_cells, size_t spare_cells_length, uint32_t *spare_fog, size_t spare_fog_length,
                    uint32_t *spare_light, size_t spare_light_length, uint32_t reader[PICA_READER], uint32_t differences[1]);

/*
 * Applies a single write to a state. Bit 0 of the mask stands for the lowest byte of the value.
 *
 * Answers 1 where the write made a difference, else 0.
 * Refuses, in this order and each at 0: 6, 9, 3, 4, 5.
 * cells, fog, light: changed as the write says; on a refusal as they were.
 */
uint64_t pica_write(uint32_t *cells, size_t cells_length, uint32_t *fog, size_t fog_length, uint32_t *light, size_t light_length,
                    uint32_t id, uint32_t mask, uint32_t value);

/*
 * Gives the writes of a list of command words, in their order, those with mask 0 left out: write k sets the bytes masks[k] of
 * register ids[k] to those of values[k]. Up to 4,096 of them are what pica_pack takes, so that this call and that one forecast how
 * short a captured list can be; more are packed in parts.
 *
 * Answers the number of writes.
 * Refuses, in this order:
 *   7   at 0
 *   1   at 0
 *   15  at 0
 *   then for each command in turn 2, or 3, 4 or 5, as pica_read does, with mask 0 too
 *   22  with the places needed as place. So a call with NULL and 0 for all three buffers asks for the number of writes; a list
 *       without writes, the empty one or one of mask 0 throughout, is answered with 0. No list has more writes than words, so that
 *       buffers as long as the list are long enough.
 * list: only read.
 * ids, masks, values: the writes stand at their start, and past the writes they keep their contents; on a refusal they are as they
 * were.
 */
uint64_t pica_writes(const uint32_t *list, size_t list_length, uint32_t *ids, size_t ids_length, uint32_t *masks,
                     size_t masks_length, uint32_t *values, size_t values_length);

/*
 * Packs a run of writes into the shortest list that says it: write k sets the bytes masks[k] of register ids[k] to those of
 * values[k]. Writes with mask 0 are checked and then dropped; those before and after one may share a command. Among the shortest
 * rows of commands for what is left it is the one whose first command carries the most writes, then its second, and so on; where
 * its words are no multiple of 4, one pair 0 0 stands behind it. The list is never longer than two words a write plus two.
 *
 * Answers the words of the list, a multiple of 4.
 * Refuses, in this order:
 *   7   at 0
 *   8   at 0; every write given counts, with mask 0 too
 *   then for each write in turn, with its index in the run as given as place: 9, 3, 4 or 5
 *   10  with the words needed as place, the pair included. So a call with NULL and 0 for the space asks for the list's length; an
 *       empty run, or one of mask 0 throughout, has the empty list and is answered with 0.
 * ids, masks, values: only read.
 * space: the list stands at its start, and past the list it keeps its contents; on a refusal it is as it was.
 */
uint64_t pica_pack(const uint32_t *ids, size_t ids_length, const uint32_t *masks, size_t masks_length, const uint32_t *values,
                   size_t values_length, uint32_t *space, size_t space_length);

/*
 * Decodes a state into its 204 fields, in the order of enum pica_field.
 *
 * Answers 0.
 * Refuses, in this order:
 *   6   at 0
 *   13  with the lowest id of a register that holds a code without a name as place
 * cells, fog, light: only read.
 * fields: all 204 are set; on a refusal they are as they were.
 */
uint64_t pica_decode(const uint32_t *cells, size_t cells_length, const uint32_t *fog, size_t fog_length, const uint32_t *light,
                     size_t light_length, uint32_t fields[PICA_FIELDS_LENGTH]);

/*
 * Tells what one fragment leaves in the framebuffer.
 *
 * Answers the verdict, of enum pica_verdict.
 * Refuses, in this order:
 *   6   at 0
 *   13  with the lowest id of a register that holds a code without a name as place
 *   14  with the lowest id of a register that asks for what is not built as place: E0h fog mode not 0; 100h mode not 0, or bit 8,
 *       24 or 25 set; 117h not size 2 with format 0
 *   12  at 0 for the incoming depth, then at 1 for the stored one
 * cells, fog, light, given: only read. given is laid out by enum pica_given.
 * stored: by enum pica_stored what is then stored, for any verdict; on a refusal it is as it was.
 */
uint64_t pica_fragment(const uint32_t *cells, size_t cells_length, const uint32_t *fog, size_t fog_length, const uint32_t *light,
                       size_t light_length, const uint32_t given[PICA_GIVEN_LENGTH], uint32_t stored[PICA_STORED_LENGTH]);

/* What a fragment is given. A colour has red in its low byte, then green, blue and alpha. Of the stencil only the low 8 bits count. */
enum pica_given {
    PICA_GIVEN_PRIMARY = 0,
    PICA_GIVEN_FRAGMENT_PRIMARY,
    PICA_GIVEN_FRAGMENT_SECONDARY,
    PICA_GIVEN_TEXTURE0,
    PICA_GIVEN_TEXTURE1,
    PICA_GIVEN_TEXTURE2,
    PICA_GIVEN_TEXTURE3,
    PICA_GIVEN_INCOMING_DEPTH,
    PICA_GIVEN_STORED_COLOUR,
    PICA_GIVEN_STORED_STENCIL,
    PICA_GIVEN_STORED_DEPTH
};

/* What is then stored. */
enum pica_stored {
    PICA_STORED_COLOUR = 0,
    PICA_STORED_STENCIL,
    PICA_STORED_DEPTH
};

/* The fields of one stage, by its registers: source, operand, combiner, colour, scale. */
#define PICA_FIELDS_OF_STAGE_(stage)                                                                               \
    PICA_FIELD_##stage##_SOURCE_RGB0, PICA_FIELD_##stage##_SOURCE_RGB1, PICA_FIELD_##stage##_SOURCE_RGB2,          \
    PICA_FIELD_##stage##_SOURCE_ALPHA0, PICA_FIELD_##stage##_SOURCE_ALPHA1, PICA_FIELD_##stage##_SOURCE_ALPHA2,    \
    PICA_FIELD_##stage##_OPERAND_RGB0, PICA_FIELD_##stage##_OPERAND_RGB1, PICA_FIELD_##stage##_OPERAND_RGB2,       \
    PICA_FIELD_##stage##_OPERAND_ALPHA0, PICA_FIELD_##stage##_OPERAND_ALPHA1, PICA_FIELD_##stage##_OPERAND_ALPHA2, \
    PICA_FIELD_##stage##_COMBINER_RGB, PICA_FIELD_##stage##_COMBINER_ALPHA,                                        \
    PICA_FIELD_##stage##_COLOUR_RED, PICA_FIELD_##stage##_COLOUR_GREEN,                                            \
    PICA_FIELD_##stage##_COLOUR_BLUE, PICA_FIELD_##stage##_COLOUR_ALPHA,                                           \
    PICA_FIELD_##stage##_SCALE_RGB, PICA_FIELD_##stage##_SCALE_ALPHA

/*
 * The decoded fields, ids ascending and then lowest bit first. Each is the unsigned number that its bits hold; only the two of 68h
 * are signed, -512..511 in two's complement.
 */
enum pica_field {
    PICA_FIELD_CULLING = 0,     /* 40 */
    PICA_FIELD_VIEWPORT_WIDTH,  /* 41: half of it */
    PICA_FIELD_VIEWPORT_INVW,   /* 42: 2 / width */
    PICA_FIELD_VIEWPORT_HEIGHT, /* 43: half of it */
    PICA_FIELD_VIEWPORT_INVH,   /* 44: 2 / height */
    PICA_FIELD_CLIP_ENABLE,     /* 47 */
    PICA_FIELD_CLIP_DATA0,      /* 48-4B */
    PICA_FIELD_CLIP_DATA1,
    PICA_FIELD_CLIP_DATA2,
    PICA_FIELD_CLIP_DATA3,
    PICA_FIELD_DEPTHMAP_SCALE,  /* 4D */
    PICA_FIELD_DEPTHMAP_OFFSET, /* 4E */
    PICA_FIELD_SCISSOR_MODE,    /* 65 */
    PICA_FIELD_SCISSOR_POS_X,   /* 66: the first corner */
    PICA_FIELD_SCISSOR_POS_Y,
    PICA_FIELD_SCISSOR_DIM_X,   /* 67: the last corner, and no size */
    PICA_FIELD_SCISSOR_DIM_Y,
    PICA_FIELD_VIEWPORT_XY_X,   /* 68, signed */
    PICA_FIELD_VIEWPORT_XY_Y,
    PICA_FIELD_DEPTHMAP_ENABLE, /* 6D */

    PICA_FIELDS_OF_STAGE_(STAGE0), /* C0-C4 */
    PICA_FIELDS_OF_STAGE_(STAGE1), /* C8-CC */
    PICA_FIELDS_OF_STAGE_(STAGE2), /* D0-D4 */
    PICA_FIELDS_OF_STAGE_(STAGE3), /* D8-DC */

    PICA_FIELD_UPDATE_FOG_MODE, /* E0; RGB1 to ALPHA4 are the buffer inputs of stages 1 to 4 */
    PICA_FIELD_UPDATE_DENSITY_SOURCE,
    PICA_FIELD_UPDATE_RGB1,
    PICA_FIELD_UPDATE_RGB2,
    PICA_FIELD_UPDATE_RGB3,
    PICA_FIELD_UPDATE_RGB4,
    PICA_FIELD_UPDATE_ALPHA1,
    PICA_FIELD_UPDATE_ALPHA2,
    PICA_FIELD_UPDATE_ALPHA3,
    PICA_FIELD_UPDATE_ALPHA4,
    PICA_FIELD_UPDATE_Z_FLIP,
    PICA_FIELD_UPDATE_UNKNOWN,
    PICA_FIELD_FOG_COLOUR_RED,  /* E1 */
    PICA_FIELD_FOG_COLOUR_GREEN,
    PICA_FIELD_FOG_COLOUR_BLUE,
    PICA_FIELD_FOG_INDEX,       /* E6 */

    PICA_FIELDS_OF_STAGE_(STAGE4), /* F0-F4 */
    PICA_FIELDS_OF_STAGE_(STAGE5), /* F8-FC */

    PICA_FIELD_BUFFER_COLOUR_RED, /* FD */
    PICA_FIELD_BUFFER_COLOUR_GREEN,
    PICA_FIELD_BUFFER_COLOUR_BLUE,
    PICA_FIELD_BUFFER_COLOUR_ALPHA,

    PICA_FIELD_BLENDING_OPERATION_MODE, /* 100 */
    PICA_FIELD_BLENDING_OPERATION_BLEND,
    PICA_FIELD_BLENDING_OPERATION_SECOND_LINES,
    PICA_FIELD_BLENDING_OPERATION_NOTHING,
    PICA_FIELD_BLENDING_FUNCTION_RGB_EQUATION, /* 101 */
    PICA_FIELD_BLENDING_FUNCTION_ALPHA_EQUATION,
    PICA_FIELD_BLENDING_FUNCTION_RGB_SOURCE,
    PICA_FIELD_BLENDING_FUNCTION_RGB_DESTINATION,
    PICA_FIELD_BLENDING_FUNCTION_ALPHA_SOURCE,
    PICA_FIELD_BLENDING_FUNCTION_ALPHA_DESTINATION,
    PICA_FIELD_BLENDING_LOGIC_OP,  /* 102 */
    PICA_FIELD_BLENDING_COLOUR_RED, /* 103 */
    PICA_FIELD_BLENDING_COLOUR_GREEN,
    PICA_FIELD_BLENDING_COLOUR_BLUE,
    PICA_FIELD_BLENDING_COLOUR_ALPHA,

    PICA_FIELD_TESTS_ALPHA_ENABLE, /* 104 */
    PICA_FIELD_TESTS_ALPHA_FUNCTION,
    PICA_FIELD_TESTS_ALPHA_REFERENCE,
    PICA_FIELD_TESTS_STENCIL_ENABLE, /* 105 */
    PICA_FIELD_TESTS_STENCIL_FUNCTION,
    PICA_FIELD_TESTS_STENCIL_BUFFER_MASK,
    PICA_FIELD_TESTS_STENCIL_REFERENCE,
    PICA_FIELD_TESTS_STENCIL_MASK,
    PICA_FIELD_TESTS_STENCIL_OP_FAIL, /* 106 */
    PICA_FIELD_TESTS_STENCIL_OP_Z_FAIL,
    PICA_FIELD_TESTS_STENCIL_OP_Z_PASS,
    PICA_FIELD_TESTS_DEPTH_ENABLE, /* 107: the depth test, and what is written */
    PICA_FIELD_TESTS_DEPTH_FUNCTION,
    PICA_FIELD_TESTS_DEPTH_RED,
    PICA_FIELD_TESTS_DEPTH_GREEN,
    PICA_FIELD_TESTS_DEPTH_BLUE,
    PICA_FIELD_TESTS_DEPTH_ALPHA,
    PICA_FIELD_TESTS_DEPTH_DEPTH,

    PICA_FIELD_BUFFERS_COLOUR_READING, /* 112 */
    PICA_FIELD_BUFFERS_COLOUR_WRITING, /* 113 */
    PICA_FIELD_BUFFERS_DEPTH_READING_STENCIL, /* 114 */
    PICA_FIELD_BUFFERS_DEPTH_READING_DEPTH,
    PICA_FIELD_BUFFERS_DEPTH_WRITING_STENCIL, /* 115 */
    PICA_FIELD_BUFFERS_DEPTH_WRITING_DEPTH,
    PICA_FIELD_BUFFERS_DEPTH_FORMAT, /* 116 */
    PICA_FIELD_BUFFERS_COLOUR_FORMAT_SIZE, /* 117 */
    PICA_FIELD_BUFFERS_COLOUR_FORMAT_FORMAT,

    PICA_FIELD_LIGHT_PORT_INDEX, /* 1C5 */
    PICA_FIELD_LIGHT_PORT_TABLE,

    PICA_FIELD_COUNT /* how many there are, which is PICA_FIELDS_LENGTH */
};

#ifdef __cplusplus
}
#endif

#endif
