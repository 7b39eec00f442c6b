//! Planted faults of a state: its registers and ports, what is decoded of it, and
//! a fragment.

super::faults! {
    model:
    // Held registers
    21 BYTE_MASK_REVERSED "byte mask reversed";
    22 HELD_E0_NARROW "E0 without bit 3";
    23 HELD_117_WIDE "117 with bit 2";
    24 HELD_OPERAND_NARROW "operands hold 002's narrower range";
    25 HELD_1C5_WIDE "1C5 with bit 13";
    26 UNHELD_CLEARED "unheld bits of a written byte cleared";
    27 UNHELD_ID_STORED "write to an id that isn't held stored in its cell";

    // Ports
    28 FOG_INDEX_8_BITS "fog index steps as 8 bits";
    29 FOG_INDEX_OTHERS "other bits of the fog index cell cleared";
    30 FOG_INDEX_STOPS "fog index stops at 127";
    31 LIGHT_CARRY "light index carries into the table number";
    32 LIGHT_INDEX_OTHERS "other bits of the light index cell cleared";
    33 UNNAMED_WRITTEN "tables 2 and 7 written";
    34 UNNAMED_NOT_STEPPED "index not stepped for an unnamed table";
    35 LIGHT_TABLE_4_BITS "table number as 4 bits";
    36 ENTRY_HIGH_BYTE "high byte of an entry overwritten";
    37 DATA_CELL "port data kept in its own cell too";
    38 FOG_LAST_EE "EF isn't fog data";
    39 LIGHT_LAST_1D0 "1D0 is light data";
    121 LIGHT_ENTRY_ORDER "light entries of all tables interleaved";
    122 FOG_INDEX_FIRST "fog index steps before the entry is written";

    // One write alone
    40 ALONE_ORDER_3_9 "single write: 3 before 9";
    41 ALONE_ID_16_BITS "single write: id as 16 bits";
    42 ALONE_MASK_4_BITS "single write: mask as 4 bits";

    // Whether a write made a difference
    188 DIFFERENCE_EQUAL_BITS "difference: told for equal bits";
    189 DIFFERENCE_EVERY_BYTE "difference: told only where every byte of the mask differs";
    190 DIFFERENCE_LOWEST_BYTE "difference: only the mask's lowest byte compared";
    191 DIFFERENCE_OTHER_BYTES "difference: bytes outside the mask compared too";
    192 DIFFERENCE_UNHELD_BITS "difference: bits beside the held ones compared too";
    193 DIFFERENCE_UNHELD_ID "difference: told for an id that isn't held";
    194 DIFFERENCE_MASK_0 "difference: told for mask 0";
    195 DIFFERENCE_INDEX "difference: told for every write to a port's index";
    196 DIFFERENCE_ENTRY_ONLY "difference: port data only where its entry changes";
    197 DIFFERENCE_UNNAMED "difference: none for an unnamed table's data";
    198 ALONE_NO_DIFFERENCE "single write: 0 whether it made a difference or not";

    // Decoded state
    43 VIEWPORT_UNSIGNED "68 not sign extended";
    44 SCISSOR_SIGNED "66 sign extended";
    45 REFERENCE_SIGNED "105's reference sign extended";
    46 UNHELD_READ "unheld bits of 1C5 read";
    47 FIELDS_STAGES_TOGETHER "fields of E0 after those of the stages";
    48 FIELDS_BEFORE_REFUSAL "fields filled before a refusal";
    49 DECODE_LIGHT_LENGTH "decode doesn't test the light buffer's length";

    // Codes without a name
    50 SOURCE_C_NAMED "source Ch has a name";
    51 ALPHA_SOURCE_UNTESTED "alpha sources not tested";
    52 OPERAND_6_NAMED "operand 6 has a name";
    53 ALPHA_6_NAMED "alpha mode 6 allowed without RGB mode 7";
    54 ALPHA_A_EXCUSED "alpha mode above 9 excused by RGB mode 7";
    55 ALPHA_SCALE_UNTESTED "alpha scale 3 allowed";
    56 FOG_5_NAMELESS "fog mode 5 refused by 13";
    57 BLEND_RGB_ONLY "blend function F refused for RGB only";
    58 FORMAT_5_NAMED "colour format 5 has a name";
    59 SIZE_1_NAMED "colour size 1 has a name";
    60 LOWEST_STAGES_FIRST "place: stages 4 and 5 before E0";
    61 SCISSOR_2_NAMELESS "scissor mode 2 refused by 13";

    // Combiner
    62 MODULATE_ROUNDS "modulate rounds to nearest";
    63 ADD_SIGNED_127 "add signed takes 127 away";
    64 ADD_SIGNED_WRAPS "add signed not held to 0";
    65 INTERPOLATE_SIDES "interpolate with sides reversed";
    66 INTERPOLATE_ROUNDS "interpolate divides each product";
    67 SUBTRACT_ABSOLUTE "subtract gives the distance";
    68 ADD_MULTIPLY_SUM "add then multiply doesn't hold the sum to 255";
    69 MULTIPLY_ADD_CUT "multiply then add cut to a byte";
    70 DOT3_ABSOLUTE "negative dot3 not held to 0";
    71 DOT3_ALPHA_UNSCALED "dot3 RGBA's alpha not scaled";
    72 DOT3_ALPHA_RGB_SCALE "dot3 RGBA's alpha scaled as RGB first";
    73 DOT3_RGB_ALPHA "dot3 RGB writes alpha too";
    74 SCALE_WRAPS "scaled result cut to a byte";
    75 SCALE_SHARED "alpha scaled by the RGB scale";
    76 STAGE_0_PREVIOUS "stage 0 sees FD as Previous";
    77 STAGE_1_BUFFER "stage 1's buffer follows E0";
    78 BUFFER_BIT "buffer bit of the next stage";
    79 BUFFER_ALPHA_BIT "buffer alpha follows the RGB bit";
    80 BUFFER_RESULT "buffer takes stage k's result";
    81 ONE_MINUS_BLUE "one minus blue forgotten";
    124 SOURCES_SWAPPED "Previous and Previous buffer swapped";
    125 ALPHA_OPERANDS_SWAPPED "alpha operands green and blue swapped";
    126 SOURCE_ALPHA_RGB "RGB operand 2 reads the channel";
    127 CONSTANT_STAGE_0 "every stage's constant is stage 0's";
    276 DIVIDED_BY_256 "division by 256 for 255";
    277 DIVIDED_WITHOUT_1 "division by 255 one less at its multiples";
    278 DIVIDED_WITH_2 "division by 255 one more below its multiples";

    // Fragment
    82 ALPHA_SIDES "alpha test's sides reversed";
    83 STENCIL_SIDES "stencil test's sides reversed";
    84 STENCIL_MASK_ONE_SIDE "stencil mask on the reference only";
    85 STENCIL_ANY_FORMAT "stencil without looking at the format";
    86 BUFFER_MASK_IGNORED "buffer mask ignored";
    87 ALLOW_STENCIL_IGNORED "115 bit 0 ignored";
    88 INCREMENT_WRAPS "operation 3 wraps";
    89 REPLACE_MASKED "replace by the masked reference";
    90 DEPTH_FAIL_OPERATION "depth failure uses the stencil failure's operation";
    91 DEPTH_UNTESTED "depth written without its test enabled";
    92 ALLOW_DEPTH_IGNORED "115 bit 1 ignored";
    93 LOGIC_SWAPPED "logic operations 2 and Dh swapped";
    94 LOGIC_OR_SWAPPED "logic operations Eh and Fh swapped";
    95 WRITING_ONLY_F "colour only where 113 is Fh";
    96 READING_READ "112 is read";
    97 ALPHA_FAILURE_STENCIL "alpha failure changes the stencil";
    98 STENCIL_HIGH_BITS "stencil's high bits passed through";
    99 DEPTH_ORDER "refusal 12 tests the stored depth first";
    100 DEPTH_0_LARGEST "format 0's largest depth as the others'";
    101 DEPTH_ONLY_TESTED "refusal 12 only with the depth test enabled";
    102 ORDER_14_13 "refusal 14 before 13";
    103 BIT_25_BUILT "100 bit 25 not refused";
    104 FORMAT_BUILT "117 format not refused";
    105 COMPARE_SWAPPED "compare codes 5 and 7 swapped";
    128 DECREMENT_WRAPS "operation 4 wraps";
    129 DECREMENT_7_STOPS "operation 7 stops at 0";
    130 DEPTH_WRITTEN_ON_FAILURE "depth written on failure too";
    131 COLOUR_MASK_IGNORED "107 bits 8-11 ignored";
    132 ORDER_12_14 "refusal 12 before 14";
    133 UNBUILT_PLACE "refusal 14's place is the highest id";
    135 STENCIL_REFERENCE_SIGNED "stencil reference compared as signed";
}
