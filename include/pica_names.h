/*
 * Names as text for what include/pica.h has as numbers: fields, their codes, registers and refusals.
 *
 * Made by names/make from the tables in names/: change those, and not this file.
 *
 * Every function answers any number: with a string of ASCII that lives as long as the program, or with NULL where there is no name.
 * Nothing is allocated. The functions are static and need no library beside the header.
 *
 *     uint64_t answer = pica_pack(ids, n, masks, n, values, n, space, length);
 *     if (pica_number(answer)) fprintf(stderr, "refused: %s\n", pica_refusal_text(pica_number(answer)));
 */
#ifndef PICA_NAMES_H
#define PICA_NAMES_H

#include "pica.h"

/* The names are those of this many fields: with another pica.h nothing compiles. */
typedef char pica_names_of_every_field[PICA_FIELD_COUNT == 204 ? 1 : -1];

/* The name of a field of enum pica_field, in lower case: "culling" for PICA_FIELD_CULLING. */
static inline const char *pica_field_name(uint32_t field) {
    static const char *const names[204] = {
        "culling", "viewport_width", "viewport_invw", "viewport_height", "viewport_invh", "clip_enable", "clip_data0", "clip_data1",
        "clip_data2", "clip_data3", "depthmap_scale", "depthmap_offset", "scissor_mode", "scissor_pos_x", "scissor_pos_y",
        "scissor_dim_x", "scissor_dim_y", "viewport_xy_x", "viewport_xy_y", "depthmap_enable", "stage0_source_rgb0",
        "stage0_source_rgb1", "stage0_source_rgb2", "stage0_source_alpha0", "stage0_source_alpha1", "stage0_source_alpha2",
        "stage0_operand_rgb0", "stage0_operand_rgb1", "stage0_operand_rgb2", "stage0_operand_alpha0", "stage0_operand_alpha1",
        "stage0_operand_alpha2", "stage0_combiner_rgb", "stage0_combiner_alpha", "stage0_colour_red", "stage0_colour_green",
        "stage0_colour_blue", "stage0_colour_alpha", "stage0_scale_rgb", "stage0_scale_alpha", "stage1_source_rgb0",
        "stage1_source_rgb1", "stage1_source_rgb2", "stage1_source_alpha0", "stage1_source_alpha1", "stage1_source_alpha2",
        "stage1_operand_rgb0", "stage1_operand_rgb1", "stage1_operand_rgb2", "stage1_operand_alpha0", "stage1_operand_alpha1",
        "stage1_operand_alpha2", "stage1_combiner_rgb", "stage1_combiner_alpha", "stage1_colour_red", "stage1_colour_green",
        "stage1_colour_blue", "stage1_colour_alpha", "stage1_scale_rgb", "stage1_scale_alpha", "stage2_source_rgb0",
        "stage2_source_rgb1", "stage2_source_rgb2", "stage2_source_alpha0", "stage2_source_alpha1", "stage2_source_alpha2",
        "stage2_operand_rgb0", "stage2_operand_rgb1", "stage2_operand_rgb2", "stage2_operand_alpha0", "stage2_operand_alpha1",
        "stage2_operand_alpha2", "stage2_combiner_rgb", "stage2_combiner_alpha", "stage2_colour_red", "stage2_colour_green",
        "stage2_colour_blue", "stage2_colour_alpha", "stage2_scale_rgb", "stage2_scale_alpha", "stage3_source_rgb0",
        "stage3_source_rgb1", "stage3_source_rgb2", "stage3_source_alpha0", "stage3_source_alpha1", "stage3_source_alpha2",
        "stage3_operand_rgb0", "stage3_operand_rgb1", "stage3_operand_rgb2", "stage3_operand_alpha0", "stage3_operand_alpha1",
        "stage3_operand_alpha2", "stage3_combiner_rgb", "stage3_combiner_alpha", "stage3_colour_red", "stage3_colour_green",
        "stage3_colour_blue", "stage3_colour_alpha", "stage3_scale_rgb", "stage3_scale_alpha", "update_fog_mode",
        "update_density_source", "update_rgb1", "update_rgb2", "update_rgb3", "update_rgb4", "update_alpha1", "update_alpha2",
        "update_alpha3", "update_alpha4", "update_z_flip", "update_unknown", "fog_colour_red", "fog_colour_green",
        "fog_colour_blue", "fog_index", "stage4_source_rgb0", "stage4_source_rgb1", "stage4_source_rgb2", "stage4_source_alpha0",
        "stage4_source_alpha1", "stage4_source_alpha2", "stage4_operand_rgb0", "stage4_operand_rgb1", "stage4_operand_rgb2",
        "stage4_operand_alpha0", "stage4_operand_alpha1", "stage4_operand_alpha2", "stage4_combiner_rgb", "stage4_combiner_alpha",
        "stage4_colour_red", "stage4_colour_green", "stage4_colour_blue", "stage4_colour_alpha", "stage4_scale_rgb",
        "stage4_scale_alpha", "stage5_source_rgb0", "stage5_source_rgb1", "stage5_source_rgb2", "stage5_source_alpha0",
        "stage5_source_alpha1", "stage5_source_alpha2", "stage5_operand_rgb0", "stage5_operand_rgb1", "stage5_operand_rgb2",
        "stage5_operand_alpha0", "stage5_operand_alpha1", "stage5_operand_alpha2", "stage5_combiner_rgb", "stage5_combiner_alpha",
        "stage5_colour_red", "stage5_colour_green", "stage5_colour_blue", "stage5_colour_alpha", "stage5_scale_rgb",
        "stage5_scale_alpha", "buffer_colour_red", "buffer_colour_green", "buffer_colour_blue", "buffer_colour_alpha",
        "blending_operation_mode", "blending_operation_blend", "blending_operation_second_lines", "blending_operation_nothing",
        "blending_function_rgb_equation", "blending_function_alpha_equation", "blending_function_rgb_source",
        "blending_function_rgb_destination", "blending_function_alpha_source", "blending_function_alpha_destination",
        "blending_logic_op", "blending_colour_red", "blending_colour_green", "blending_colour_blue", "blending_colour_alpha",
        "tests_alpha_enable", "tests_alpha_function", "tests_alpha_reference", "tests_stencil_enable", "tests_stencil_function",
        "tests_stencil_buffer_mask", "tests_stencil_reference", "tests_stencil_mask", "tests_stencil_op_fail",
        "tests_stencil_op_z_fail", "tests_stencil_op_z_pass", "tests_depth_enable", "tests_depth_function", "tests_depth_red",
        "tests_depth_green", "tests_depth_blue", "tests_depth_alpha", "tests_depth_depth", "buffers_colour_reading",
        "buffers_colour_writing", "buffers_depth_reading_stencil", "buffers_depth_reading_depth", "buffers_depth_writing_stencil",
        "buffers_depth_writing_depth", "buffers_depth_format", "buffers_colour_format_size", "buffers_colour_format_format",
        "light_port_index", "light_port_table",
    };
    return field < 204 ? names[field] : NULL;
}

/* The id of the register that a field is in, UINT32_MAX where there is no such field. */
static inline uint32_t pica_field_register(uint32_t field) {
    static const uint16_t ids[204] = {
        0x040, 0x041, 0x042, 0x043, 0x044, 0x047, 0x048, 0x049, 0x04A, 0x04B, 0x04D, 0x04E, 0x065, 0x066, 0x066, 0x067, 0x067,
        0x068, 0x068, 0x06D, 0x0C0, 0x0C0, 0x0C0, 0x0C0, 0x0C0, 0x0C0, 0x0C1, 0x0C1, 0x0C1, 0x0C1, 0x0C1, 0x0C1, 0x0C2, 0x0C2,
        0x0C3, 0x0C3, 0x0C3, 0x0C3, 0x0C4, 0x0C4, 0x0C8, 0x0C8, 0x0C8, 0x0C8, 0x0C8, 0x0C8, 0x0C9, 0x0C9, 0x0C9, 0x0C9, 0x0C9,
        0x0C9, 0x0CA, 0x0CA, 0x0CB, 0x0CB, 0x0CB, 0x0CB, 0x0CC, 0x0CC, 0x0D0, 0x0D0, 0x0D0, 0x0D0, 0x0D0, 0x0D0, 0x0D1, 0x0D1,
        0x0D1, 0x0D1, 0x0D1, 0x0D1, 0x0D2, 0x0D2, 0x0D3, 0x0D3, 0x0D3, 0x0D3, 0x0D4, 0x0D4, 0x0D8, 0x0D8, 0x0D8, 0x0D8, 0x0D8,
        0x0D8, 0x0D9, 0x0D9, 0x0D9, 0x0D9, 0x0D9, 0x0D9, 0x0DA, 0x0DA, 0x0DB, 0x0DB, 0x0DB, 0x0DB, 0x0DC, 0x0DC, 0x0E0, 0x0E0,
        0x0E0, 0x0E0, 0x0E0, 0x0E0, 0x0E0, 0x0E0, 0x0E0, 0x0E0, 0x0E0, 0x0E0, 0x0E1, 0x0E1, 0x0E1, 0x0E6, 0x0F0, 0x0F0, 0x0F0,
        0x0F0, 0x0F0, 0x0F0, 0x0F1, 0x0F1, 0x0F1, 0x0F1, 0x0F1, 0x0F1, 0x0F2, 0x0F2, 0x0F3, 0x0F3, 0x0F3, 0x0F3, 0x0F4, 0x0F4,
        0x0F8, 0x0F8, 0x0F8, 0x0F8, 0x0F8, 0x0F8, 0x0F9, 0x0F9, 0x0F9, 0x0F9, 0x0F9, 0x0F9, 0x0FA, 0x0FA, 0x0FB, 0x0FB, 0x0FB,
        0x0FB, 0x0FC, 0x0FC, 0x0FD, 0x0FD, 0x0FD, 0x0FD, 0x100, 0x100, 0x100, 0x100, 0x101, 0x101, 0x101, 0x101, 0x101, 0x101,
        0x102, 0x103, 0x103, 0x103, 0x103, 0x104, 0x104, 0x104, 0x105, 0x105, 0x105, 0x105, 0x105, 0x106, 0x106, 0x106, 0x107,
        0x107, 0x107, 0x107, 0x107, 0x107, 0x107, 0x112, 0x113, 0x114, 0x114, 0x115, 0x115, 0x116, 0x117, 0x117, 0x1C5, 0x1C5,
    };
    return field < 204 ? ids[field] : UINT32_MAX;
}

/*
 * The name of a field's code: "Texture 0" for PICA_FIELD_STAGE0_SOURCE_RGB0 and 3. NULL for a field that holds no codes, and for a
 * code without a name.
 */
static inline const char *pica_code_name(uint32_t field, uint32_t value) {
    /* the codes of each table from 0 up; table 0 is for fields that hold none */
    static const char *const names[27][24] = {
        {0}, /* no codes */
        { /* culling */
            "Show Front+Back", "Show Back", "Show Front", "Same as 0",
        },
        { /* enable */
            "Disable", "Enable",
        },
        { /* scissor */
            "Disable", "Render Outside", "Same as 0", "Render Inside",
        },
        { /* source */
            "Primary colour", "Fragment primary colour", "Fragment secondary colour", "Texture 0", "Texture 1", "Texture 2",
            "Texture 3", 0, 0, 0, 0, 0, 0, "Previous buffer", "Constant", "Previous",
        },
        { /* rgb-operand */
            "Source colour", "One minus source colour", "Source alpha", "One minus source alpha", "Source red",
            "One minus source red", 0, 0, "Source green", "One minus source green", 0, 0, "Source blue", "One minus source blue",
        },
        { /* alpha-operand */
            "Source alpha", "One minus source alpha", "Source red", "One minus source red", "Source green",
            "One minus source green", "Source blue", "One minus source blue",
        },
        { /* combine-mode */
            "Replace", "Modulate", "Add", "Add signed", "Interpolate", "Subtract", "Dot3 RGB", "Dot3 RGBA", "Multiply then add",
            "Add then multiply",
        },
        { /* scale */
            "1x", "2x", "4x",
        },
        { /* fog-mode */
            "Disabled", 0, 0, 0, 0, "Fog", 0, "Gas",
        },
        { /* density-source */
            "Plain density", "Depth density",
        },
        { /* buffer-input */
            "Previous buffer", "Previous",
        },
        { /* flip */
            "Don't flip", "Flip",
        },
        { /* fragment-mode */
            "Default", "Gas", 0, "Shadow",
        },
        { /* blend-mode */
            "Logic op", "Blend",
        },
        { /* lines */
            "All lines", "Only each 2nd line",
        },
        { /* render */
            "Render", "Nothing",
        },
        { /* equation */
            "Add", "Subtract", "Reverse subtract", "Minimum", "Maximum", "Add", "Add", "Add",
        },
        { /* blend-function */
            "Zero", "One", "Source colour", "One minus source colour", "Destination colour", "One minus destination colour",
            "Source alpha", "One minus source alpha", "Destination alpha", "One minus destination alpha", "Constant colour",
            "One minus constant colour", "Constant alpha", "One minus constant alpha", "Source alpha saturate",
        },
        { /* logic-op */
            "Clear", "AND", "Reverse AND", "Copy", "Set", "Inverted copy", "Noop", "Invert", "NAND", "OR", "NOR", "XOR",
            "Equivalent", "Inverted AND", "Reverse OR", "Inverted OR",
        },
        { /* test */
            "Never", "Always", "Equal", "Not equal", "Less than", "Less than or equal", "Greater than", "Greater than or equal",
        },
        { /* stencil-op */
            "Keep", "Zero", "Replace", "Increment", "Decrement", "Invert", "Increment and wrap", "Decrement and wrap",
        },
        { /* allow */
            "Disable", "Same as F?", "Same as F?", "Same as F?", "Same as F?", "Same as F?", "Same as F?", "Same as F?",
            "Same as F?", "Same as F?", "Same as F?", "Same as F?", "Same as F?", "Same as F?", "Same as F?", "Enable",
        },
        { /* depth-format */
            "16-bit depth", 0, "24-bit depth", "24-bit depth + 8-bit stencil",
        },
        { /* pixel-size */
            "16-bit colour", 0, "32-bit colour",
        },
        { /* colour-format */
            "RGBA8/Gas", 0, "RGB5A1", "RGB565", "RGBA4",
        },
        { /* light-table */
            "D0", "D1", 0, "FR", "RB", "RG", "RR", 0, "SP0", "SP1", "SP2", "SP3", "SP4", "SP5", "SP6", "SP7", "DA0", "DA1", "DA2",
            "DA3", "DA4", "DA5", "DA6", "DA7",
        },
    };
    static const uint8_t tables[204] = {
        1, 0, 0, 0, 0, 2, 0, 0, 0, 0, 0, 0, 3, 0, 0, 0, 0, 0, 0, 2, 4, 4, 4, 4, 4, 4, 5, 5, 5, 6, 6, 6, 7, 7, 0, 0, 0, 0, 8, 8, 4,
        4, 4, 4, 4, 4, 5, 5, 5, 6, 6, 6, 7, 7, 0, 0, 0, 0, 8, 8, 4, 4, 4, 4, 4, 4, 5, 5, 5, 6, 6, 6, 7, 7, 0, 0, 0, 0, 8, 8, 4, 4,
        4, 4, 4, 4, 5, 5, 5, 6, 6, 6, 7, 7, 0, 0, 0, 0, 8, 8, 9, 10, 11, 11, 11, 11, 11, 11, 11, 11, 12, 0, 0, 0, 0, 0, 4, 4, 4, 4,
        4, 4, 5, 5, 5, 6, 6, 6, 7, 7, 0, 0, 0, 0, 8, 8, 4, 4, 4, 4, 4, 4, 5, 5, 5, 6, 6, 6, 7, 7, 0, 0, 0, 0, 8, 8, 0, 0, 0, 0, 13,
        14, 15, 16, 17, 17, 18, 18, 18, 18, 19, 0, 0, 0, 0, 2, 20, 0, 2, 20, 0, 0, 0, 21, 21, 21, 2, 20, 2, 2, 2, 2, 2, 22, 22, 2,
        2, 2, 2, 23, 24, 25, 0, 26,
    };
    return field < 204 && value < 24 ? names[tables[field]][value] : NULL;
}

/* The name of a register: "GPUREG_FACECULLING_CONFIG" for 40h. Every id up to 2FFh has one. */
static inline const char *pica_register_name(uint32_t id) {
    static const char *const names[768] = {
        "GPUREG_0000", "GPUREG_0001", "GPUREG_0002", "GPUREG_0003", "GPUREG_0004", "GPUREG_0005", "GPUREG_0006", "GPUREG_0007",
        "GPUREG_0008", "GPUREG_0009", "GPUREG_000A", "GPUREG_000B", "GPUREG_000C", "GPUREG_000D", "GPUREG_000E", "GPUREG_000F",
        "GPUREG_FINALIZE", "GPUREG_0011", "GPUREG_0012", "GPUREG_0013", "GPUREG_0014", "GPUREG_0015", "GPUREG_0016", "GPUREG_0017",
        "GPUREG_0018", "GPUREG_0019", "GPUREG_001A", "GPUREG_001B", "GPUREG_001C", "GPUREG_001D", "GPUREG_001E", "GPUREG_001F",
        "GPUREG_0020", "GPUREG_0021", "GPUREG_0022", "GPUREG_0023", "GPUREG_0024", "GPUREG_0025", "GPUREG_0026", "GPUREG_0027",
        "GPUREG_0028", "GPUREG_0029", "GPUREG_002A", "GPUREG_002B", "GPUREG_002C", "GPUREG_002D", "GPUREG_002E", "GPUREG_002F",
        "GPUREG_0030", "GPUREG_0031", "GPUREG_0032", "GPUREG_0033", "GPUREG_0034", "GPUREG_0035", "GPUREG_0036", "GPUREG_0037",
        "GPUREG_0038", "GPUREG_0039", "GPUREG_003A", "GPUREG_003B", "GPUREG_003C", "GPUREG_003D", "GPUREG_003E", "GPUREG_003F",
        "GPUREG_FACECULLING_CONFIG", "GPUREG_VIEWPORT_WIDTH", "GPUREG_VIEWPORT_INVW", "GPUREG_VIEWPORT_HEIGHT",
        "GPUREG_VIEWPORT_INVH", "GPUREG_0045", "GPUREG_0046", "GPUREG_FRAGOP_CLIP", "GPUREG_FRAGOP_CLIP_DATA0",
        "GPUREG_FRAGOP_CLIP_DATA1", "GPUREG_FRAGOP_CLIP_DATA2", "GPUREG_FRAGOP_CLIP_DATA3", "GPUREG_004C", "GPUREG_DEPTHMAP_SCALE",
        "GPUREG_DEPTHMAP_OFFSET", "GPUREG_SH_OUTMAP_TOTAL", "GPUREG_SH_OUTMAP_O0", "GPUREG_SH_OUTMAP_O1", "GPUREG_SH_OUTMAP_O2",
        "GPUREG_SH_OUTMAP_O3", "GPUREG_SH_OUTMAP_O4", "GPUREG_SH_OUTMAP_O5", "GPUREG_SH_OUTMAP_O6", "GPUREG_0057", "GPUREG_0058",
        "GPUREG_0059", "GPUREG_005A", "GPUREG_005B", "GPUREG_005C", "GPUREG_005D", "GPUREG_005E", "GPUREG_005F", "GPUREG_0060",
        "GPUREG_EARLYDEPTH_FUNC", "GPUREG_EARLYDEPTH_TEST1", "GPUREG_EARLYDEPTH_CLEAR", "GPUREG_SH_OUTATTR_MODE",
        "GPUREG_SCISSORTEST_MODE", "GPUREG_SCISSORTEST_POS", "GPUREG_SCISSORTEST_DIM", "GPUREG_VIEWPORT_XY", "GPUREG_0069",
        "GPUREG_EARLYDEPTH_DATA", "GPUREG_006B", "GPUREG_006C", "GPUREG_DEPTHMAP_ENABLE", "GPUREG_RENDERBUF_DIM",
        "GPUREG_SH_OUTATTR_CLOCK", "GPUREG_0070", "GPUREG_0071", "GPUREG_0072", "GPUREG_0073", "GPUREG_0074", "GPUREG_0075",
        "GPUREG_0076", "GPUREG_0077", "GPUREG_0078", "GPUREG_0079", "GPUREG_007A", "GPUREG_007B", "GPUREG_007C", "GPUREG_007D",
        "GPUREG_007E", "GPUREG_007F", "GPUREG_TEXUNIT_CONFIG", "GPUREG_TEXUNIT0_BORDER_COLOR", "GPUREG_TEXUNIT0_DIM",
        "GPUREG_TEXUNIT0_PARAM", "GPUREG_TEXUNIT0_LOD", "GPUREG_TEXUNIT0_ADDR1", "GPUREG_TEXUNIT0_ADDR2", "GPUREG_TEXUNIT0_ADDR3",
        "GPUREG_TEXUNIT0_ADDR4", "GPUREG_TEXUNIT0_ADDR5", "GPUREG_TEXUNIT0_ADDR6", "GPUREG_TEXUNIT0_SHADOW", "GPUREG_008C",
        "GPUREG_008D", "GPUREG_TEXUNIT0_TYPE", "GPUREG_LIGHTING_ENABLE0", "GPUREG_0090", "GPUREG_TEXUNIT1_BORDER_COLOR",
        "GPUREG_TEXUNIT1_DIM", "GPUREG_TEXUNIT1_PARAM", "GPUREG_TEXUNIT1_LOD", "GPUREG_TEXUNIT1_ADDR", "GPUREG_TEXUNIT1_TYPE",
        "GPUREG_0097", "GPUREG_0098", "GPUREG_TEXUNIT2_BORDER_COLOR", "GPUREG_TEXUNIT2_DIM", "GPUREG_TEXUNIT2_PARAM",
        "GPUREG_TEXUNIT2_LOD", "GPUREG_TEXUNIT2_ADDR", "GPUREG_TEXUNIT2_TYPE", "GPUREG_009F", "GPUREG_00A0", "GPUREG_00A1",
        "GPUREG_00A2", "GPUREG_00A3", "GPUREG_00A4", "GPUREG_00A5", "GPUREG_00A6", "GPUREG_00A7", "GPUREG_TEXUNIT3_PROCTEX0",
        "GPUREG_TEXUNIT3_PROCTEX1", "GPUREG_TEXUNIT3_PROCTEX2", "GPUREG_TEXUNIT3_PROCTEX3", "GPUREG_TEXUNIT3_PROCTEX4",
        "GPUREG_TEXUNIT3_PROCTEX5", "GPUREG_00AE", "GPUREG_PROCTEX_LUT", "GPUREG_PROCTEX_LUT_DATA0", "GPUREG_PROCTEX_LUT_DATA1",
        "GPUREG_PROCTEX_LUT_DATA2", "GPUREG_PROCTEX_LUT_DATA3", "GPUREG_PROCTEX_LUT_DATA4", "GPUREG_PROCTEX_LUT_DATA5",
        "GPUREG_PROCTEX_LUT_DATA6", "GPUREG_PROCTEX_LUT_DATA7", "GPUREG_00B8", "GPUREG_00B9", "GPUREG_00BA", "GPUREG_00BB",
        "GPUREG_00BC", "GPUREG_00BD", "GPUREG_00BE", "GPUREG_00BF", "GPUREG_TEXENV0_SOURCE", "GPUREG_TEXENV0_OPERAND",
        "GPUREG_TEXENV0_COMBINER", "GPUREG_TEXENV0_COLOR", "GPUREG_TEXENV0_SCALE", "GPUREG_00C5", "GPUREG_00C6", "GPUREG_00C7",
        "GPUREG_TEXENV1_SOURCE", "GPUREG_TEXENV1_OPERAND", "GPUREG_TEXENV1_COMBINER", "GPUREG_TEXENV1_COLOR",
        "GPUREG_TEXENV1_SCALE", "GPUREG_00CD", "GPUREG_00CE", "GPUREG_00CF", "GPUREG_TEXENV2_SOURCE", "GPUREG_TEXENV2_OPERAND",
        "GPUREG_TEXENV2_COMBINER", "GPUREG_TEXENV2_COLOR", "GPUREG_TEXENV2_SCALE", "GPUREG_00D5", "GPUREG_00D6", "GPUREG_00D7",
        "GPUREG_TEXENV3_SOURCE", "GPUREG_TEXENV3_OPERAND", "GPUREG_TEXENV3_COMBINER", "GPUREG_TEXENV3_COLOR",
        "GPUREG_TEXENV3_SCALE", "GPUREG_00DD", "GPUREG_00DE", "GPUREG_00DF", "GPUREG_TEXENV_UPDATE_BUFFER", "GPUREG_FOG_COLOR",
        "GPUREG_00E2", "GPUREG_00E3", "GPUREG_GAS_ATTENUATION", "GPUREG_GAS_ACCMAX", "GPUREG_FOG_LUT_INDEX", "GPUREG_00E7",
        "GPUREG_FOG_LUT_DATA0", "GPUREG_FOG_LUT_DATA1", "GPUREG_FOG_LUT_DATA2", "GPUREG_FOG_LUT_DATA3", "GPUREG_FOG_LUT_DATA4",
        "GPUREG_FOG_LUT_DATA5", "GPUREG_FOG_LUT_DATA6", "GPUREG_FOG_LUT_DATA7", "GPUREG_TEXENV4_SOURCE", "GPUREG_TEXENV4_OPERAND",
        "GPUREG_TEXENV4_COMBINER", "GPUREG_TEXENV4_COLOR", "GPUREG_TEXENV4_SCALE", "GPUREG_00F5", "GPUREG_00F6", "GPUREG_00F7",
        "GPUREG_TEXENV5_SOURCE", "GPUREG_TEXENV5_OPERAND", "GPUREG_TEXENV5_COMBINER", "GPUREG_TEXENV5_COLOR",
        "GPUREG_TEXENV5_SCALE", "GPUREG_TEXENV_BUFFER_COLOR", "GPUREG_00FE", "GPUREG_00FF", "GPUREG_COLOR_OPERATION",
        "GPUREG_BLEND_FUNC", "GPUREG_LOGIC_OP", "GPUREG_BLEND_COLOR", "GPUREG_FRAGOP_ALPHA_TEST", "GPUREG_STENCIL_TEST",
        "GPUREG_STENCIL_OP", "GPUREG_DEPTH_COLOR_MASK", "GPUREG_0108", "GPUREG_0109", "GPUREG_010A", "GPUREG_010B", "GPUREG_010C",
        "GPUREG_010D", "GPUREG_010E", "GPUREG_010F", "GPUREG_FRAMEBUFFER_INVALIDATE", "GPUREG_FRAMEBUFFER_FLUSH",
        "GPUREG_COLORBUFFER_READ", "GPUREG_COLORBUFFER_WRITE", "GPUREG_DEPTHBUFFER_READ", "GPUREG_DEPTHBUFFER_WRITE",
        "GPUREG_DEPTHBUFFER_FORMAT", "GPUREG_COLORBUFFER_FORMAT", "GPUREG_EARLYDEPTH_TEST2", "GPUREG_0119", "GPUREG_011A",
        "GPUREG_FRAMEBUFFER_BLOCK32", "GPUREG_DEPTHBUFFER_LOC", "GPUREG_COLORBUFFER_LOC", "GPUREG_FRAMEBUFFER_DIM", "GPUREG_011F",
        "GPUREG_GAS_LIGHT_XY", "GPUREG_GAS_LIGHT_Z", "GPUREG_GAS_LIGHT_Z_COLOR", "GPUREG_GAS_LUT_INDEX", "GPUREG_GAS_LUT_DATA",
        "GPUREG_0125", "GPUREG_GAS_DELTAZ_DEPTH", "GPUREG_0127", "GPUREG_0128", "GPUREG_0129", "GPUREG_012A", "GPUREG_012B",
        "GPUREG_012C", "GPUREG_012D", "GPUREG_012E", "GPUREG_012F", "GPUREG_FRAGOP_SHADOW", "GPUREG_0131", "GPUREG_0132",
        "GPUREG_0133", "GPUREG_0134", "GPUREG_0135", "GPUREG_0136", "GPUREG_0137", "GPUREG_0138", "GPUREG_0139", "GPUREG_013A",
        "GPUREG_013B", "GPUREG_013C", "GPUREG_013D", "GPUREG_013E", "GPUREG_013F", "GPUREG_LIGHT0_SPECULAR0",
        "GPUREG_LIGHT0_SPECULAR1", "GPUREG_LIGHT0_DIFFUSE", "GPUREG_LIGHT0_AMBIENT", "GPUREG_LIGHT0_XY", "GPUREG_LIGHT0_Z",
        "GPUREG_LIGHT0_SPOTDIR_XY", "GPUREG_LIGHT0_SPOTDIR_Z", "GPUREG_0148", "GPUREG_LIGHT0_CONFIG",
        "GPUREG_LIGHT0_ATTENUATION_BIAS", "GPUREG_LIGHT0_ATTENUATION_SCALE", "GPUREG_014C", "GPUREG_014D", "GPUREG_014E",
        "GPUREG_014F", "GPUREG_LIGHT1_SPECULAR0", "GPUREG_LIGHT1_SPECULAR1", "GPUREG_LIGHT1_DIFFUSE", "GPUREG_LIGHT1_AMBIENT",
        "GPUREG_LIGHT1_XY", "GPUREG_LIGHT1_Z", "GPUREG_LIGHT1_SPOTDIR_XY", "GPUREG_LIGHT1_SPOTDIR_Z", "GPUREG_0158",
        "GPUREG_LIGHT1_CONFIG", "GPUREG_LIGHT1_ATTENUATION_BIAS", "GPUREG_LIGHT1_ATTENUATION_SCALE", "GPUREG_015C", "GPUREG_015D",
        "GPUREG_015E", "GPUREG_015F", "GPUREG_LIGHT2_SPECULAR0", "GPUREG_LIGHT2_SPECULAR1", "GPUREG_LIGHT2_DIFFUSE",
        "GPUREG_LIGHT2_AMBIENT", "GPUREG_LIGHT2_XY", "GPUREG_LIGHT2_Z", "GPUREG_LIGHT2_SPOTDIR_XY", "GPUREG_LIGHT2_SPOTDIR_Z",
        "GPUREG_0168", "GPUREG_LIGHT2_CONFIG", "GPUREG_LIGHT2_ATTENUATION_BIAS", "GPUREG_LIGHT2_ATTENUATION_SCALE", "GPUREG_016C",
        "GPUREG_016D", "GPUREG_016E", "GPUREG_016F", "GPUREG_LIGHT3_SPECULAR0", "GPUREG_LIGHT3_SPECULAR1", "GPUREG_LIGHT3_DIFFUSE",
        "GPUREG_LIGHT3_AMBIENT", "GPUREG_LIGHT3_XY", "GPUREG_LIGHT3_Z", "GPUREG_LIGHT3_SPOTDIR_XY", "GPUREG_LIGHT3_SPOTDIR_Z",
        "GPUREG_0178", "GPUREG_LIGHT3_CONFIG", "GPUREG_LIGHT3_ATTENUATION_BIAS", "GPUREG_LIGHT3_ATTENUATION_SCALE", "GPUREG_017C",
        "GPUREG_017D", "GPUREG_017E", "GPUREG_017F", "GPUREG_LIGHT4_SPECULAR0", "GPUREG_LIGHT4_SPECULAR1", "GPUREG_LIGHT4_DIFFUSE",
        "GPUREG_LIGHT4_AMBIENT", "GPUREG_LIGHT4_XY", "GPUREG_LIGHT4_Z", "GPUREG_LIGHT4_SPOTDIR_XY", "GPUREG_LIGHT4_SPOTDIR_Z",
        "GPUREG_0188", "GPUREG_LIGHT4_CONFIG", "GPUREG_LIGHT4_ATTENUATION_BIAS", "GPUREG_LIGHT4_ATTENUATION_SCALE", "GPUREG_018C",
        "GPUREG_018D", "GPUREG_018E", "GPUREG_018F", "GPUREG_LIGHT5_SPECULAR0", "GPUREG_LIGHT5_SPECULAR1", "GPUREG_LIGHT5_DIFFUSE",
        "GPUREG_LIGHT5_AMBIENT", "GPUREG_LIGHT5_XY", "GPUREG_LIGHT5_Z", "GPUREG_LIGHT5_SPOTDIR_XY", "GPUREG_LIGHT5_SPOTDIR_Z",
        "GPUREG_0198", "GPUREG_LIGHT5_CONFIG", "GPUREG_LIGHT5_ATTENUATION_BIAS", "GPUREG_LIGHT5_ATTENUATION_SCALE", "GPUREG_019C",
        "GPUREG_019D", "GPUREG_019E", "GPUREG_019F", "GPUREG_LIGHT6_SPECULAR0", "GPUREG_LIGHT6_SPECULAR1", "GPUREG_LIGHT6_DIFFUSE",
        "GPUREG_LIGHT6_AMBIENT", "GPUREG_LIGHT6_XY", "GPUREG_LIGHT6_Z", "GPUREG_LIGHT6_SPOTDIR_XY", "GPUREG_LIGHT6_SPOTDIR_Z",
        "GPUREG_01A8", "GPUREG_LIGHT6_CONFIG", "GPUREG_LIGHT6_ATTENUATION_BIAS", "GPUREG_LIGHT6_ATTENUATION_SCALE", "GPUREG_01AC",
        "GPUREG_01AD", "GPUREG_01AE", "GPUREG_01AF", "GPUREG_LIGHT7_SPECULAR0", "GPUREG_LIGHT7_SPECULAR1", "GPUREG_LIGHT7_DIFFUSE",
        "GPUREG_LIGHT7_AMBIENT", "GPUREG_LIGHT7_XY", "GPUREG_LIGHT7_Z", "GPUREG_LIGHT7_SPOTDIR_XY", "GPUREG_LIGHT7_SPOTDIR_Z",
        "GPUREG_01B8", "GPUREG_LIGHT7_CONFIG", "GPUREG_LIGHT7_ATTENUATION_BIAS", "GPUREG_LIGHT7_ATTENUATION_SCALE", "GPUREG_01BC",
        "GPUREG_01BD", "GPUREG_01BE", "GPUREG_01BF", "GPUREG_LIGHTING_AMBIENT", "GPUREG_01C1", "GPUREG_LIGHTING_NUM_LIGHTS",
        "GPUREG_LIGHTING_CONFIG0", "GPUREG_LIGHTING_CONFIG1", "GPUREG_LIGHTING_LUT_INDEX", "GPUREG_LIGHTING_ENABLE1", "GPUREG_01C7",
        "GPUREG_LIGHTING_LUT_DATA0", "GPUREG_LIGHTING_LUT_DATA1", "GPUREG_LIGHTING_LUT_DATA2", "GPUREG_LIGHTING_LUT_DATA3",
        "GPUREG_LIGHTING_LUT_DATA4", "GPUREG_LIGHTING_LUT_DATA5", "GPUREG_LIGHTING_LUT_DATA6", "GPUREG_LIGHTING_LUT_DATA7",
        "GPUREG_LIGHTING_LUTINPUT_ABS", "GPUREG_LIGHTING_LUTINPUT_SELECT", "GPUREG_LIGHTING_LUTINPUT_SCALE", "GPUREG_01D3",
        "GPUREG_01D4", "GPUREG_01D5", "GPUREG_01D6", "GPUREG_01D7", "GPUREG_01D8", "GPUREG_LIGHTING_LIGHT_PERMUTATION",
        "GPUREG_01DA", "GPUREG_01DB", "GPUREG_01DC", "GPUREG_01DD", "GPUREG_01DE", "GPUREG_01DF", "GPUREG_01E0", "GPUREG_01E1",
        "GPUREG_01E2", "GPUREG_01E3", "GPUREG_01E4", "GPUREG_01E5", "GPUREG_01E6", "GPUREG_01E7", "GPUREG_01E8", "GPUREG_01E9",
        "GPUREG_01EA", "GPUREG_01EB", "GPUREG_01EC", "GPUREG_01ED", "GPUREG_01EE", "GPUREG_01EF", "GPUREG_01F0", "GPUREG_01F1",
        "GPUREG_01F2", "GPUREG_01F3", "GPUREG_01F4", "GPUREG_01F5", "GPUREG_01F6", "GPUREG_01F7", "GPUREG_01F8", "GPUREG_01F9",
        "GPUREG_01FA", "GPUREG_01FB", "GPUREG_01FC", "GPUREG_01FD", "GPUREG_01FE", "GPUREG_01FF", "GPUREG_ATTRIBBUFFERS_LOC",
        "GPUREG_ATTRIBBUFFERS_FORMAT_LOW", "GPUREG_ATTRIBBUFFERS_FORMAT_HIGH", "GPUREG_ATTRIBBUFFER0_OFFSET",
        "GPUREG_ATTRIBBUFFER0_CONFIG1", "GPUREG_ATTRIBBUFFER0_CONFIG2", "GPUREG_ATTRIBBUFFER1_OFFSET",
        "GPUREG_ATTRIBBUFFER1_CONFIG1", "GPUREG_ATTRIBBUFFER1_CONFIG2", "GPUREG_ATTRIBBUFFER2_OFFSET",
        "GPUREG_ATTRIBBUFFER2_CONFIG1", "GPUREG_ATTRIBBUFFER2_CONFIG2", "GPUREG_ATTRIBBUFFER3_OFFSET",
        "GPUREG_ATTRIBBUFFER3_CONFIG1", "GPUREG_ATTRIBBUFFER3_CONFIG2", "GPUREG_ATTRIBBUFFER4_OFFSET",
        "GPUREG_ATTRIBBUFFER4_CONFIG1", "GPUREG_ATTRIBBUFFER4_CONFIG2", "GPUREG_ATTRIBBUFFER5_OFFSET",
        "GPUREG_ATTRIBBUFFER5_CONFIG1", "GPUREG_ATTRIBBUFFER5_CONFIG2", "GPUREG_ATTRIBBUFFER6_OFFSET",
        "GPUREG_ATTRIBBUFFER6_CONFIG1", "GPUREG_ATTRIBBUFFER6_CONFIG2", "GPUREG_ATTRIBBUFFER7_OFFSET",
        "GPUREG_ATTRIBBUFFER7_CONFIG1", "GPUREG_ATTRIBBUFFER7_CONFIG2", "GPUREG_ATTRIBBUFFER8_OFFSET",
        "GPUREG_ATTRIBBUFFER8_CONFIG1", "GPUREG_ATTRIBBUFFER8_CONFIG2", "GPUREG_ATTRIBBUFFER9_OFFSET",
        "GPUREG_ATTRIBBUFFER9_CONFIG1", "GPUREG_ATTRIBBUFFER9_CONFIG2", "GPUREG_ATTRIBBUFFER10_OFFSET",
        "GPUREG_ATTRIBBUFFER10_CONFIG1", "GPUREG_ATTRIBBUFFER10_CONFIG2", "GPUREG_ATTRIBBUFFER11_OFFSET",
        "GPUREG_ATTRIBBUFFER11_CONFIG1", "GPUREG_ATTRIBBUFFER11_CONFIG2", "GPUREG_INDEXBUFFER_CONFIG", "GPUREG_NUMVERTICES",
        "GPUREG_GEOSTAGE_CONFIG", "GPUREG_VERTEX_OFFSET", "GPUREG_022B", "GPUREG_022C", "GPUREG_POST_VERTEX_CACHE_NUM",
        "GPUREG_DRAWARRAYS", "GPUREG_DRAWELEMENTS", "GPUREG_0230", "GPUREG_VTX_FUNC", "GPUREG_FIXEDATTRIB_INDEX",
        "GPUREG_FIXEDATTRIB_DATA0", "GPUREG_FIXEDATTRIB_DATA1", "GPUREG_FIXEDATTRIB_DATA2", "GPUREG_0236", "GPUREG_0237",
        "GPUREG_CMDBUF_SIZE0", "GPUREG_CMDBUF_SIZE1", "GPUREG_CMDBUF_ADDR0", "GPUREG_CMDBUF_ADDR1", "GPUREG_CMDBUF_JUMP0",
        "GPUREG_CMDBUF_JUMP1", "GPUREG_023E", "GPUREG_023F", "GPUREG_0240", "GPUREG_0241", "GPUREG_VSH_NUM_ATTR", "GPUREG_0243",
        "GPUREG_VSH_COM_MODE", "GPUREG_START_DRAW_FUNC0", "GPUREG_0246", "GPUREG_0247", "GPUREG_0248", "GPUREG_0249",
        "GPUREG_VSH_OUTMAP_TOTAL1", "GPUREG_024B", "GPUREG_024C", "GPUREG_024D", "GPUREG_024E", "GPUREG_024F", "GPUREG_0250",
        "GPUREG_VSH_OUTMAP_TOTAL2", "GPUREG_GSH_MISC0", "GPUREG_GEOSTAGE_CONFIG2", "GPUREG_GSH_MISC1", "GPUREG_0255", "GPUREG_0256",
        "GPUREG_0257", "GPUREG_0258", "GPUREG_0259", "GPUREG_025A", "GPUREG_025B", "GPUREG_025C", "GPUREG_025D",
        "GPUREG_PRIMITIVE_CONFIG", "GPUREG_RESTART_PRIMITIVE", "GPUREG_0260", "GPUREG_0261", "GPUREG_0262", "GPUREG_0263",
        "GPUREG_0264", "GPUREG_0265", "GPUREG_0266", "GPUREG_0267", "GPUREG_0268", "GPUREG_0269", "GPUREG_026A", "GPUREG_026B",
        "GPUREG_026C", "GPUREG_026D", "GPUREG_026E", "GPUREG_026F", "GPUREG_0270", "GPUREG_0271", "GPUREG_0272", "GPUREG_0273",
        "GPUREG_0274", "GPUREG_0275", "GPUREG_0276", "GPUREG_0277", "GPUREG_0278", "GPUREG_0279", "GPUREG_027A", "GPUREG_027B",
        "GPUREG_027C", "GPUREG_027D", "GPUREG_027E", "GPUREG_027F", "GPUREG_GSH_BOOLUNIFORM", "GPUREG_GSH_INTUNIFORM_I0",
        "GPUREG_GSH_INTUNIFORM_I1", "GPUREG_GSH_INTUNIFORM_I2", "GPUREG_GSH_INTUNIFORM_I3", "GPUREG_0285", "GPUREG_0286",
        "GPUREG_0287", "GPUREG_0288", "GPUREG_GSH_INPUTBUFFER_CONFIG", "GPUREG_GSH_ENTRYPOINT",
        "GPUREG_GSH_ATTRIBUTES_PERMUTATION_LOW", "GPUREG_GSH_ATTRIBUTES_PERMUTATION_HIGH", "GPUREG_GSH_OUTMAP_MASK", "GPUREG_028E",
        "GPUREG_GSH_CODETRANSFER_END", "GPUREG_GSH_FLOATUNIFORM_INDEX", "GPUREG_GSH_FLOATUNIFORM_DATA0",
        "GPUREG_GSH_FLOATUNIFORM_DATA1", "GPUREG_GSH_FLOATUNIFORM_DATA2", "GPUREG_GSH_FLOATUNIFORM_DATA3",
        "GPUREG_GSH_FLOATUNIFORM_DATA4", "GPUREG_GSH_FLOATUNIFORM_DATA5", "GPUREG_GSH_FLOATUNIFORM_DATA6",
        "GPUREG_GSH_FLOATUNIFORM_DATA7", "GPUREG_0299", "GPUREG_029A", "GPUREG_GSH_CODETRANSFER_INDEX",
        "GPUREG_GSH_CODETRANSFER_DATA0", "GPUREG_GSH_CODETRANSFER_DATA1", "GPUREG_GSH_CODETRANSFER_DATA2",
        "GPUREG_GSH_CODETRANSFER_DATA3", "GPUREG_GSH_CODETRANSFER_DATA4", "GPUREG_GSH_CODETRANSFER_DATA5",
        "GPUREG_GSH_CODETRANSFER_DATA6", "GPUREG_GSH_CODETRANSFER_DATA7", "GPUREG_02A4", "GPUREG_GSH_OPDESCS_INDEX",
        "GPUREG_GSH_OPDESCS_DATA0", "GPUREG_GSH_OPDESCS_DATA1", "GPUREG_GSH_OPDESCS_DATA2", "GPUREG_GSH_OPDESCS_DATA3",
        "GPUREG_GSH_OPDESCS_DATA4", "GPUREG_GSH_OPDESCS_DATA5", "GPUREG_GSH_OPDESCS_DATA6", "GPUREG_GSH_OPDESCS_DATA7",
        "GPUREG_02AE", "GPUREG_02AF", "GPUREG_VSH_BOOLUNIFORM", "GPUREG_VSH_INTUNIFORM_I0", "GPUREG_VSH_INTUNIFORM_I1",
        "GPUREG_VSH_INTUNIFORM_I2", "GPUREG_VSH_INTUNIFORM_I3", "GPUREG_02B5", "GPUREG_02B6", "GPUREG_02B7", "GPUREG_02B8",
        "GPUREG_VSH_INPUTBUFFER_CONFIG", "GPUREG_VSH_ENTRYPOINT", "GPUREG_VSH_ATTRIBUTES_PERMUTATION_LOW",
        "GPUREG_VSH_ATTRIBUTES_PERMUTATION_HIGH", "GPUREG_VSH_OUTMAP_MASK", "GPUREG_02BE", "GPUREG_VSH_CODETRANSFER_END",
        "GPUREG_VSH_FLOATUNIFORM_INDEX", "GPUREG_VSH_FLOATUNIFORM_DATA0", "GPUREG_VSH_FLOATUNIFORM_DATA1",
        "GPUREG_VSH_FLOATUNIFORM_DATA2", "GPUREG_VSH_FLOATUNIFORM_DATA3", "GPUREG_VSH_FLOATUNIFORM_DATA4",
        "GPUREG_VSH_FLOATUNIFORM_DATA5", "GPUREG_VSH_FLOATUNIFORM_DATA6", "GPUREG_VSH_FLOATUNIFORM_DATA7", "GPUREG_02C9",
        "GPUREG_02CA", "GPUREG_VSH_CODETRANSFER_INDEX", "GPUREG_VSH_CODETRANSFER_DATA0", "GPUREG_VSH_CODETRANSFER_DATA1",
        "GPUREG_VSH_CODETRANSFER_DATA2", "GPUREG_VSH_CODETRANSFER_DATA3", "GPUREG_VSH_CODETRANSFER_DATA4",
        "GPUREG_VSH_CODETRANSFER_DATA5", "GPUREG_VSH_CODETRANSFER_DATA6", "GPUREG_VSH_CODETRANSFER_DATA7", "GPUREG_02D4",
        "GPUREG_VSH_OPDESCS_INDEX", "GPUREG_VSH_OPDESCS_DATA0", "GPUREG_VSH_OPDESCS_DATA1", "GPUREG_VSH_OPDESCS_DATA2",
        "GPUREG_VSH_OPDESCS_DATA3", "GPUREG_VSH_OPDESCS_DATA4", "GPUREG_VSH_OPDESCS_DATA5", "GPUREG_VSH_OPDESCS_DATA6",
        "GPUREG_VSH_OPDESCS_DATA7", "GPUREG_02DE", "GPUREG_02DF", "GPUREG_02E0", "GPUREG_02E1", "GPUREG_02E2", "GPUREG_02E3",
        "GPUREG_02E4", "GPUREG_02E5", "GPUREG_02E6", "GPUREG_02E7", "GPUREG_02E8", "GPUREG_02E9", "GPUREG_02EA", "GPUREG_02EB",
        "GPUREG_02EC", "GPUREG_02ED", "GPUREG_02EE", "GPUREG_02EF", "GPUREG_02F0", "GPUREG_02F1", "GPUREG_02F2", "GPUREG_02F3",
        "GPUREG_02F4", "GPUREG_02F5", "GPUREG_02F6", "GPUREG_02F7", "GPUREG_02F8", "GPUREG_02F9", "GPUREG_02FA", "GPUREG_02FB",
        "GPUREG_02FC", "GPUREG_02FD", "GPUREG_02FE", "GPUREG_02FF",
    };
    return id < 768 ? names[id] : NULL;
}

/* The name of a refusal, that of enum pica_refusal without PICA_: "LIST_TOO_LONG" for 1. */
static inline const char *pica_refusal_name(uint32_t number) {
    switch (number) {
    case 1: return "LIST_TOO_LONG";
    case 2: return "WORDS_MISSING";
    case 3: return "ID_ABOVE_2FF";
    case 4: return "JUMP_REGISTER";
    case 5: return "PORT_MASK";
    case 6: return "BUFFER_LENGTH";
    case 7: return "LENGTHS_DIFFER";
    case 8: return "TOO_MANY_WRITES";
    case 9: return "MASK_ABOVE_15";
    case 10: return "NO_ROOM";
    case 12: return "DEPTH_ABOVE_LARGEST";
    case 13: return "CODE_WITHOUT_NAME";
    case 14: return "NOT_BUILT";
    case 15: return "ILLEGAL_LENGTH";
    case 22: return "TOO_FEW_PLACES";
    default: return NULL;
    }
}

/* What a refusal means: "a list over 65,536 words" for 1. */
static inline const char *pica_refusal_text(uint32_t number) {
    switch (number) {
    case 1: return "a list over 65,536 words";
    case 2: return "a command needs more words than are left";
    case 3: return "a write to an id above 2FFh";
    case 4: return "a write to a jump register, 23Ch or 23Dh";
    case 5: return "port data with a mask other than Fh";
    case 6: return "a state buffer of the wrong length";
    case 7: return "ids, masks and values differ in length";
    case 8: return "over 4,096 writes";
    case 9: return "a mask above 15";
    case 10: return "the space is shorter than the shortest list";
    case 12: return "a depth above the format's largest: place 0 incoming, 1 stored";
    case 13: return "a code without a name, at the register whose id is the place";
    case 14:
        return "not built, at the place's register: E0 fog mode not 0; 100 mode not 0, bit 8, 24 or 25 set; 117 not size 2 with format 0";
    case 15: return "a list whose words are no multiple of 4";
    case 22: return "the buffers have fewer places than the list has writes";
    default: return NULL;
    }
}

/* What to do about a refusal: "lend three buffers of one length" for 7. */
static inline const char *pica_refusal_advice(uint32_t number) {
    switch (number) {
    case 1: return "cut the capture at a command's end, and fill each part with 0 to a multiple of 4 words";
    case 2: return "the list was cut short, or the place before it is no command: look at the place given";
    case 3: return "in a list, the words at the place given are no command, or a consecutive run goes past the last register";
    case 4: return "cut the list before the place given, and fill it with 0 to a multiple of 4 words; the list jumped to is read by itself";
    case 5: return "a fog or light table is written whole words only";
    case 6: return "lend 768 cells, 128 fog entries, 6,144 light entries";
    case 7: return "lend three buffers of one length";
    case 8: return "pack the run in parts: their lists, joined, say it in one list up to 65,536 words, with at most four words more a seam";
    case 9: return "a mask is four bits";
    case 10: return "lend the words that the place names";
    case 12: return "give at most 65,535 for depth format 0, else 16,777,215";
    case 13: return "the cells held garbage before the list, or the list sets a code that has no name: look at that register";
    case 14: return "the fragment's result isn't told for such a state";
    case 15: return "the list was cut short, or lacks its last pair; where its words are even in number, a pair 0 0 behind them fills it";
    case 22: return "lend three buffers of as many places as the place names";
    default: return NULL;
    }
}

#endif
