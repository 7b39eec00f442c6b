//! Planted faults of packing.

super::faults! {
    model:
    106 LONGEST_FIRST "longest run first";
    107 CARRIES_255 "a command carries 255 writes";
    108 TIE_FEWEST "tie: first command carries the fewest";
    109 LONE_BIT_31 "lone write with bit 31";
    110 ROOM_ONE_OFF "exact space refused";
    111 ROOM_PLACE "refusal 10's place is the space's length";
    112 SPACE_CLEARED "space past the list cleared";
    113 PADDING_KEPT "padding word not written";
    114 MASKS_MIXED "masks not looked at";
    115 ORDER_10_WRITES "refusal 10 before the writes are tested";
    116 PACK_PLACE "place isn't the index";
    117 PACK_ORDER_3_9 "packing: 3 before 9";
    118 ORDER_8_7 "refusal 8 before 7";
    119 PACK_4095 "4,096 writes refused";
    120 PARTIAL_LIST "part of the list written without room";
    134 MASK_9_FIRST "packing: 9 tested for all writes first";

    // Writes with mask 0, and the pair
    243 PACK_NO_PAIR "packing: no pair";
    244 PACK_ALWAYS_PAIR "packing: a pair where none is needed";
    245 PACK_TWO_PAIRS "packing: two pairs where one is needed";
    246 PACK_LENGTHS_BY_8 "packing: filled to a multiple of 8 words";
    247 PACK_EMPTY_FILLED "packing: pairs for a run of which nothing is left";
    248 PACK_PAIR_MASK "packing: the pair with a mask";
    249 PACK_PAIR_KEPT "packing: the pair's words not written";
    250 PACK_PAIR_FIRST "packing: the pair before the list";
    251 PACK_MASK_0_UNCHECKED "packing: writes with mask 0 not checked";
    252 PACK_MASK_0_PACKED "packing: writes with mask 0 packed";
    253 PACK_MASK_0_LAST_PACKED "packing: a last write with mask 0 packed";
    254 PACK_MASK_0_PARTS "packing: a write with mask 0 parts its neighbours";
    255 PACK_PLACE_OF_KEPT "packing: a refusal's index without the dropped writes";
    256 PACK_8_OF_KEPT "packing: 8 counted without the dropped writes";
    257 PACK_10_UNFILLED "packing: 10's place without the pair";
    258 PACK_ROOM_UNFILLED "packing: room for the pair not asked for";
    259 PACK_TIE_FILLED "packing: ties settled among filled lists";
}
