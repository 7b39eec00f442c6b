//! Planted faults of lists: reading them, and giving their writes.

super::faults! {
    model:
    // A command
    1 COUNT_7_BITS "header count as 7 bits";
    2 PADDING_FORGOTTEN "padding word forgotten";
    3 IDS_NOT_RISING "ids not rising";
    4 ID_WRAPS "id 2FF steps to 000";
    5 ID_12_BITS "header id as 12 bits";
    6 PADDING_REFUSED "padding word other than 0 refused";
    7 JUMP_23D_ALLOWED "23D allowed";
    8 JUMP_NUMBER_3 "jump registers refused with 3";
    9 PORT_MASK_0_ACCEPTED "port data with mask 0 accepted";
    10 PORT_MASK_IGNORED "port data with any mask accepted";
    11 LIST_65535 "list of 65,536 words refused";
    12 LIST_65537 "65,537 words not refused with 1";
    13 ORDER_1_6 "refusal 1 before 6";
    14 PLACE_IS_WRITE "place is the write instead of the command";
    15 PLACE_IS_COMMAND_NUMBER "place is the command's number, not its word";
    16 APPLIES_BEFORE_REFUSAL "state changed by commands before a refused one";
    17 ORDER_2_LAST "refusal 2 after the writes that are there";
    18 ANSWER_COMMANDS "answer counts commands";
    20 UNUSED_BITS_REFUSED "unused header bits refused";
    123 JUMP_23B "23B taken for a jump register";

    // The writes of a list
    136 WRITES_ORDER_1_7 "writes: 1 before 7";
    137 WRITES_VALUES_UNTESTED "writes: the values' length not compared";
    138 WRITES_ORDER_22_LIST "writes: 22 before the commands' refusals";
    139 WRITES_ROOM_ONE_OFF "writes: exact room refused";
    140 WRITES_PLACE_ONE_OFF "writes: 22's place one too low";
    141 WRITES_PLACE_IS_ROOM "writes: 22's place is the buffers' length";
    142 WRITES_PLACE_IS_LACK "writes: 22's place is the places that lack";
    143 WRITES_PARTIAL "writes: those that fit put without room for all";
    144 WRITES_BEFORE_REFUSAL "writes: those before a refused command put";
    145 WRITES_CLEARED "writes: places past them cleared";
    146 WRITES_NEXT_TOUCHED "writes: the place past the last one touched";
    147 WRITES_MASK_OF_NEXT "writes: mask of the next command";
    148 WRITES_FIRST_ID "writes: all ids are the command's first";
    149 WRITES_RISE_ONE_LATE "writes: ids rise one parameter late";
    150 WRITES_HEADER_AS_VALUE "writes: the header taken for the second value";
    151 WRITES_PADDING_PUT "writes: the padding word put as well";
    152 WRITES_MASK_0_LISTED "writes: those with mask 0 given";
    153 WRITES_ANSWER_COMMANDS "writes: answer counts commands";
    154 WRITES_AT_MOST_4096 "writes: over 4,096 of them refused with 8";
    234 WRITES_ORDER_15_1 "writes: 15 before 1";
    235 WRITES_ORDER_15_7 "writes: 15 before 7";
    236 WRITES_EVEN_LENGTHS "writes: even lengths accepted";
    237 WRITES_ORDER_15_LAST "writes: 15 after the commands";
    238 WRITES_ORDER_22_15 "writes: 15 after 22";
    239 WRITES_PLACE_15 "writes: 15's place is the list's length";
    240 WRITES_MASK_0_UNCHECKED "writes: those with mask 0 not checked";
    241 WRITES_MASK_0_ANSWERED "writes: answer counts those with mask 0";
    242 WRITES_MASK_0_ROOM "writes: 22 counts those with mask 0";

    // How many writes of a list made a difference
    199 DIFFERENCES_BEFORE_LIST "differences: judged on the state before the list";
    200 DIFFERENCES_AFTER_LIST "differences: judged by the state after the list";
    201 DIFFERENCES_LAST_WRITE "differences: only the last write of a command to one id";
    202 DIFFERENCES_COMMANDS "differences: commands counted";
    203 DIFFERENCES_ARE_WRITES "differences: all writes counted";
    204 DIFFERENCES_SWAPPED "differences: answered, and the writes in their place";
    205 DIFFERENCES_DATA_TWICE "differences: port data counted by its entry and its index";
    206 DIFFERENCES_DATA_RUN "differences: a run of port data counted once";
    207 DIFFERENCES_ADDED "differences: added to what stood there";
    208 DIFFERENCES_NONE_KEPT "differences: the word kept where there are none";
    209 DIFFERENCES_REFUSED "differences: a refused list's given";
    210 DIFFERENCES_REFUSED_0 "differences: 0 given for a refused list";

    in_reading:
    // The length of a list, and writes with mask 0
    19 MASK_0_COUNTED "writes with mask 0 counted";
    224 ORDER_15_1 "refusal 15 before 1";
    225 ORDER_15_6 "refusal 15 before 6";
    226 EVEN_LENGTHS "even lengths read";
    227 ORDER_15_LAST "refusal 15 after the commands";
    228 PLACE_15 "refusal 15's place is the list's length";
    229 LENGTHS_BY_16 "lengths by 16 words, not 16 bytes";
    230 MASK_0_UNCHECKED "writes with mask 0 not checked";
    231 PAIR_ENDS "the pair 0 0 ends the list";
    232 MASK_0_FIRST_CHECKED "of a command with mask 0 only the first write checked";
    274 MASK_0_AS_F "mask 0 taken for F";
    233 DIFFERENCES_MASK_0 "differences: writes with mask 0 counted";
}
