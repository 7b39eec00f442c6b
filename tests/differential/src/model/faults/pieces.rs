//! Planted faults of lists that arrive in pieces.

super::faults! {
    in_pieces:
    155 PIECES_FAULT_BEATS_MISSING "pieces: a write at fault beats its command's missing words";
    156 PIECES_LIMIT_UP_TO_FAULT "pieces: 1 only where no write was at fault before";
    157 PIECES_LIMIT_ON_PART "pieces: the limit is each part's";
    158 PIECES_LIMIT_PLACE "pieces: 1's place is the word too many";
    159 PIECES_PLACE_IN_PART "pieces: place counted from its part's start";
    160 PIECES_PARTS_ALONE "pieces: each part read as a list of its own";
    161 PIECES_FIRST_LOST "pieces: first parameter before a cut forgotten";
    162 PIECES_PADDING_LOST "pieces: padding word after a cut taken for a parameter";
    163 PIECES_RISE_ANEW "pieces: ids rise anew after a cut";
    164 PIECES_PORT_RUN_ENDS "pieces: a run of port data ends at a cut";
    165 PIECES_EMPTY_ENDS "pieces: an empty part ends the list";
    166 PIECES_COUNT_STOPS "pieces: parts after a fault not counted";
    167 PIECES_COUNT_GOES_ON "pieces: the words come not held";
    168 PIECES_COUNT_65536 "pieces: the words come held at 65,536";
    169 PIECES_ANSWERS_PART "pieces: a feed answers its part's words";
    170 PIECES_TOLD_EARLY "pieces: a feed refuses a write at fault";
    171 PIECES_ANSWER_LAST_PART "pieces: answer counts the last part's commands";
    172 PIECES_SPARE_WHOLE "pieces: at opening the spare state takes whole words";
    173 PIECES_LIVE_WHOLE "pieces: the live state takes whole words";
    174 PIECES_NAMED_TABLES "pieces: only tables with a name taken";
    175 PIECES_INDICES_KEPT "pieces: the ports' indices not taken";
    176 PIECES_LIVE_BEFORE_REFUSAL "pieces: live state changed by commands before a refused one";
    177 PIECES_SPARE_KEPT "pieces: spare state not reset on a refusal";
    178 PIECES_SPARE_OLD "pieces: spare state reset on acceptance too";
    179 PIECES_NOT_FRESH_REFUSED "pieces: reader not fresh after a refusal";
    180 PIECES_NOT_FRESH_ACCEPTED "pieces: reader not fresh after an acceptance";
    181 PIECES_OPEN_GOES_ON "pieces: opening again keeps the words come";
    182 PIECES_6_COUNTS "pieces: a feed refused with 6 counts its words";
    183 PIECES_6_FRESHENS "pieces: a close refused with 6 leaves a fresh reader";
    184 PIECES_ORDER_1_6 "pieces: 1 before 6 at the close";
    185 PIECES_OPEN_LIVE_LIGHT "pieces: opening doesn't test the live state's light length";
    186 PIECES_FEED_LIGHT "pieces: a feed doesn't test the light length";
    187 PIECES_CLOSE_SPARE_LIGHT "pieces: close doesn't test the spare state's light length";

    // How many writes of such a list made a difference
    211 PIECES_DIFFERENCES_GO_ON "pieces: differences of the list before counted too";
    212 PIECES_DIFFERENCES_REOPENED "pieces: differences before another opening counted too";
    213 PIECES_DIFFERENCES_LAST_PART "pieces: differences of the last part only";
    214 PIECES_DIFFERENCES_FIRST_PART "pieces: differences of the first part only";
    215 PIECES_DIFFERENCES_CUT_LOST "pieces: no differences after a cut in a command";
    216 PIECES_DIFFERENCES_CUT_TOLD "pieces: the first write after a cut in a command is one";
    217 PIECES_DIFFERENCES_SPARE "pieces: differences judged on the spare state's whole words";
    218 PIECES_DIFFERENCES_LIVE "pieces: differences judged on the live state alone";
    219 PIECES_DIFFERENCES_TAKEN "pieces: differences are the words that the live state takes";
    220 PIECES_DIFFERENCES_ARE_WRITES "pieces: all writes counted as differences";
    221 PIECES_DIFFERENCES_REFUSED "pieces: a refused list's differences given";
    222 PIECES_DIFFERENCES_REFUSED_0 "pieces: 0 differences given for a refused list";
    223 PIECES_DIFFERENCES_6 "pieces: differences given by a close refused with 6";

    // The length of such a list, and writes with mask 0
    260 PIECES_ORDER_15_1 "pieces: 15 before 1";
    261 PIECES_EVEN_LENGTHS "pieces: even lengths accepted";
    262 PIECES_ORDER_15_LAST "pieces: 15 after the commands";
    263 PIECES_ORDER_15_6 "pieces: 15 before 6 at the close";
    264 PIECES_PLACE_15 "pieces: 15's place is the list's length";
    265 PIECES_15_OF_PARTS "pieces: 15 for a part's length";
    266 PIECES_15_TOLD_EARLY "pieces: a feed refuses with 15";
    267 PIECES_15_SPARE_KEPT "pieces: spare state not reset on 15";
    268 PIECES_15_NOT_FRESH "pieces: reader not fresh after 15";
    269 PIECES_MASK_0_COUNTED "pieces: writes with mask 0 counted";
    270 PIECES_MASK_0_CUT_COUNTED "pieces: writes with mask 0 counted after a cut";
    275 PIECES_MASK_0_AS_F "pieces: mask 0 taken for F";
    271 PIECES_MASK_0_UNCHECKED "pieces: writes with mask 0 not checked";
    272 PIECES_MASK_0_CUT_UNCHECKED "pieces: writes with mask 0 not checked after a cut";
    273 PIECES_DIFFERENCES_MASK_0 "pieces: writes with mask 0 counted as differences";
}
