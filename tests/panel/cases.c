/* The tables of cases.h. P1 to P12 and R1 to R15 are those of docs/PROTOCOL.md, which has document 01's table among them. */
#include "cases.h"
#include "izk.h"

/* Long bodies, put together. */
#define ZEROS_8 "0000000000000000"
#define ZEROS_40 ZEROS_8 ZEROS_8 ZEROS_8 ZEROS_8 ZEROS_8
#define ZEROS_128 ZEROS_40 ZEROS_40 ZEROS_40 ZEROS_8

/* The constants that docs/PROTOCOL.md works out, with a composition, and the last byte of the first reserve, of one's own. */
#define BEHIND_COMPOSITION "004E200960001E03E8"
#define BEHIND_RESERVE "0064000000000942000000000258000000000000251C000000000000" \
    "00000000000000000000000000000000000000000000000003E80000000000C807F808700000"
#define CONSTANTS(composition, reserve) "016411" composition BEHIND_COMPOSITION "000000" reserve BEHIND_RESERVE
#define GOOD CONSTANTS("06", "00")

/* The part that it works out, 32 rows of level and volume. */
#define ROWS "000A001900140032001E004B00280064" "0032007D003C0096004600AF005000C8" "005A00E1006400FA006E01130078012C" \
    "00820145008C015E0096017700A00190" "00AA01A900B401C200BE01DB00C801F4" "00D2020D00DC022600E6023F00F00258" \
    "00FA02710104028A010E02A3011802BC" "012202D5012C02EE0136030701400320"

#define P10 ":013E0101140005A6"
/* Error table 8 with all of its 21 rows. */
#define FOUR_ROWS(a, b, c, d) a "0001" b "0001" c "0001" d "0001"
#define ROWS_21 FOUR_ROWS("81", "82", "83", "84") FOUR_ROWS("85", "86", "87", "88") FOUR_ROWS("F0", "F1", "F2", "F3") \
    FOUR_ROWS("00", "01", "02", "03") FOUR_ROWS("10", "11", "12", "13") "80FFFF"

/* 23:59:30, weekday 7, day 31, month 12, year 99. */
#define CLOCK "1E3B17071F0C630000"

#define SHORT_BY(n) (-(long)(n))

const struct row rows[] = {
    {.name = "P1", .frame = ":0132CD", .reply = ":013200CD"},
    {.name = "P2", .frame = ":01330FBD", .reply = ":01330FBD", .laid = {{6, "0F"}}},
    {.name = "P3", .frame = ":0132CE", .number = 6},
    {.name = "P4", .frame = ":0132cD", .reply = ":013200CD"},
    {.name = "P5", .frame = ":0232CC", .number = 7},
    {.name = "P6", .frame = ":0153AC", .number = 8},
    {.name = "P7", .frame = ":013608C1", .number = 10},
    {.name = "P8", .frame = ":013C0901B9", .number = 10},
    {.name = "P9", .frame = ":013D01C1", .reply = ":013D010000C1"},
    {.name = "P10", .frame = P10, .reply = ":013E01C0", .laid = {{713, "01140005"}, {23801, "001A"}}},
    {.name = "P11", .before = P10, .frame = ":013F01BF", .reply = ":013F0101140005A5"},
    {.name = "P12", .before = P10, .frame = ":014001BE", .reply = ":014001001AA4"},
    {.name = "R1", .frame = ":014CFFB4", .reply = ":014CFFB4", .laid = {{7, "FF"}}},
    {.name = "R2", .frame = ":014C01B2", .number = 11},
    {.name = "R3", .frame = ":013607C2", .reply = ":013607" ZEROS_40 ZEROS_40 "000000" "C2"},
    {.name = "R4", .frame = ":013C0B0CAC", .number = 10},
    {.name = "R5", .spoilt = {5, "CE"}, .frame = ":CE3200", .reply = ":CE320000"},
    {.name = "R6", .frame = ":013E0102FF0000000000BF", .reply = ":013E01C0", .laid = {{713, "02FF"}, {23801, "0101"}}},
    {.name = "R7", .frame = ":013E0102000000FF0000BF", .number = 11},
    {.name = "R8", .frame = ":013E010214000014000096", .number = 11},
    {.name = "R9", .frame = ":013E01027F0000800000BF", .reply = ":013E01C0", .laid = {{713, "027F000080"}, {23801, "0101"}}},
    {.name = "R10", .frame = ":013E0102800000810000BD", .number = 11},
    {.name = "R11", .frame = ":013E0102810000800000BD", .reply = ":013E01C0", .laid = {{713, "0281000080"}, {23801, "0103"}}},
    {.name = "R12", .sealed = 1, .frame = ":01330FBD", .number = 16},
    {.name = "R13", .sealed = 1, .frame = ":0133CC", .number = 16},
    {.name = "R14", .sealed = 1, .frame = ":0153AC", .number = 8},
    {.name = "R15", .sealed = 1, .frame = ":013D01C1", .reply = ":013D010000C1"},

    /* every command that is not above, or with more to write, and what was written read back */
    {.name = "53", .frame = ":013500" GOOD "FA", .reply = ":0135CA", .laid = {{49, GOOD}, {23785, "06D0"}}},
    {.name = "54", .before = ":013500" GOOD "FA", .frame = ":013600C9", .reply = ":013600" GOOD "F9"},
    {.name = "55", .before = ":013500" GOOD "FA", .frame = ":013700C8", .reply = ":01370006D0F2"},
    {.name = "53 of channel 7", .frame = ":013507" GOOD "~", .reply = ":0135CA", .laid = {{630, GOOD}, {23799, "06D0"}}},
    {.name = "59", .frame = ":013B0C01" ROWS "5C", .reply = ":013B0C01B7", .laid = {{13897, ROWS}, {35, "0001"}, {23771, "1D5B"}}},
    {.name = "60", .before = ":013B0C01" ROWS "5C", .frame = ":013C0C01B6", .reply = ":013C0C01" ROWS "5B"},
    {.name = "61", .before = ":013B0C01" ROWS "5C", .frame = ":013D0CB6", .reply = ":013D0C1D5B3E"},
    {.name = "61 of table 2 when 12 is written", .before = ":013B0C01" ROWS "5C", .frame = ":013D02C0", .reply = ":013D020000C0"},
    {.name = "59 of the last part of the last table", .frame = ":013B120B" ROWS "~", .reply = ":013B120B~",
        .laid = {{23625, ROWS}, {47, "0400"}, {23783, "1D5B"}}},
    {.name = "59 of a part that is held", .before = ":013B0C01" ROWS "5C", .frame = ":013B0C01" ZEROS_128 "~", .reply = ":013B0C01B7",
        .laid = {{13897, ZEROS_128}, {23771, "0000"}}},
    {.name = "62 with 21 rows", .frame = ":013E0815" ROWS_21 "~", .reply = ":013E08~", .laid = {{1161, "15" ROWS_21}, {23815, "0ADD"}}},
    {.name = "63 with 21 rows", .before = ":013E0815" ROWS_21 "~", .frame = ":013F08~", .reply = ":013F0815" ROWS_21 "~"},
    {.name = "62 with a row in the place of 21", .before = ":013E0815" ROWS_21 "~", .frame = ":013E0801" "0F0009" "~", .reply = ":013E08~",
        .laid = {{1161, "010F0009" ZEROS_40 ZEROS_8 ZEROS_8 "00000000"}, {23815, "0019"}}},
    {.name = "64 of an error table never written", .frame = ":014008~", .reply = ":0140080000~"},
    {.name = "77", .frame = ":014D" CLOCK "~", .reply = ":014D~", .laid = {{8, CLOCK}}},
    {.name = "78", .before = ":014D" CLOCK "~", .frame = ":014E~", .reply = ":014E" CLOCK "~"},
    {.name = "small letters all over", .frame = ":014cffb4", .reply = ":014CFFB4", .laid = {{7, "FF"}}},
    {.name = "a signature that somebody else made false", .spoilt = {23753, "1234"}, .frame = ":013D01C1", .reply = ":013D0112347B"},

    /* 1: the image is not usable; all but the bytes that are judged may be anything */
    {.name = "no image", .image_by = SHORT_BY(IZK_IMAGE_LEN), .frame = ":0132CD", .number = 1},
    {.name = "an image of 1 byte", .image_by = 1 - (long)IZK_IMAGE_LEN, .frame = ":0132CD", .number = 1},
    {.name = "an image of 23,753 bytes", .image_by = SHORT_BY(64), .frame = ":0132CD", .number = 1},
    {.name = "an image a byte short", .image_by = SHORT_BY(1), .frame = ":0132CD", .number = 1},
    {.name = "an image a byte long", .image_by = 1, .frame = ":0132CD", .number = 1},
    {.name = "an image of 65,536 bytes", .image_by = LEND_MAX - IZK_IMAGE_LEN, .frame = ":0132CD", .number = 1},
    {.name = "a wrong first letter", .spoilt = {0, "48"}, .frame = ":0132CD", .number = 1},
    {.name = "a wrong second letter", .spoilt = {1, "7A"}, .frame = ":0132CD", .number = 1},
    {.name = "a wrong third letter", .spoilt = {2, "00"}, .frame = ":0132CD", .number = 1},
    {.name = "version 258", .spoilt = {3, "0102"}, .frame = ":0132CD", .number = 1},
    {.name = "version 1", .spoilt = {3, "0001"}, .frame = ":0132CD", .number = 1},
    {.name = "address 0", .spoilt = {5, "00"}, .frame = ":0032CE", .number = 1},
    {.name = "22 rows in error table 1", .spoilt = {713, "16"}, .frame = ":0132CD", .number = 1},
    {.name = "255 rows in error table 8", .spoilt = {1161, "FF"}, .frame = ":0132CD", .number = 1},
    {.name = "21 rows in error table 8", .spoilt = {1161, "15"}, .frame = ":0132CD", .reply = ":013200CD"},
    {.name = "a twelfth part of table 1", .spoilt = {17, "0800"}, .frame = ":0132CD", .number = 1},
    {.name = "a sixteenth part of table 18", .spoilt = {47, "8000"}, .frame = ":0132CD", .number = 1},
    {.name = "eleven parts of table 18", .spoilt = {47, "07FF"}, .frame = ":0132CD", .reply = ":013200CD"},

    /* 2, and outputs of more than is asked */
    {.name = "no output", .out_by = SHORT_BY(IZK_OUT_MIN), .frame = ":0132CD", .number = 2},
    {.name = "an output of 11 bytes", .out_by = SHORT_BY(258), .frame = ":0132CD", .number = 2},
    {.name = "an output a byte short", .out_by = SHORT_BY(1), .frame = ":0132CD", .number = 2},
    {.name = "an output a byte long", .out_by = 1, .frame = ":013C0C01B6", .reply = ":013C0C01" ZEROS_128 "B6"},
    {.name = "an output of 65,536 bytes", .out_by = LEND_MAX - IZK_OUT_MIN, .frame = ":0132CD", .reply = ":013200CD"},

    /* 3 and 4; every length and every character are in checks.c */
    {.name = "no frame", .number = 3},
    {.name = "a byte before a frame", .frame = " :0132CD\r\n", .as_is = 10, .number = 3},
    {.name = "a frame that ends with 0Ah alone", .frame = ":0132CD\n", .as_is = 8, .number = 3},
    {.name = "a body of 2 bytes", .frame = ":01FF", .number = 3},
    {.name = "a body of 134 bytes", .frame = ":013B0C01" ROWS "00~", .number = 3},
    {.name = "another first byte", .frame = ";0132CD", .number = 4},
    {.name = "another last byte", .frame = ":0132CD\r\r", .as_is = 9, .number = 4},
    {.name = "another last byte but one", .frame = ":0132CD\n\n", .as_is = 9, .number = 4},

    /* 9, 10 and 11 of each command that can have them */
    {.name = "51 with no mask", .frame = ":0133~", .number = 9},
    {.name = "50 with a mask", .frame = ":013200~", .number = 9},
    {.name = "59 a byte short", .frame = ":013B0C" ROWS "~", .number = 9},
    {.name = "62 with no rows", .frame = ":013E0100~", .number = 9},
    {.name = "62 with a row and a byte", .frame = ":013E010114000500~", .number = 9},
    {.name = "62 that counts 2 and has 1", .frame = ":013E0102140005~", .number = 10},
    {.name = "62 of error table 0", .frame = ":013E0001140005~", .number = 10},
    {.name = "63 of error table 9", .frame = ":013F09~", .number = 10},
    {.name = "64 of error table 0", .frame = ":014000~", .number = 10},
    {.name = "53 of channel 8", .frame = ":013508" GOOD "~", .number = 10},
    {.name = "55 of channel 8", .frame = ":013708~", .number = 10},
    {.name = "59 of table 10", .frame = ":013B0A01" ROWS "~", .number = 10},
    {.name = "59 of part 0", .frame = ":013B0C00" ROWS "~", .number = 10},
    {.name = "60 of table 19", .frame = ":013C1301~", .number = 10},
    {.name = "61 of table 0", .frame = ":013D00~", .number = 10},
    {.name = "53 of composition 0", .frame = ":013500" CONSTANTS("00", "00") "~", .number = 11},
    {.name = "53 of composition 14", .frame = ":013500" CONSTANTS("0E", "00") "~", .number = 11},
    {.name = "53 with a reserve of 1", .frame = ":013500" CONSTANTS("06", "01") "~", .number = 11},
    {.name = "77 with second 60", .frame = ":014D3C3B17071F0C630000~", .number = 11},
    {.name = "77 with weekday 0", .frame = ":014D1E3B17001F0C630000~", .number = 11},
    {.name = "77 with a last byte of 1", .frame = ":014D1E3B17071F0C630001~", .number = 11},

    /* one call that fails everything, mended check by check */
    {.name = "all wrong", .spoilt = {5, "00"}, .out_by = SHORT_BY(1), .frame = "x", .as_is = 1, .sealed = 1, .number = 1},
    {.name = "all but 1 wrong", .out_by = SHORT_BY(1), .frame = "x", .as_is = 1, .sealed = 1, .number = 2},
    {.name = "all from 3 on wrong", .frame = "x", .as_is = 1, .sealed = 1, .number = 3},
    {.name = "all from 4 on wrong", .frame = "x0233xyzz", .as_is = 9, .sealed = 1, .number = 4},
    {.name = "all from 5 on wrong", .frame = ":0233xy", .sealed = 1, .number = 5},
    {.name = "all from 6 on wrong", .frame = ":023300", .sealed = 1, .number = 6},
    {.name = "all from 7 on wrong", .frame = ":0234~", .sealed = 1, .number = 7},
    {.name = "8 and no length of a command", .frame = ":013408~", .sealed = 1, .number = 8},
    {.name = "16 and all from 9 on wrong", .frame = ":013508" CONSTANTS("00", "01") "00~", .sealed = 1, .number = 16},
    {.name = "16 and all from 10 on wrong", .frame = ":013508" CONSTANTS("00", "01") "~", .sealed = 1, .number = 16},
    {.name = "all from 9 on wrong", .frame = ":013508" CONSTANTS("00", "01") "00~", .number = 9},
    {.name = "all from 10 on wrong", .frame = ":013508" CONSTANTS("00", "01") "~", .number = 10},
    {.name = "11 alone wrong", .frame = ":013507" CONSTANTS("00", "01") "~", .number = 11},
};

const size_t rows_n = sizeof rows / sizeof rows[0];

const struct question questions[] = {
    {.name = "one part", .parts = "0C01", .table = 12, .held = 1, .missing = 2},
    {.name = "table 2 when 12 has parts", .parts = "0C010C020C03", .table = 2, .missing = 1},
    {.name = "three parts", .parts = "0C010C020C03", .table = 12, .held = 3, .missing = 4},
    {.name = "table 12 when 2 has parts", .parts = "020102020203", .table = 12, .missing = 1},
    {.name = "the first missing", .parts = "0202020B", .table = 2, .held = 2, .missing = 1},
    {.name = "one in the middle missing", .parts = "010B010A0109010801070105010401030102" "0101", .table = 1, .held = 10, .missing = 6},
    {.name = "a part written twice", .parts = "08010801", .table = 8, .held = 1, .missing = 2},
    {.name = "eleven, one of them twice", .parts = "120112021203120412051206120712081209120A120B1204", .table = 18, .held = 11},
    {.name = "the table before a full one", .parts = "120112021203120412051206120712081209120A120B", .table = 17, .missing = 1},
    {.name = "parts that somebody else marked", .spoilt = {33, "0401"}, .table = 11, .held = 2, .missing = 2},
    {.name = "no image", .image_by = SHORT_BY(IZK_IMAGE_LEN), .table = 1, .number = 1},
    {.name = "an image a byte short", .image_by = SHORT_BY(1), .table = 1, .number = 1},
    {.name = "an image a byte long", .image_by = 1, .table = 1, .number = 1},
    {.name = "an image of address 0", .spoilt = {5, "00"}, .table = 1, .number = 1},
    {.name = "an image of version 1", .spoilt = {3, "0001"}, .table = 1, .number = 1},
    {.name = "a twelfth part of another table", .spoilt = {47, "0FFF"}, .table = 1, .number = 1},
    {.name = "1 before 10", .spoilt = {5, "00"}, .table = 258, .number = 1},
};

const size_t questions_n = sizeof questions / sizeof questions[0];
