/*
 * Calls each function of spatecanter.h, gets each number from the library at its place, stands on both sides of
 * each limit, and lends null pointers with length 0. Prints what differs, and ends with 1 if anything does.
 */
#include <stdio.h>
#include <stdlib.h>
#include <string.h>

#include "spatecanter.h"

#define BYTES(...) (const uint8_t[]){__VA_ARGS__}, sizeof((const uint8_t[]){__VA_ARGS__})

static int differ;
/* Three numbers, of a reprint four. */
static size_t answer[4];
static uint8_t room[4096];

/* The last answer. */
static void expect(const char *what, size_t number, size_t place, size_t length)
{
    if (answer[0] == number && answer[1] == place && answer[2] == length)
        return;
    printf("%s: %zu at %zu, length %zu; expected %zu at %zu, length %zu\n", what, answer[0], answer[1], answer[2],
           number, place, length);
    differ = 1;
}

static void expect_true(const char *what, int is_true)
{
    if (is_true)
        return;
    printf("%s\n", what);
    differ = 1;
}

static const uint8_t tape[] = {0x40, 0xEF, 0x52, 0x4E, 0x01, 0xFC, 0x02, 0x49};
static const uint8_t end[] = {2, 0, 4, 0, 0, 0, 0};
static const uint8_t old_galley[] = {1, 0, 6, 0, 3, 0, 0, 2, 9, 6, 0, 0, 2, 0, 4, 0, 0, 0, 1};
static const uint8_t new_galley[] = {7, 0, 8, 0, 3, 0, 0, 0, 0, 2, 9, 6, 0, 0, 2, 0, 4, 0, 0, 0, 1};
static const int32_t no_width[128];

/* The tape's galley, its DVI file, that file's sheet, and the DVI file of the second edition. */
static uint8_t galley[29], dvi[59], sheet[46], dvi2[148];

static void make_files(void)
{
    sp_read_tape(tape, sizeof tape, 8, galley, sizeof galley, answer);
    expect("tape to galley", SP_ACCEPTED, 0, sizeof galley);
    sp_write_dvi(galley, sizeof galley, dvi, sizeof dvi, answer);
    expect("galley to DVI", SP_ACCEPTED, 0, sizeof dvi);
    sp_read_dvi(dvi, sizeof dvi, no_width, 128, sheet, sizeof sheet, answer);
    expect("DVI to sheet", SP_ACCEPTED, 0, sizeof sheet);
    sp_write_dvi2(galley, sizeof galley, dvi2, sizeof dvi2, answer);
    expect("galley to DVI of the second edition", SP_ACCEPTED, 0, sizeof dvi2);
}

static void refuse_tape(const char *what, const uint8_t *bytes, size_t length, size_t number, size_t place)
{
    sp_read_tape(bytes, length, 8, room, sizeof room, answer);
    expect(what, number, place, 0);
}

static void tapes(void)
{
    refuse_tape("illegal code", BYTES(0x40, 0xFF), SP_ILLEGAL_CODE, 1);
    refuse_tape("before initialize", BYTES(0xEF), SP_NOT_INITIALIZED, 0);
    refuse_tape("after stop", BYTES(0x40, 0x49, 0x01), SP_AFTER_STOP, 2);
    refuse_tape("parked", BYTES(0x40, 0xF0), SP_PARKED, 1);
    refuse_tape("no size", BYTES(0x40, 0xEF, 0x01), SP_NO_SIZE, 2);
    refuse_tape("out of range", BYTES(0x40, 0xEF, 0x48, 0xFE), SP_OUT_OF_RANGE, 3);
    refuse_tape("upper half", BYTES(0x40, 0xEF, 0x46, 0x52, 0x2E), SP_ABOVE_HALF, 4);
    refuse_tape("no stop", BYTES(0x40), SP_NO_STOP, 1);
    refuse_tape("after a cut", BYTES(0x40, 0x4B, 0xEF), SP_AFTER_CUT, 2);
    sp_read_tape(tape, sizeof tape, 8, room, sizeof galley - 1, answer);
    expect("room for a galley", SP_NO_GALLEY_ROOM, sizeof galley, 0);
    sp_read_tape(tape, sizeof tape, 5, room, sizeof room, answer);
    expect("no machine", SP_NO_MACHINE, 0, 0);
    sp_read_tape(tape, sizeof tape, 4, room, sizeof room, answer);
    expect("a tilt on the 4-font machine", SP_ILLEGAL_CODE, 3, 0);
}

/* The tape cut in two after `cut` bytes, with no word and no byte written beside the lent ones. */
static void cut_tape(size_t cut)
{
    uint64_t words[SP_TAPE_WORDS + 2];
    uint8_t joined[sizeof galley + 1] = {0};
    int32_t reach[2] = {7, 7};
    uint64_t fonts[2] = {7, 7};
    size_t at = 0;
    words[0] = words[SP_TAPE_WORDS + 1] = 7;
    sp_new_tape(words + 1);
    sp_start(words + 1, 8, answer);
    expect("start", SP_ACCEPTED, 0, 0);
    sp_feed(words + 1, tape, cut, joined, sizeof galley, answer);
    expect_true("first piece", answer[0] == SP_ACCEPTED);
    at += answer[2];
    sp_feed(words + 1, tape + cut, sizeof tape - cut, joined + at, sizeof galley - at, answer);
    expect_true("second piece", answer[0] == SP_ACCEPTED);
    at += answer[2];
    sp_close(words + 1, joined + at, 6, answer);
    expect("room for End", SP_NO_GALLEY_ROOM, 7, 0);
    sp_close(words + 1, joined + at, 7, answer);
    expect("close", SP_ACCEPTED, 0, 7);
    sp_extents(words + 1, reach, fonts);
    expect_true("the extents", reach[0] == 3 && reach[1] == 0 && fonts[0] == 4 && fonts[1] == 0);
    expect_true("the joined galley", memcmp(joined, galley, sizeof galley) == 0 && joined[sizeof galley] == 0);
    expect_true("the words beside", words[0] == 7 && words[SP_TAPE_WORDS + 1] == 7);
}

static void running_tapes(void)
{
    uint64_t words[SP_TAPE_WORDS];
    size_t cut;
    for (cut = 0; cut <= sizeof tape; cut++)
        cut_tape(cut);
    sp_new_tape(words);
    sp_feed(words, tape, sizeof tape, room, sizeof room, answer);
    expect("piece before a start", SP_NOT_STARTED, 0, 0);
    sp_close(words, room, sizeof room, answer);
    expect("close before a start", SP_NOT_STARTED, 0, 0);
    sp_start(words, 5, answer);
    expect("start of no machine", SP_NO_MACHINE, 0, 0);
    sp_start(words, 4, answer);
    expect("start of the 4-font machine", SP_ACCEPTED, 0, 0);
    sp_feed(words, tape, sizeof tape, room, sizeof room, answer);
    expect("a tilt in a piece", SP_ILLEGAL_CODE, 3, 0);
    sp_close(words, room, sizeof room, answer);
    expect("the refusal repeated", SP_ILLEGAL_CODE, 3, 0);
}

/* A character and a cut, as the header's loop meets them. */
static void one_by_one(void)
{
    static const int32_t expected[][5] = {{SP_ITEM_CHARACTER, 3, 0, 2, 9}, {SP_ITEM_CUT, 0, 0, 0, 0}, {0, 0, 0, 0, 0}};
    int32_t item[5] = {7, 7, 7, 7, 7};
    size_t at = 0, number = 0;
    for (;;) {
        sp_item_at(new_galley, sizeof new_galley, at, answer, item);
        expect_true("an item", number < 3 && memcmp(item, expected[number], sizeof item) == 0);
        if (answer[0] != SP_ACCEPTED)
            break;
        at += answer[2];
        number++;
    }
    expect("no item at End", SP_GALLEY_MALFORMED, sizeof new_galley - sizeof end, 0);
    expect_true("the number of items", number == 2);
    sp_item_at(new_galley, sizeof new_galley, SIZE_MAX, answer, item);
    expect("no item past the galley", SP_GALLEY_MALFORMED, SIZE_MAX, 0);
}

static void galleys(void)
{
    int32_t character[4] = {7, 7, 7, 7};
    sp_check_galley(galley, sizeof galley, answer);
    expect("check", SP_ACCEPTED, 0, 2);
    sp_read_back(galley, sizeof galley, 1, answer, character);
    expect("read back", SP_ACCEPTED, 0, 0);
    expect_true("the second character", character[0] == 3 && character[1] == 0 && character[2] == 2 && character[3] == 2);
    sp_read_back(galley, sizeof galley, 2, answer, character);
    expect("no such character", SP_NO_CHARACTER, 0, 0);
    expect_true("no character", character[0] == 0 && character[1] == 0 && character[2] == 0 && character[3] == 0);
    sp_check_galley(galley, sizeof galley - 1, answer);
    expect("malformed", SP_GALLEY_MALFORMED, 22, 0);
    one_by_one();
    sp_write_dvi(galley, sizeof galley, room, sizeof dvi - 1, answer);
    expect("room for a DVI file", SP_NO_DVI_ROOM, sizeof dvi, 0);
}

static void conversions(void)
{
    uint8_t made[sizeof new_galley];
    sp_galley_to_new(old_galley, sizeof old_galley, made, sizeof made, answer);
    expect("to new", SP_ACCEPTED, 0, sizeof new_galley);
    expect_true("the new galley", memcmp(made, new_galley, sizeof new_galley) == 0);
    sp_galley_to_new(old_galley, sizeof old_galley, made, sizeof new_galley - 1, answer);
    expect("room for a new galley", SP_NO_CONVERTED_ROOM, sizeof new_galley, 0);
    sp_galley_to_old(new_galley, sizeof new_galley, made, sizeof made, answer);
    expect("to old", SP_ACCEPTED, 0, sizeof old_galley);
    expect_true("the old galley", memcmp(made, old_galley, sizeof old_galley) == 0);
    sp_galley_to_old(new_galley, sizeof new_galley, made, sizeof old_galley - 1, answer);
    expect("room for an old galley", SP_NO_CONVERTED_ROOM, sizeof old_galley, 0);
}

static void punches(void)
{
    static const uint8_t punched[] = {0x40, 0xEF, 0x4E, 0x52, 0x01, 0xFC, 0x02, 0x49};
    uint8_t made[sizeof punched];
    sp_punch_tape(galley, sizeof galley, made, sizeof made, answer);
    expect("punch", SP_ACCEPTED, 0, sizeof punched);
    expect_true("the punched tape", memcmp(made, punched, sizeof punched) == 0);
    sp_punch_tape(galley, sizeof galley, made, sizeof made - 1, answer);
    expect("room for a tape", SP_NO_TAPE_ROOM, sizeof punched, 0);
}

static void reprints(void)
{
    uint8_t again[sizeof dvi], shown[sizeof sheet];
    sp_reprint(galley, sizeof galley, no_width, 0, again, sizeof again, shown, sizeof shown, answer);
    expect("reprint", SP_ACCEPTED, 0, sizeof sheet);
    expect_true("the length of its DVI file", answer[3] == sizeof dvi);
    expect_true("the reprint", memcmp(again, dvi, sizeof dvi) == 0 && memcmp(shown, sheet, sizeof sheet) == 0);
    sp_reprint(galley, sizeof galley, no_width, 127, again, sizeof again, shown, sizeof shown, answer);
    expect("reprint with widths", SP_WIDTHS_NOT_WHOLE, 0, 0);
    expect_true("no length of a DVI file", answer[3] == 0);
    sp_reprint(galley, sizeof galley, no_width, 0, again, sizeof again, shown, sizeof shown - 1, answer);
    expect("reprint without room", SP_NO_SHEET_ROOM, sizeof sheet, 0);
}

#define BOP 0x81, 0, 0, 0, 1, 0xFF, 0xFF, 0xFF, 0xFF

static void plain(void)
{
    uint8_t again[sizeof sheet];
    sp_read_dvi_plain(dvi, sizeof dvi, no_width, 128, again, sizeof again, answer);
    expect("DVI to sheet, the plain way", SP_ACCEPTED, 0, sizeof sheet);
    expect_true("the sheet again", memcmp(again, sheet, sizeof sheet) == 0);
    sp_read_dvi_plain(dvi, sizeof dvi, no_width, 0, again, sizeof again - 1, answer);
    expect("room for a sheet, the plain way", SP_NO_SHEET_ROOM, sizeof sheet, 0);
    sp_read_dvi_plain(BYTES(BOP, 0x84, 0x82), no_width, 0, room, sizeof room, answer);
    expect("end of page in a group", SP_ENTRIES_LEFT, 10, 0);
    sp_read_dvi_plain(NULL, 0, NULL, 0, NULL, 0, answer);
    expect("null DVI file, the plain way", SP_DVI_ENDS_EARLY, 0, 0);
}

static void refuse_xgp(const char *what, const uint8_t *bytes, size_t length, size_t number, size_t place)
{
    static const int32_t widths[SP_XGP_WIDTHS];
    sp_read_xgp(bytes, length, 40, widths, SP_XGP_WIDTHS, room, sizeof room, answer);
    expect(what, number, place, 0);
}

static void xgp_files(void)
{
    static const uint8_t shown[] = {5, 0, 4, 0, 0, 0, 1, 3, 0, 13, 0, 0, 0, 0, 0, 0, 0, 40, 0, 0, 0, 0, 65,
                                    3, 0, 13, 0, 0, 0, 7, 0, 0, 0, 40, 0, 0, 0, 0, 66, 2, 0, 4, 0, 0, 0, 3};
    int32_t widths[SP_XGP_WIDTHS] = {0};
    uint8_t made[sizeof shown];
    widths[65] = 7;
    widths[66] = INT32_MAX;
    sp_read_xgp(BYTES(65, 66), 40, widths, SP_XGP_WIDTHS, room, sizeof room, answer);
    expect("x leaves 32 bits", SP_OUT_OF_32_BITS, 1, 0);
    widths[66] = 9;
    sp_read_xgp(BYTES(65, 66), 40, widths, SP_XGP_WIDTHS, made, sizeof made, answer);
    expect("XGP to sheet", SP_ACCEPTED, 0, sizeof shown);
    expect_true("the sheet of an XGP file", memcmp(made, shown, sizeof shown) == 0);
    sp_read_xgp(BYTES(65, 66), 40, widths, SP_XGP_WIDTHS, made, sizeof made - 1, answer);
    expect("room for the sheet of an XGP file", SP_NO_SHEET_ROOM, sizeof shown, 0);
    sp_read_xgp(BYTES(65, 66), 40, widths, SP_XGP_WIDTHS - 1, made, sizeof made, answer);
    expect("three fonts and a part", SP_WIDTHS_NOT_WHOLE, 0, 0);
    widths[511] = -1;
    sp_read_xgp(BYTES(65, 66), 40, widths, SP_XGP_WIDTHS, made, sizeof made, answer);
    expect("a negative width", SP_NEGATIVE_WIDTH, 0, 0);
    refuse_xgp("backspace", BYTES(65, 8), SP_OUTSIDE_PART, 1);
    refuse_xgp("a reserved code", BYTES(65, 0, 127, 5), SP_RESERVED_CODE, 2);
    refuse_xgp("a column cut short", BYTES(127, 1, 32, 1), SP_CODE_CUT_SHORT, 0);
}

static void back(void)
{
    uint8_t again[sizeof galley], other[sizeof dvi];
    sp_dvi_to_galley(dvi, sizeof dvi, no_width, 0, again, sizeof again, answer);
    expect("DVI to galley", SP_ACCEPTED, 0, sizeof galley);
    expect_true("the galley again", memcmp(again, galley, sizeof galley) == 0);
    sp_dvi_to_galley(dvi, sizeof dvi, no_width, 0, again, sizeof again - 1, answer);
    expect("room for a galley again", SP_NO_GALLEY_ROOM, sizeof galley, 0);
    memcpy(other, dvi, sizeof dvi);
    other[14]++;
    sp_dvi_to_galley(other, sizeof other, no_width, 0, room, sizeof room, answer);
    expect("beside a target", SP_NO_GALLEY, 16, 0);
    sp_dvi_to_galley(other, sizeof other - 1, no_width, 0, room, sizeof room, answer);
    expect("beside a target, and a short postamble", SP_BAD_POSTAMBLE, 19, 0);
}

static void second_edition(void)
{
    uint8_t again[sizeof galley], other[sizeof dvi2];
    sp_write_dvi2(galley, sizeof galley, room, sizeof dvi2 - 1, answer);
    expect("room for DVI of the second edition", SP_NO_DVI_ROOM, sizeof dvi2, 0);
    sp_read_dvi2(dvi2, sizeof dvi2, again, sizeof again, answer);
    expect("DVI of the second edition to galley", SP_ACCEPTED, 0, sizeof galley);
    expect_true("the galley of the second edition", memcmp(again, galley, sizeof galley) == 0);
    sp_read_dvi2(dvi2, sizeof dvi2, again, sizeof again - 1, answer);
    expect("room for a galley of the second edition", SP_NO_GALLEY_ROOM, sizeof galley, 0);
    sp_read_dvi2(dvi2, sizeof dvi2 - 1, room, sizeof room, answer);
    expect("a 223 too few", SP_NOT_OURS, sizeof dvi2 - 1, 0);
    memcpy(other, dvi2, sizeof dvi2);
    other[1] = 3;
    sp_read_dvi2(other, sizeof other, room, sizeof room, answer);
    expect("another identification", SP_NOT_OURS, 0, 0);
    sp_write_dvi2(NULL, 0, NULL, 0, answer);
    expect("null galley for the second edition", SP_GALLEY_MALFORMED, 0, 0);
    sp_write_dvi2(galley, sizeof galley, NULL, 0, answer);
    expect("null buffer for the second edition", SP_NO_DVI_ROOM, sizeof dvi2, 0);
    sp_read_dvi2(NULL, 0, NULL, 0, answer);
    expect("null DVI file of the second edition", SP_NOT_OURS, 0, 0);
    sp_read_dvi2(dvi2, sizeof dvi2, NULL, 0, answer);
    expect("null buffer for its galley", SP_NO_GALLEY_ROOM, sizeof galley, 0);
}

static void refuse_dvi(const char *what, const uint8_t *bytes, size_t length, size_t number, size_t place)
{
    sp_read_dvi(bytes, length, no_width, 128, room, sizeof room, answer);
    expect(what, number, place, 0);
}

static void dvi_files(void)
{
    uint8_t pushes[9 + 201] = {BOP};
    memset(pushes + 9, 0x84, 201);
    refuse_dvi("command", BYTES(0x83), SP_BAD_COMMAND, 0);
    refuse_dvi("the file ends", BYTES(BOP), SP_DVI_ENDS_EARLY, 9);
    refuse_dvi("pointer", BYTES(0x81, 0, 0, 0, 1, 0, 0, 0, 0), SP_WRONG_OFFSET, 0);
    refuse_dvi("200 pushes", pushes, sizeof pushes - 1, SP_DVI_ENDS_EARLY, 209);
    refuse_dvi("201 pushes", pushes, sizeof pushes, SP_STACK_FULL, 209);
    refuse_dvi("pop", BYTES(BOP, 0x85), SP_STACK_EMPTY, 9);
    refuse_dvi("end of page", BYTES(BOP, 0x84, 0x82), SP_ENTRIES_LEFT, 10);
    refuse_dvi("character", BYTES(BOP, 0x88, 1), SP_CANNOT_SET, 9);
    refuse_dvi("overflow", BYTES(BOP, 0x8E, 0x7F, 0xFF, 0xFF, 0xFF, 0x91), SP_OUT_OF_32_BITS, 14);
    refuse_dvi("postamble", BYTES(BOP, 0x82, 0x83), SP_BAD_POSTAMBLE, 10);
    sp_read_dvi(dvi, sizeof dvi, no_width, 127, room, sizeof room, answer);
    expect("widths", SP_WIDTHS_NOT_WHOLE, 0, 0);
    sp_read_dvi(dvi, sizeof dvi, no_width, 0, room, sizeof sheet - 1, answer);
    expect("room for a sheet", SP_NO_SHEET_ROOM, sizeof sheet, 0);
}

static void lengths(void)
{
    uint64_t words[SP_TAPE_WORDS];
    uint8_t *zeros = calloc(SP_DVI2_LIMIT + 1, 1);
    if (!zeros)
        abort();
    sp_read_tape(zeros, SP_TAPE_LIMIT, 8, room, sizeof room, answer);
    expect("the longest tape", SP_NO_STOP, SP_TAPE_LIMIT, 0);
    sp_read_tape(zeros, SP_TAPE_LIMIT + 1, 8, room, sizeof room, answer);
    expect("a longer tape", SP_TAPE_TOO_LONG, 0, 0);
    sp_new_tape(words);
    sp_start(words, 8, answer);
    sp_feed(words, zeros, SP_TAPE_LIMIT, room, sizeof room, answer);
    expect("the longest piece", SP_ACCEPTED, 0, 0);
    sp_feed(words, zeros, 1, room, sizeof room, answer);
    expect("a piece more", SP_TAPE_TOO_LONG, 0, 0);
    refuse_xgp("a longer XGP file", zeros, SP_XGP_LIMIT + 1, SP_FILE_TOO_LONG, 0);
    zeros[SP_XGP_LIMIT - 1] = 8;
    refuse_xgp("the longest XGP file", zeros, SP_XGP_LIMIT, SP_OUTSIDE_PART, SP_XGP_LIMIT - 1);
    zeros[SP_XGP_LIMIT - 1] = 0;
    sp_check_galley(zeros, SP_GALLEY_LIMIT, answer);
    expect("the longest galley", SP_GALLEY_MALFORMED, 0, 0);
    sp_check_galley(zeros, SP_GALLEY_LIMIT + 1, answer);
    expect("a longer galley", SP_GALLEY_TOO_LONG, 0, 0);
    sp_galley_to_new(zeros, SP_OLD_GALLEY_LIMIT, room, sizeof room, answer);
    expect("the longest old galley", SP_GALLEY_MALFORMED, 0, 0);
    sp_galley_to_new(zeros, SP_OLD_GALLEY_LIMIT + 1, room, sizeof room, answer);
    expect("a longer old galley", SP_GALLEY_TOO_LONG, 0, 0);
    sp_read_dvi(zeros, SP_DVI_LIMIT, no_width, 0, room, sizeof room, answer);
    expect("the longest DVI file", SP_BAD_COMMAND, 0, 0);
    sp_read_dvi(zeros, SP_DVI_LIMIT + 1, no_width, 0, room, sizeof room, answer);
    expect("a longer DVI file", SP_FILE_TOO_LONG, 0, 0);
    sp_read_dvi2(zeros, SP_DVI2_LIMIT, room, sizeof room, answer);
    expect("the longest DVI file of the second edition", SP_NOT_OURS, 0, 0);
    sp_read_dvi2(zeros, SP_DVI2_LIMIT + 1, room, sizeof room, answer);
    expect("a longer DVI file of the second edition", SP_FILE_TOO_LONG, 0, 0);
    free(zeros);
}

static void items(void)
{
    uint8_t *cuts = malloc(3 * (SP_ITEM_LIMIT + 1) + sizeof end);
    size_t i;
    if (!cuts)
        abort();
    for (i = 0; i <= SP_ITEM_LIMIT; i++)
        memcpy(cuts + 3 * i, (const uint8_t[]){6, 0, 0}, 3);
    memcpy(cuts + 3 * i, end, sizeof end);
    sp_check_galley(cuts + 3, 3 * SP_ITEM_LIMIT + sizeof end, answer);
    expect("the most items", SP_ACCEPTED, 0, 0);
    sp_check_galley(cuts, 3 * (SP_ITEM_LIMIT + 1) + sizeof end, answer);
    expect("more items", SP_GALLEY_MALFORMED, 3 * SP_ITEM_LIMIT, 0);
    /* A cut has three bytes on a tape, and what comes before the first and after the last has three. */
    i = SP_TAPE_LIMIT / 3;
    sp_punch_tape(cuts + 3 * (SP_ITEM_LIMIT + 1 - (i - 1)), 3 * (i - 1) + sizeof end, room, sizeof room, answer);
    expect("the longest tape of cuts", SP_NO_TAPE_ROOM, 3 * i, 0);
    sp_punch_tape(cuts + 3 * (SP_ITEM_LIMIT + 1 - i), 3 * i + sizeof end, room, sizeof room, answer);
    expect("a longer tape of cuts", SP_PUNCHED_TOO_LONG, 0, 0);
    free(cuts);
}

/* A galley of one character at this height is checked, written and made old. */
static void height(uint32_t height, size_t checked, size_t written, size_t made_old)
{
    uint8_t one[] = {7, 0, 8, 0, 0, 0, 0, 0, 0, 2, 1, 2, 0, 4, 0, 0, 0, 1};
    int i;
    for (i = 0; i < 4; i++)
        one[5 + i] = (uint8_t)(height >> (24 - 8 * i));
    sp_check_galley(one, sizeof one, answer);
    expect_true("a height checked", answer[0] == checked);
    sp_write_dvi(one, sizeof one, room, sizeof room, answer);
    expect_true("a height written", answer[0] == written);
    sp_galley_to_old(one, sizeof one, room, sizeof room, answer);
    expect_true("a height made old", answer[0] == made_old);
}

static void heights(void)
{
    height(SP_DVI_HEIGHT_LIMIT, SP_ACCEPTED, SP_ACCEPTED, SP_ACCEPTED);
    height(SP_DVI_HEIGHT_LIMIT + 1, SP_ACCEPTED, SP_HEIGHT_TOO_GREAT, SP_HEIGHT_TOO_GREAT);
    height(SP_HEIGHT_LIMIT, SP_ACCEPTED, SP_HEIGHT_TOO_GREAT, SP_HEIGHT_TOO_GREAT);
    height(SP_HEIGHT_LIMIT + 1, SP_GALLEY_MALFORMED, SP_GALLEY_MALFORMED, SP_GALLEY_MALFORMED);
}

/* Characters of font numbers 2 and 17, leads of 31 forward and 1 backward, and a page that ends by a cut. */
static const uint8_t lead_tape[] = {0x40, 0xEF, 0x52, 0x4E, 0x01, 0x60, 0x4B, 0x40, 0xEF, 0x02, 0x7E, 0x4C, 0x7E, 0x49};

static void count(const char *what, const uint8_t *bytes, size_t length, uint32_t machine, uint64_t *report)
{
    sp_count_tape(bytes, length, machine, report, answer);
    expect(what, SP_ACCEPTED, 0, 0);
}

static void reports(void)
{
    static uint64_t report[SP_REPORT_WORDS], expected[SP_REPORT_WORDS];
    size_t number;
    count("a tape counted", tape, sizeof tape, 8, report);
    count("leads counted", lead_tape, sizeof lead_tape, 8, report);
    count("a refused tape counted", BYTES(0x40, 0xEF, 0x52, 0x01, 0x60, 0xFF), 8, report);
    count("an empty tape counted", NULL, 0, 4, report);
    count("no machine counted", tape, sizeof tape, 5, report);
    expected[SP_REPORT_TAPES] = 5;
    expected[SP_REPORT_ACCEPTED] = 2;
    expected[SP_REPORT_REFUSED + SP_ILLEGAL_CODE] = 1;
    expected[SP_REPORT_REFUSED + SP_NO_STOP] = 1;
    expected[SP_REPORT_NO_MACHINE] = 1;
    expected[SP_REPORT_FONTS + 2] = 3;
    expected[SP_REPORT_FONTS + 17] = 1;
    expected[SP_REPORT_FORWARD] = 32;
    expected[SP_REPORT_BACKWARD] = 1;
    expect_true("a report of five tapes", memcmp(report, expected, sizeof report) == 0);
    for (number = 5; number < SP_REPORT_LIMIT; number++)
        sp_count_tape(NULL, 0, 8, report, answer);
    expect("the last tape of a report", SP_ACCEPTED, 0, 0);
    memcpy(expected, report, sizeof report);
    sp_count_tape(tape, sizeof tape, 5, report, answer);
    expect("one tape more", SP_REPORT_FULL, 0, 0);
    expect_true("a full report", memcmp(report, expected, sizeof report) == 0);
}

static void nulls(void)
{
    int32_t character[4], item[5];
    uint64_t words[SP_TAPE_WORDS];
    sp_new_tape(words);
    sp_start(words, 8, answer);
    sp_feed(words, NULL, 0, NULL, 0, answer);
    expect("null piece", SP_ACCEPTED, 0, 0);
    sp_feed(words, tape, sizeof tape, NULL, 0, answer);
    expect("null buffer for a piece", SP_NO_GALLEY_ROOM, 22, 0);
    sp_close(words, NULL, 0, answer);
    expect("null buffer for End", SP_NO_STOP, 0, 0);
    sp_read_tape(NULL, 0, 8, NULL, 0, answer);
    expect("null tape", SP_NO_STOP, 0, 0);
    sp_read_tape(tape, sizeof tape, 8, NULL, 0, answer);
    expect("null buffer for a galley", SP_NO_GALLEY_ROOM, sizeof galley, 0);
    sp_check_galley(NULL, 0, answer);
    expect("null galley", SP_GALLEY_MALFORMED, 0, 0);
    sp_read_back(NULL, 0, 0, answer, character);
    expect("null galley read back", SP_GALLEY_MALFORMED, 0, 0);
    sp_item_at(NULL, 0, 0, answer, item);
    expect("an item of a null galley", SP_GALLEY_MALFORMED, 0, 0);
    sp_write_dvi(NULL, 0, NULL, 0, answer);
    expect("null galley written", SP_GALLEY_MALFORMED, 0, 0);
    sp_write_dvi(galley, sizeof galley, NULL, 0, answer);
    expect("null buffer for a DVI file", SP_NO_DVI_ROOM, sizeof dvi, 0);
    sp_read_dvi(NULL, 0, NULL, 0, NULL, 0, answer);
    expect("null DVI file", SP_DVI_ENDS_EARLY, 0, 0);
    sp_read_dvi(dvi, sizeof dvi, NULL, 0, room, sizeof room, answer);
    expect("null widths", SP_ACCEPTED, 0, sizeof sheet);
    sp_read_dvi(dvi, sizeof dvi, NULL, 0, NULL, 0, answer);
    expect("null buffer for a sheet", SP_NO_SHEET_ROOM, sizeof sheet, 0);
    sp_dvi_to_galley(NULL, 0, NULL, 0, NULL, 0, answer);
    expect("null DVI file to a galley", SP_DVI_ENDS_EARLY, 0, 0);
    sp_dvi_to_galley(dvi, sizeof dvi, NULL, 0, NULL, 0, answer);
    expect("null buffer for a galley again", SP_NO_GALLEY_ROOM, sizeof galley, 0);
    sp_read_xgp(NULL, 0, 0, NULL, 0, NULL, 0, answer);
    expect("null XGP file and widths", SP_WIDTHS_NOT_WHOLE, 0, 0);
    sp_reprint(NULL, 0, NULL, 0, NULL, 0, NULL, 0, answer);
    expect("null galley reprinted", SP_GALLEY_MALFORMED, 0, 0);
    sp_reprint(galley, sizeof galley, NULL, 0, NULL, 0, NULL, 0, answer);
    expect("null buffers for a reprint", SP_NO_DVI_ROOM, sizeof dvi, 0);
    sp_reprint(galley, sizeof galley, NULL, 0, room, sizeof dvi, NULL, 0, answer);
    expect("null buffer for a reprint's sheet", SP_NO_SHEET_ROOM, sizeof sheet, 0);
    sp_punch_tape(NULL, 0, NULL, 0, answer);
    expect("null galley punched", SP_GALLEY_MALFORMED, 0, 0);
    sp_punch_tape(galley, sizeof galley, NULL, 0, answer);
    expect("null buffer for a tape", SP_NO_TAPE_ROOM, 8, 0);
    sp_galley_to_new(NULL, 0, NULL, 0, answer);
    expect("null old galley", SP_GALLEY_MALFORMED, 0, 0);
    sp_galley_to_new(old_galley, sizeof old_galley, NULL, 0, answer);
    expect("null buffer for a new galley", SP_NO_CONVERTED_ROOM, sizeof new_galley, 0);
    sp_galley_to_old(NULL, 0, NULL, 0, answer);
    expect("null new galley", SP_GALLEY_MALFORMED, 0, 0);
    sp_galley_to_old(new_galley, sizeof new_galley, NULL, 0, answer);
    expect("null buffer for an old galley", SP_NO_CONVERTED_ROOM, sizeof old_galley, 0);
}

int main(void)
{
    expect_true("the version", sp_version() == SP_VERSION);
    make_files();
    tapes();
    running_tapes();
    galleys();
    conversions();
    punches();
    reprints();
    dvi_files();
    plain();
    xgp_files();
    back();
    second_edition();
    lengths();
    items();
    heights();
    reports();
    nulls();
    return differ;
}
