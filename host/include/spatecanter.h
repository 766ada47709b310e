/*
 * spatecanter.h: C/A/T phototypesetter tapes, whole or in pieces, to galleys, galleys to DVI files of 1980 and of
 * the second edition, and DVI files to sheets and back to galleys; galleys back to tapes, and old galleys to new
 * ones and back; and reports over many tapes. Link with libspatecanter.a, which the script `library` at the root of
 * the repository proves and builds in target/staticlib, or with what the script `install` installs: pkg-config
 * --cflags --libs spatecanter.
 *
 * Files of XGP character mode become sheets too.
 *
 * ANSWERS. Every function but sp_version, sp_new_tape and sp_extents fills `answer` with three numbers, sp_reprint
 * with a fourth:
 *
 *     answer[0]  number  0 if accepted, else the refusal's number (enum sp_number)
 *     answer[1]  place   0 if accepted, else where the input was refused
 *     answer[2]  length  the bytes written if accepted (sp_check_galley: the characters; sp_item_at: the bytes of
 *                        the item's field; sp_read_back and sp_count_tape: 0; sp_reprint: the bytes of the sheet),
 *                        else 0
 *     answer[3]  length  sp_reprint alone: the bytes of the DVI file if accepted, else 0
 *
 * An accepted call leaves the buffer beyond the bytes written as it was. A refused call changes no
 * byte of any buffer. To learn how long a buffer must be, call with a length of 0: if the input is good,
 * the answer is the refusal for room, and its place is the number of bytes needed.
 *
 * LENT MEMORY. A pointer and the length after it make one slice; the length counts bytes, for `widths`
 * 32-bit numbers. With length 0 the pointer may be null; `answer`, `character`, `item`, a running tape and a report
 * may not. A buffer that is written must not overlap anything else in the call. Nothing is allocated, kept or freed,
 * and no state is held between calls but a running tape or a report in the caller's array: any number of threads
 * may call at once, each with its own. A stack of 256 KB is enough.
 *
 * FORMATS. All numbers have the high byte first.
 *
 *   galley  a run of fields: tag (1 byte), length (2), body.
 *           character  tag 7, length 8: x (2, signed, units of 1/432 inch), height (4, quanta of 1/144
 *                      inch, 0 to SP_HEIGHT_LIMIT), font number (1), character 1 to 108 (1)
 *           cut        tag 6, length 0: the page ends and the next begins
 *           End        tag 2, length 4: the number of characters, cuts not counted; nothing follows
 *           At most SP_ITEM_LIMIT characters and cuts together.
 *           A font number is 15 x (font - 1) + size index, 0 to 119; fonts are 1 to 8, and the size
 *           indices 0 to 14 stand for 7 8 10 11 12 14 18 9 6 16 20 22 24 28 36 points. From index 9
 *           on sizes are double, with x from -55 to 3,184; in single sizes x is 0 to 3,239.
 *           A galley does not record its tape's machine; the 4-font machine's fonts are 1 to 4.
 *           The old form, which only sp_galley_to_new takes and sp_galley_to_old makes, differs in its
 *           characters: tag 1, length 6, height in 2 bytes, 0 to SP_DVI_HEIGHT_LIMIT.
 *   sheet   a run of fields as above. Places and sides are in rsu, 1/65536 of a point of 1/72 inch; of an XGP file
 *           in dots to the right and scan lines down.
 *           page       tag 5, length 4: its number
 *           character  tag 3, length 13: x, y, font (4 each), character (1)
 *           rule       tag 4, length 17: 0 vertical or 1 horizontal (1), x, y before the rule, height,
 *                      width (4 each)
 *           End        tag 2, length 4: the number of fields before it
 *   widths  128 signed numbers a font, in rsu, for fonts 0, 1, ... in order. Of a DVI file only the commands 0 to
 *           127 look there. Of an XGP file they are in dots, of fonts 0 to 3, and none is negative.
 *   XGP     character mode of the Xerox Graphics Printer, with bytes to 127. The part that is read stands with
 *           sp_read_xgp.
 *   report  SP_REPORT_WORDS numbers, all 0 before the first tape: each is a sum over the tapes counted,
 *           whatever their order. Where each stands is defined below.
 */

#ifndef SPATECANTER_H
#define SPATECANTER_H

#include <stddef.h>
#include <stdint.h>

#ifdef __cplusplus
extern "C" {
#endif

/* The version: 10,000 times the major number, 100 times the minor one, and the patch. */
#define SP_VERSION          100

/* The longest inputs that are taken, in bytes. */
#define SP_TAPE_LIMIT       1048576
#define SP_GALLEY_LIMIT     11534343
#define SP_OLD_GALLEY_LIMIT 9437191
#define SP_DVI_LIMIT        33554432
#define SP_DVI2_LIMIT       67108864 /* of the second edition */

/* The most characters and cuts, together, that a galley holds. */
#define SP_ITEM_LIMIT       1048576

/* The greatest height of a character, and the greatest that DVI of 1980 and the old form hold. */
#define SP_HEIGHT_LIMIT     1000000
#define SP_DVI_HEIGHT_LIMIT 65535

/* The longest XGP file, in bytes, and its widths, of four fonts. */
#define SP_XGP_LIMIT        33554432
#define SP_XGP_WIDTHS       512

/* The kinds of a galley's items. */
#define SP_ITEM_CHARACTER   1
#define SP_ITEM_CUT         2

/* The words of a running tape. */
#define SP_TAPE_WORDS       23

/* The most tapes that a report counts. */
#define SP_REPORT_LIMIT     65536

/* The words of a report, and where they stand. Characters and leads are those of accepted tapes alone. */
#define SP_REPORT_WORDS      135
#define SP_REPORT_TAPES      0   /* tapes counted */
#define SP_REPORT_ACCEPTED   1   /* tapes accepted */
#define SP_REPORT_REFUSED    1   /* plus a number, 1 to 10: tapes refused under it */
#define SP_REPORT_NO_MACHINE 12  /* tapes refused under 50 */
#define SP_REPORT_FONTS      13  /* plus a font number, 0 to 119: its characters */
#define SP_REPORT_FORWARD    133 /* forward lead, in quanta */
#define SP_REPORT_BACKWARD   134 /* backward lead, in quanta */

/* answer[0]; after the semicolon, what answer[1] then is. "Offset" counts bytes from 0. */
enum sp_number {
    SP_ACCEPTED          = 0,  /* accepted; 0 */

    /* Tapes */
    SP_TAPE_TOO_LONG     = 1,  /* tape over SP_TAPE_LIMIT; 0 */
    SP_ILLEGAL_CODE      = 2,  /* 4D, 5F or FF (hexadecimal), on the 4-font machine 4E or 4F too; the
                                  byte's offset */
    SP_NOT_INITIALIZED   = 3,  /* before the first initialize, another code than 00; the byte's offset */
    SP_AFTER_STOP        = 4,  /* after stop, another code than 00; the byte's offset */
    SP_PARKED            = 5,  /* parked: a flash, or an escape not forward 16; the byte's offset */
    SP_NO_SIZE           = 6,  /* a flash, and no size yet; the byte's offset */
    SP_OUT_OF_RANGE      = 7,  /* the carriage would leave 0 to 3,239, or the height 0 to
                                  SP_HEIGHT_LIMIT; the byte's offset */
    SP_ABOVE_HALF        = 8,  /* a flash above 45 in the upper half; the byte's offset */
    SP_NO_STOP           = 9,  /* the tape ends without stop; the tape's length */
    SP_AFTER_CUT         = 10, /* after a cut (4B), another code than 00 and initialize; the byte's offset.
                                  The tape ends after a cut and 00 alone; the tape's length */
    SP_NO_GALLEY_ROOM    = 12, /* buffer for the galley, or for the fields of a piece or End, too short; the
                                  bytes needed */
    SP_NOT_STARTED       = 13, /* a piece or a closing before any start or after an accepted closing; 0 */
    SP_NO_MACHINE        = 50, /* a machine other than 4 or 8; 0 */

    /* DVI files */
    SP_FILE_TOO_LONG     = 20, /* file over SP_DVI_LIMIT, or of the second edition over SP_DVI2_LIMIT; 0 */
    SP_BAD_COMMAND       = 21, /* an undefined command, or one not allowed there; its offset */
    SP_DVI_ENDS_EARLY    = 22, /* the file ends inside a command other than PST; the command's offset.
                                  It ends inside a page or before PST; the file's length */
    SP_WRONG_OFFSET      = 23, /* a BOP that names a wrong offset for the BOP before it; its offset */
    SP_STACK_FULL        = 24, /* a push onto 200 entries; the command's offset */
    SP_STACK_EMPTY       = 25, /* a pop of none; the command's offset */
    SP_ENTRIES_LEFT      = 26, /* an EOP with entries left; the command's offset */
    SP_CANNOT_SET        = 27, /* no font, HORZCHAR outside 0 to 127, or a command 0 to 127 whose
                                  character has no width; the command's offset */
    SP_OUT_OF_32_BITS    = 28, /* x or y leaves signed 32 bits; the command's offset */
    SP_BAD_POSTAMBLE     = 29, /* the postamble is malformed or short; PST's offset */
    SP_NO_SHEET_ROOM     = 30, /* sheet buffer too short; the bytes needed */
    SP_WIDTHS_NOT_WHOLE  = 31, /* the width table is not whole fonts of 128 numbers; 0 */
    SP_NOT_OURS          = 46, /* second edition: no file that sp_write_dvi2 makes begins with the bytes through
                                  a command; the offset of the first such command.
                                  The file ends early; its length */

    /* Galleys */
    SP_NO_CHARACTER      = 11, /* reading back: n is not below the number of characters; 0 */
    SP_GALLEY_TOO_LONG   = 40, /* galley over SP_GALLEY_LIMIT, or of the old form over
                                  SP_OLD_GALLEY_LIMIT; 0 */
    SP_GALLEY_MALFORMED  = 41, /* a bad field, one cut short included, or a character or cut past
                                  SP_ITEM_LIMIT; the first one's offset. No item at a place; that place.
                                  Bytes after End; the first one's offset.
                                  No End; the galley's length */
    SP_NO_DVI_ROOM       = 42, /* DVI buffer too short; the bytes needed */
    SP_HEIGHT_TOO_GREAT  = 43, /* to DVI of 1980 or the old form: a height over SP_DVI_HEIGHT_LIMIT; the offset of
                                  the first such character's field */
    SP_NO_CONVERTED_ROOM = 44, /* buffer for the converted galley too short; the bytes needed */
    SP_NO_GALLEY         = 45, /* from DVI to a galley: the file shows no galley's targets; the offset of the
                                  first command that breaks a condition (see sp_dvi_to_galley) */
    SP_PUNCHED_TOO_LONG  = 48, /* punching: the tape would be over SP_TAPE_LIMIT; 0 */
    SP_NO_TAPE_ROOM      = 49, /* tape buffer too short; the bytes needed */

    /* Reports */
    SP_REPORT_FULL       = 47, /* the report has SP_REPORT_LIMIT tapes already; 0 */

    /* XGP files; also 20 (over SP_XGP_LIMIT), 28 (x, the baseline or a character's y leaves signed 32 bits; the
       code's offset), 30 and 31 (the width table is not SP_XGP_WIDTHS numbers) */
    SP_OUTSIDE_PART      = 60, /* a code of character mode that is not read here, or one with a byte above 127;
                                  the code's offset */
    SP_RESERVED_CODE     = 61, /* a reserved or unlisted code; its offset */
    SP_CODE_CUT_SHORT    = 62, /* the file ends inside a code; its offset */
    SP_NEGATIVE_WIDTH    = 63  /* a negative width; 0 */
};

/* The version of the library that is linked: SP_VERSION of the header that it came with. */
uint32_t sp_version(void);

/*
 * Reads a tape and writes its galley. `machine` is 4 or 8, the number of fonts of the machine that the tape
 * was made for; the tape does not say. Rail and mag choose the font, on the 8-font machine with tilt:
 *
 *     rail   mag    4 fonts  8 fonts, tilt up and down
 *     lower  lower  1        1 and 2
 *     upper  lower  2        3 and 4
 *     lower  upper  3        5 and 6
 *     upper  upper  4        7 and 8
 *
 * Refusals: 1; then 50; then 2 to 10, of which the earliest place decides, and at one place the first of 2,
 * 3, 10, 4, 5, 6, 7, 8, 9; then 12. A galley has at most 11 bytes for each byte of tape, and 7.
 */
void sp_read_tape(const uint8_t *tape, size_t tape_len, uint32_t machine,
                  uint8_t *galley, size_t galley_len,
                  size_t answer[3]);

/*
 * Checks a galley; writes nothing. The length is its number of characters.
 * Refusals: 40; then 41.
 */
void sp_check_galley(const uint8_t *galley, size_t galley_len,
                     size_t answer[3]);

/*
 * Reads back character n of a galley, counted from 0 and without the cuts: character[0] is its x, [1] its
 * height, [2] its font number, [3] the character; all four are 0 in a refusal. The length is 0.
 * Refusals: 40; then 41; then 11. Each call checks the whole galley.
 */
void sp_read_back(const uint8_t *galley, size_t galley_len, size_t n,
                  size_t answer[3], int32_t character[4]);

/*
 * Tells the item whose whole field starts at the offset `at` of a galley: item[0] is its kind, SP_ITEM_CHARACTER or
 * SP_ITEM_CUT, and of a character item[1] is its x, [2] its height, [3] its font number, [4] the character. These
 * four are 0 for a cut, and all five in a refusal. The length is that of the field; the next one starts behind it.
 * Refusal: 41, at `at`, wherever no whole field of a valid character or a cut starts: at End, and past the galley
 * too. Only the field itself is looked at, so that each call takes the same time. This goes through a galley that
 * sp_check_galley accepts, and ends at End:
 *
 *     size_t at = 0;
 *     for (;;) {
 *         sp_item_at(galley, galley_len, at, answer, item);
 *         if (answer[0] != SP_ACCEPTED)
 *             break;
 *         ...
 *         at += answer[2];
 *     }
 */
void sp_item_at(const uint8_t *galley, size_t galley_len, size_t at,
                size_t answer[3], int32_t item[5]);

/*
 * Writes a galley as a DVI file of 1980. Its pages are numbered 1, 2, 3, ...: each cut ends a page and starts the
 * next, and an empty page is a page. DVI of 1980 holds heights to SP_DVI_HEIGHT_LIMIT only.
 * Refusals: 40; then 41; then 43; then 42.
 */
void sp_write_dvi(const uint8_t *galley, size_t galley_len,
                  uint8_t *dvi, size_t dvi_len,
                  size_t answer[3]);

/*
 * Reads a DVI file, with a table of widths, and writes what it shows as a sheet.
 * Refusals: 20; then 31; then 21 to 29, of which the earliest place decides, and at one place the
 * smaller number; then 30.
 */
void sp_read_dvi(const uint8_t *dvi, size_t dvi_len,
                 const int32_t *widths, size_t widths_len,
                 uint8_t *sheet, size_t sheet_len,
                 size_t answer[3]);

/*
 * The same by another way, to check the first: PUSH and POP are read as brackets, a run is made of items, and an item
 * is a command or a group. For every file, badly bracketed ones included, it gives what sp_read_dvi gives, to the
 * last byte.
 */
void sp_read_dvi_plain(const uint8_t *dvi, size_t dvi_len,
                       const int32_t *widths, size_t widths_len,
                       uint8_t *sheet, size_t sheet_len,
                       size_t answer[3]);

/*
 * Makes the galley whose targets a DVI file shows, whoever made the file. There is one exactly if
 *
 *     pages are numbered 1, 2, 3, ...; each after the first is a cut;
 *     there is no rule;
 *     each character is 1 to 108, in a font 0 to 119, which is the font number;
 *     its x is the target of an x that is valid in that font's size: the whole number nearest to
 *     32,768 x / 3, and its y 32,768 times a height;
 *     characters and cuts are at most SP_ITEM_LIMIT.
 *
 * Then there is only one. A file that sp_write_dvi made gives back its galley, byte for byte.
 * Refusals: 20; then 31; then 21 to 29 as in sp_read_dvi, over the whole file; then 45, at the first command that
 * breaks a condition: the BOP, the rule, the character, or whichever is one character or cut too many; then 12.
 * A galley has at most 11 bytes for each byte of the file.
 */
void sp_dvi_to_galley(const uint8_t *dvi, size_t dvi_len,
                      const int32_t *widths, size_t widths_len,
                      uint8_t *galley, size_t galley_len,
                      size_t answer[3]);

/*
 * Reads a file of XGP character mode, with the scan lines from one line to the next and the widths of four fonts, and
 * writes what it shows as a sheet. The codes that are read, in octal:
 *
 *     0                          null: nothing
 *     1 to 7, 13, 16 to 176      the character of this number in the current font; the next stands its width to
 *                                the right
 *     177, then 0, 11, 12, 14,   the same of the second byte
 *     15, 40 to 177
 *     12                         LF: the next line; x stays
 *     14                         FF: the first line of the next page; x stays
 *     15                         CR: to the left margin, x = 0
 *     177 1 0 to 177 1 3         font select; the base-line adjustment becomes 0
 *     177 1 40 H L               column select: x = 128 H + L
 *     177 1 43 N                 base-line adjust: y is N less than the line's, N in two's complement of 7 bits
 *     177 2 N                    column increment: x grows by N, N as above
 *
 * At the start font, x and adjustment are 0, and the line is at y = spacing, as the first of every page. A page field
 * stands before a page's first character; its number is one more than the FFs before it. There is no rule.
 * Refusals: 20; then 31; then 63; then 60, 61, 62 and 28, of which the earliest place decides, and at one place the
 * first of these; then 30. 60 has 10 and 11 (backspace and TAB), 177 3, 177 4, and 177 1 followed by 41, 42 or 44 to
 * 50; 61 has 177 followed by 5 to 10, 13 or 16 to 37, and 177 1 followed by 4 to 37 or 51 to 177.
 * A sheet has at most 16 bytes for each byte of the file, and 14.
 */
void sp_read_xgp(const uint8_t *file, size_t file_len, uint16_t spacing,
                 const int32_t *widths, size_t widths_len,
                 uint8_t *sheet, size_t sheet_len,
                 size_t answer[3]);

/*
 * Writes a galley as a DVI file and reads that file into a sheet, in one call. The answer has four numbers: the
 * third is the sheet's length, and the fourth the DVI file's.
 * Refusals: 31; then 40; then 41; then 43; then 42; then 30. A refusal changes neither buffer.
 */
void sp_reprint(const uint8_t *galley, size_t galley_len,
                const int32_t *widths, size_t widths_len,
                uint8_t *dvi, size_t dvi_len,
                uint8_t *sheet, size_t sheet_len,
                size_t answer[4]);

/*
 * Writes a galley as a DVI file of the second edition, with identification 2, as DVItype describes it. A unit is
 * 1/432 inch: numerator 254,000, denominator 432, magnification 1,000. The file has, in this order
 *
 *     pre        with an empty comment;
 *     bop        of each page, count 0 the page's number, 1, 2, 3, ..., the other nine 0; each cut ends a page and
 *                starts the next, and an empty page is a page;
 *     for each character, each command in its shortest form
 *                fnt_def1 where its font is new to the file: checksum 0, scaled and design size 6 units for each
 *                point, no area, name C, the font, and the points in two digits, as C108; then the font, if it is
 *                the page's first or differs from the last (fnt_num_0 to fnt_num_63, fnt1 from 64);
 *                right and down, where not 0, to x and to three times the height;
 *                put1;
 *     eop        of each page;
 *     post       with the greatest three times a height and the greatest x, both at least 0, stack depth 0, and the
 *                pages modulo 65,536; the definitions again, ascending; post_post; and the fewest 223, at least four,
 *                that make the length a multiple of four.
 *
 * Places are exact, at every height to SP_HEIGHT_LIMIT.
 * Refusals: 40; then 41; then 42. The longest file, of SP_ITEM_LIMIT cuts, has 48,234,596 bytes.
 */
void sp_write_dvi2(const uint8_t *galley, size_t galley_len,
                   uint8_t *dvi, size_t dvi_len,
                   size_t answer[3]);

/*
 * Reads a DVI file of the second edition back into its galley. It takes exactly the files that sp_write_dvi2 makes,
 * and no table of widths.
 * Refusals: 20; then 46; then 12. The place of 46 is the first command through which the file is no beginning of
 * one that sp_write_dvi2 makes; a definition in post and each 223 are commands too, and one that is cut short counts
 * as far as it goes. If every command could stand there but the file ends early, it is the file's length.
 */
void sp_read_dvi2(const uint8_t *dvi, size_t dvi_len,
                  uint8_t *galley, size_t galley_len,
                  size_t answer[3]);

/*
 * Punches a tape of the 8-font machine from a galley: initialize and an escape of 16 first and after each cut;
 * for each character what the machine lacks of rail, mag, tilt, half and size, the motions sideways and then up
 * or down, and the flash; stop last. Reading the tape gives the same galley.
 * Refusals: 40; then 41; then 48; then 49.
 */
void sp_punch_tape(const uint8_t *galley, size_t galley_len,
                   uint8_t *tape, size_t tape_len,
                   size_t answer[3]);

/*
 * Writes a galley of the old form in the new form: each character with its x, height, font number and
 * character, in order; cuts and End as they are. A character's 9 bytes become 11.
 * Refusals: 40; then 41, both by the rules of the old form; then 44.
 */
void sp_galley_to_new(const uint8_t *old_galley, size_t old_galley_len,
                      uint8_t *new_galley, size_t new_galley_len,
                      size_t answer[3]);

/*
 * Writes a galley in the old form, which holds heights to SP_DVI_HEIGHT_LIMIT only. There and back, either
 * way, gives the same bytes.
 * Refusals: 40; then 41; then 43; then 44.
 */
void sp_galley_to_old(const uint8_t *new_galley, size_t new_galley_len,
                      uint8_t *old_galley, size_t old_galley_len,
                      size_t answer[3]);

/*
 * THE RUNNING TAPE: a tape that comes in pieces. The caller keeps it in an array of SP_TAPE_WORDS words and lends
 * that to each call; it must not overlap anything else in the call. sp_new_tape sets it up; what the words hold
 * is the library's own. The functions promise this of an array that they alone have set; with any other array a
 * call answers, and a refusal changes no byte of the buffer.
 *
 * After an accepted start a tape may be cut into pieces at will, also into empty ones. Each piece's fields are
 * written into the buffer that is lent with it, without an End; closing writes End. With room for each piece and
 * for the close, the close gives the number and the place that sp_read_tape gives for the whole tape, and what
 * was written, joined, is its galley. A piece's fields have at most 11 bytes for each byte of it, End has 7.
 *
 * A piece or a closing refused for room (12) leaves the running tape as it was, and may be offered again. After
 * any other refusal of a piece or a closing each further one gets the same number and place, until a start.
 */

/* A running tape before any start. */
void sp_new_tape(uint64_t tape[SP_TAPE_WORDS]);

/*
 * Starts a running tape anew, whatever it was before, on the machine with 4 or 8 fonts. The length is 0.
 * Refusals: 50, which leaves the running tape as it was.
 */
void sp_start(uint64_t tape[SP_TAPE_WORDS], uint32_t machine,
              size_t answer[3]);

/*
 * Takes a piece of the tape and writes its fields. Places count from the tape's start.
 * Refusals: 13; then the refusal that is repeated; then 1, for the bytes of all pieces together; then 2 to 10 as
 * of sp_read_tape; then 12. Of a refused piece nothing is written.
 */
void sp_feed(uint64_t tape[SP_TAPE_WORDS], const uint8_t *piece, size_t piece_len,
             uint8_t *out, size_t out_len,
             size_t answer[3]);

/*
 * Closes the tape and writes End, 7 bytes. A new piece then needs a new start.
 * Refusals: 13; then the refusal that is repeated; then 10 or 9, at the number of bytes fed; then 12.
 */
void sp_close(uint64_t tape[SP_TAPE_WORDS],
              uint8_t *out, size_t out_len,
              size_t answer[3]);

/*
 * The extents of the characters gone out since the last accepted start, over all pages: reach[0] is the farthest
 * x, in units, and reach[1] the greatest height, in quanta, both at least 0; bit f of fonts[0] is set where font
 * number f was met, and bit f of fonts[1] where 64 + f was. A refused piece adds nothing, a close keeps them, a
 * start clears them.
 */
void sp_extents(const uint64_t tape[SP_TAPE_WORDS],
                int32_t reach[2], uint64_t fonts[2]);

/*
 * Counts a tape in a report, as sp_read_tape would answer with room enough; writes no galley. Whatever that
 * answer is, 1 and 50 too, the tape is counted under it and the call is accepted. `machine` is that of
 * sp_read_tape. Font counts add up to the characters in accepted galleys; forward less backward lead is the
 * sum of the heights at which accepted tapes' pages ended, by cut or stop.
 * Refusal: 47, before all others; the report stays as it is. A report that these calls did not make is
 * counted in all the same, each sum modulo 2^64.
 */
void sp_count_tape(const uint8_t *tape, size_t tape_len, uint32_t machine,
                   uint64_t report[SP_REPORT_WORDS],
                   size_t answer[3]);
#ifdef __cplusplus
}
#endif

#endif
