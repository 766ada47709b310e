//! The texts of --help, of which the manual page is made too.

use crate::commands::Command;

/// A command's text, with its options.
pub fn of(command: &Command) -> String {
    let spelled: Vec<(String, &str)> =
        command.told_flags().map(|flag| (flag.spelled(), flag.about)).collect();
    let width = spelled.iter().map(|(names, _)| names.len()).max().unwrap_or(0);
    let rows = spelled.iter().map(|(names, about)| format!("  {names:<width$}  {about}\n"));
    format!("{}\nOptions:\n{}", text(command), rows.collect::<String>())
}

/// A command's text.
pub fn text(command: &Command) -> String {
    let many = if command.takes_many() { MANY } else { "" };
    format!("{}{many}", command.help)
}

/// What is said of a command that takes many inputs.
const MANY: &str = "
Many inputs, and folders, are taken as spatecanter --help says under Many at once.
";

/// What a command does, in a few words: the end of its line in the whole text.
pub fn about(command: &Command) -> &'static str {
    let mut lines = WHOLE.lines().filter_map(|line| line.strip_prefix("  ")?.split_once(' '));
    let (_, line) = lines.find(|(name, _)| *name == command.name).expect("every command has a line");
    line.rsplit_once("  ").expect("two spaces stand before the words").1
}

pub const WHOLE: &str = "\
C/A/T phototypesetter tapes to galleys, galleys to DVI files of 1980 and of the second
edition, and DVI files to sheets and back to galleys; galleys back to tapes, and old galleys
to new ones and back; and reports over many tapes.

Usage: spatecanter COMMAND ...

  read TAPE... [-o GALLEY]              a tape to a galley
  check GALLEY...                       is this a galley, and of how many characters?
  list TAPE|GALLEY [--format csv]       a line for each character: place, font, size and code
  text TAPE|GALLEY --codes FILE         the pages as text, each figure at its place
  set GALLEY... [--edition 2] [-o DVI]  a galley to a DVI file
  show DVI... [--widths FILE]           a DVI file to a sheet
  back DVI... [--widths FILE]           a DVI file back to its galley
  xgp XGP... --spacing N --widths FILE  a file of XGP character mode to a sheet
  sheet SHEET                           a sheet as text
  reprint TAPE... -d FOLDER             a tape to galley, DVI file and sheet, with a summary
  plot TAPE|GALLEY|SHEET... [-o SVG]    a picture of the pages
  index PATH... -d FOLDER               pictures of many, and a page of HTML that shows them small
  punch GALLEY... [-o TAPE]             a galley to a tape of the 8-font machine
  convert --to new|old GALLEY...        an old galley to a new one, or back
  compare TAPE|GALLEY TAPE|GALLEY       do two set the same pages, and where do they differ?
  report PATH... [--tapes]              many tapes in numbers

  COMMAND --help                        more about a command
  --version, -V                         the version, and the library's and toolchain's identity
  --generate man|bash|zsh|fish          the manual page, or a shell's completions

Machines. A tape does not say whether its machine had 4 or 8 fonts: commands that take tapes
take --machine 4 or --machine 8. Without it the machine has 8, and a tape without a tilt code
gives a hint, since it may be of the other.

DVI files are of 1980, which printers no longer take, or of the second edition, which DVItype
describes: set and reprint write it with --edition 2, and back reads both.

Old galleys. Characters once had tag 1, and heights of two bytes. Only convert takes such a
galley; all other commands take and make the new form, with tag 7 and four bytes.

Files. - is standard input or standard output. Without -o the output has the input's whole
name with .galley, .dvi, .sheet, .svg or .tape after it; if the input is standard input, the
output is standard output. Folders on the way to an output are made. An output file is
written whole or not at all, whatever ends the run; it never takes the place of an input, and
that of another file only with --force.

Standard error. A line tells of each output file; -q leaves it out, and hints, and -v tells
each step and its time. Refusals and failures are always told.

Many at once. Where ... stands after an input, there may be many, and folders among them: the
files in a folder and in those below it, by name, but for names that start with a dot; with
--ending .tape only those whose names end so. The outputs go to the folder of -d, and stand
there as the inputs stand in theirs; without -d those of files stand beside them. If two inputs
would write one output, nothing is done. Each input is done by itself, on -j N threads, or on as
many as there are processors. Standard output has a line for each, in the inputs' order:
accepted, and what it holds; refused, with number and place; or why it could not be read or
written. The last line counts them. With --dry-run no file is written.

Exit status. 0: accepted, also where whoever reads standard output leaves early. 1: refused,
or two inputs differ; standard error says why, with the refusal's number and its place.
2: wrong usage, or a file that cannot be read or written. Of many inputs the worst counts.
";

pub const READ: &str = "\
Reads a C/A/T tape and writes its galley: every character with its place, font and size, and
every cut between pages.

Usage: spatecanter read TAPE... [--machine 4|8] [--pieces N] [-o GALLEY|-d FOLDER] [--force]

The machine that the tape was made for has 4 or 8 fonts; without --machine, 8. The tape does
not say which, but one without a tilt code (4E, 4F) may be of 4 fonts: a hint says so, unless
--machine is given. Rail and mag choose the font, on the 8-font machine with tilt, up or down:
  lower rail, lower mag   1 of 4, 1 or 2 of 8
  upper rail, lower mag   2 of 4, 3 or 4 of 8
  lower rail, upper mag   3 of 4, 5 or 6 of 8
  upper rail, upper mag   4 of 4, 7 or 8 of 8

A tape has at most 1,048,576 bytes. If it is refused, standard error tells the number, the
place, the byte there and its offset in hexadecimal, and what was expected.

Numbers, at the place of the byte unless another is said:
   1  the tape is longer than that; at 0
   2  illegal code (4D, 5F, FF; on the 4-font machine also the tilts, 4E and 4F)
   3  a code other than 00 before the first initialize
   4  a code other than 00 after stop
   5  while parked, a flash or an escape other than 16 forward
   6  a flash before any size
   7  the carriage would leave 0 to 3,239, or the height 0 to 1,000,000
   8  a flash above 45 in the upper half
   9  the tape ends without stop; at its length
  10  after a cut, a code other than 00 and initialize; or the tape ends there, then at its
      length

Where the galley goes to a file, standard error tells how many characters it has, the farthest
x and the greatest height, over all pages, and the fonts met, by name: C, the font, and the
points in two digits.

Standard input is read in pieces as they come, of at most 65,536 bytes: however long the tape
takes, only one piece is kept, and on a terminal a line tells how far it is. --pieces N does
the same for any input, with pieces of at most N bytes. The galley is the same, and so are
refusals. To standard output the fields of each piece go at once: if the tape is refused then,
a galley without its End is out, which every command refuses.

Without -o the galley of page.tape is page.tape.galley. --force writes over a file that is
there already.
";

pub const CHECK: &str = "\
Says whether a file is a galley, and how many characters it has.

Usage: spatecanter check GALLEY...

Numbers:
  40  the galley is longer than 11,534,343 bytes; at 0
  41  it is malformed; at the first bad field, at the first byte after End, or at the length
      if End is missing. More than 1,048,576 characters and cuts together are malformed too
";

pub const LIST: &str = "\
Lists the characters of a tape or of a galley, in the order in which they are set.

Usage: spatecanter list TAPE|GALLEY [--machine 4|8] [--codes FILE] [--format text|csv|json]
                        [-o FILE] [--force]

Without --format and --codes there is a line for each character and each cut, then the number
of characters. The columns are x (units of 1/432 inch), y (the height, in quanta of 1/144
inch), font (1 to 8), size (points) and char (the code, 1 to 108); the line of a cut is just
cut.

--format text has the columns page (counted from 1), x and height, both in inches too, font,
size and code, with heads, and the number of characters and pages at the end. --format csv has
the same columns, without the end. --format json is one object: pages, characters, and each
character in the list each.

--codes adds the character itself, from a code table as text has it; a character that the
table lacks is empty, in JSON null.

Tape and galley are told apart, and --machine is taken, as in plot. The list goes to standard
output, or to the file that -o names. Refusals are those of read and check.
";

pub const TEXT: &str = "\
Sets the pages of a tape or of a galley as text: each word and each figure at its place, on a
grid of columns and lines.

Usage: spatecanter text TAPE|GALLEY --codes FILE [--mark MARKS] [--machine 4|8] [--page N]
                        [-o FILE] [--force]

No tape says which character a code is. The code table does: a file of UTF-8 with a line for
each, which has the font (1 to 8), the code (1 to 108) and the character, as in
  1 72 0
  1 73 1
Blank lines and lines that start with # count for nothing, nor does what follows # after the
character. A table with another line, or with a code of a font twice, is not taken; standard
error tells the line.

--mark 2=~ puts ~ before each value in font 2, so that estimates are seen; --mark 2=~,4=* has
two. A mark is no letter, no figure and no character of the table.

A column of the grid is as wide as most characters are from one to the next, and figures stand
below one another by their last. Characters less than three quarters of an em apart are one
word. Lines that are farther apart than most have blank lines between them, at most 8. A
character on another is set in a line of its own below it, and one that the table lacks is
shown as \u{fffd}; standard error tells how many there are. A form feed stands between two
pages. With --page only that page is set, counted from 1.

Tape and galley are told apart, and --machine is taken, as in plot. The text goes to standard
output, or to the file that -o names. Refusals are those of read and check.
";

pub const SET: &str = "\
Writes a galley as a DVI file. Each cut ends a page and starts the next.

Usage: spatecanter set GALLEY... [--edition 1980|2] [-o DVI|-d FOLDER] [--force]

The file is of the edition of 1980; with --edition 2 it is of the second, with identification
2, as DVItype describes it. There a unit is 1/432 inch, and places are exact; the fonts are
C107 to C836, C with the font and the points in two digits.

Refusals are those of check, and in the edition of 1980, which holds heights of at most
65,535, one more:
  43  a greater height; at the field of the first such character

Without -o the DVI file of page.galley is page.galley.dvi. --force writes over a file that is
there already.
";

pub const SHOW: &str = "\
Reads a DVI file of 1980 and writes what it shows, as a sheet: pages, characters and rules.

Usage: spatecanter show DVI... [--widths FILE] [--plain|--check] [-o SHEET|-d FOLDER]
                        [--force]

The widths are 32-bit numbers, high byte first, 128 for each of the fonts 0, 1, ..., of at
most 65,536 fonts. Without them no character has a width, and the commands 0 to 127 are
refused; files made by set do not use them.

Numbers, at the place of the command unless another is said:
  20  the file is longer than 33,554,432 bytes; at 0
  31  the width table is not a whole number of fonts; at 0
  21  an undefined command, or one not allowed there
  22  the file ends inside a command; or inside a page or before PST, then at its length
  23  a wrong pointer to the page before
  24  a push onto 200 entries
  25  a pop of none
  26  a page ends with entries left
  27  a character with no font, outside 0 to 127, or without a width
  28  x or y leaves 32 bits
  29  the postamble is malformed or short

--plain reads the file another way: PUSH and POP as brackets, a run made of items, and an item
a command or a group. It gives the same for every file, and takes longer. --check reads the
file both ways and says that they agree, whether the file is accepted or refused.

Without -o the sheet of page.dvi is page.dvi.sheet. --force writes over a file that is there
already.
";

pub const BACK: &str = "\
Makes the galley whose targets a DVI file of 1980 shows, whoever made or edited the file, or
the galley of a DVI file of the second edition, which only set made. Either way a file that
set made gives back its galley, byte for byte.

Usage: spatecanter back DVI... [--widths FILE] [-o GALLEY|-d FOLDER] [--force]

The file's first byte tells its edition: 247 (F7) begins the second.

1980: there is such a galley, and only one, exactly if pages are numbered 1, 2, 3 on; there is no
rule; each character is 1 to 108 in a font 0 to 119, at the target of a height and of an x
that is valid in the font's size; and characters and cuts are at most 1,048,576.

--widths and the numbers 20 to 29 and 31 are those of show; they come first, for the whole
file. Then:
  45  a condition does not hold; at the first command that breaks one. Standard error tells
      what it shows, on which page, and what would have been right; for a place, the nearest

Second edition: the file has to be one that set --edition 2 makes. --widths is wrong usage.
  20  the file is longer than 67,108,864 bytes; at 0
  46  no file that set makes begins so; at the first command through which that holds, or at
      the length if the file ends early. Standard error tells the command and, where there is
      but one way to go on, what set would have put there

Without -o the galley of page.dvi is page.dvi.galley. --force writes over a file that is there
already.
";

pub const XGP: &str = "\
Reads a file of the Xerox Graphics Printer's character mode and writes what it shows, as a
sheet in dots and scan lines.

Usage: spatecanter xgp XGP... --spacing N --widths FILE [-o SHEET|-d FOLDER] [--force]

The file does not say its line spacing: N scan lines, 0 to 65,535. The widths are 32-bit
numbers, high byte first, in dots, none below 0: 128 for each of the fonts 0 to 3.

The codes that are read, in octal:
  0                       null, nothing
  1-7, 13, 16-176         the character; the next one stands its width to the right
  177, then 0, 11, 12,    the same of the second byte
    14, 15, 40-177
  12, 14, 15              LF, FF (the first line of the next page), CR (x = 0)
  177 1 0 to 177 1 3      font select, without a base-line adjustment
  177 1 40 H L            column select: x = 128 H + L
  177 1 43 N              base-line adjust: raised by N, in two's complement of seven bits
  177 2 N                 column increment, N the same
LF and FF leave x as it is. At the start the font is 0, x is 0, and the first line of a page
is one line spacing down. A page without characters is not shown, but counted.

Numbers, at the first byte of the code unless another is said:
  20  the file is longer than 33,554,432 bytes; at 0
  31  the widths are not those of four fonts; at 0
  63  a width is negative; at 0
  60  a code that is not read here: backspace (10), TAB (11), the scan line to start on (177
      3), a vector (177 4), underscore, line space, page number, heading, underlines and
      spacing (177 1, then 41, 42 or 44 to 50); or a byte above 127 (177 octal)
  61  a reserved code (177, then 5 to 10, 13 or 16 to 37; 177 1, then 4 to 37), or one that is
      not listed (177 1, then 51 to 177)
  62  the file ends inside a code
  28  x, the baseline or a character's y leaves 32 bits

sheet lists the sheet, and plot --dots draws it. Without -o the sheet of page.xgp is
page.xgp.sheet; where it goes to a file, standard error tells how many characters there are,
on how many pages, how far they reach, and their fonts. --force writes over a file that is
there already.
";

pub const SHEET: &str = "\
Lists a sheet as text, a line for each field.

Usage: spatecanter sheet SHEET

The lines are
  page NUMBER
  char X Y FONT CHAR
  rule vertical|horizontal X Y HEIGHT WIDTH
  end FIELDS
with places and sides in rsu, 1/65536 of a point of 1/72 inch, X to the right and Y down; of
an XGP file in dots and scan lines.
The text goes to standard output.
";

pub const REPRINT: &str = "\
Takes a tape all the way: TAPE to TAPE.galley, TAPE.dvi and TAPE.sheet in a folder.

Usage: spatecanter reprint TAPE... [--machine 4|8] [--fonts NAMES] [--edition 1980|2]
                           -d FOLDER [--force]

Prints a summary: characters, pages, the farthest x and the greatest height over all pages,
fonts, and how many characters are in font 1 and in font 2, since measured and estimated
values differ in nothing else. These two differ by tilt on the 8-font machine, by rail on the
4-font machine.

The yearbooks of the 8-font machine set measured values in font 1 and estimates in font 2,
and the summary says so. For other books --fonts names the fonts that are told apart, as in
--fonts 3=measured,4=estimated; with --fonts none they are fonts 1 and 2, without names.

With --edition 2 the DVI file is of the second edition, as of set, and is read back: it has to
give the galley. There is no sheet then.

The folder is made if it is missing. All files are written or none; from standard input
they are tape.galley, tape.dvi and tape.sheet. --force writes over files that are there
already.

--machine and refusals are those of read. A tape with a height above 65,535, which DVI of 1980
cannot hold, is refused too: 43, at a place in the galley that read makes of it.
";

pub const PLOT: &str = "\
Draws the pages below one another as an SVG picture: a small mark for each character at its
place, without letter shapes, and the rules of a sheet.

Usage: spatecanter plot TAPE|GALLEY|SHEET... [--machine 4|8] [--dots N] [--fonts NAMES]
                        [--codes FILE] [--page N] [--from HEIGHT] [--to HEIGHT] [--split]
                        [-o SVG|-d FOLDER] [--force]

Font 1 is dark blue and upright, font 2 orange and slanted, other fonts light grey; marks of
double sizes are larger, and characters that stand on another are framed. The legend tells
how many there are, and of which machine the tape is. --fonts is that of reprint: it says
which fonts are told apart, and what they mean. A colour may follow a name or a number, as in
--fonts 1=measured,2=estimated:#b00020,3=heads.

In a browser the pointer on a mark shows the figure or word that it belongs to: its font, its
size, its codes and its place, and with --codes, a code table as text has it, its characters.

A file that begins with byte 05 is read as a sheet, one with 02, 06 or 07 as a galley, any
other as a tape; none is taken for another. Byte 01 begins an old galley, which is refused:
convert it first. --machine is that of read; a galley or a sheet has its fonts already, and
does not record its machine: with --machine the legend names it. Refusals are those of read,
check and sheet.

A sheet does not say its measure. Without --dots its places are in rsu, as of a DVI file, and
its fonts 0 to 119 are those of a galley. With --dots N they are dots and scan lines, N to an
inch, as of an XGP file: fonts 0 and 1 are told apart, and blanks (40 octal) have small marks.
A page bears its number.

The picture has the size of the pages, with rulers in inches, but is scaled where it would be
higher than 32,767 pixels of 1/96 inch (341 inches), which many programs do not show. With
--page only that page is drawn, counted from 1. --from and --to draw a part of one page: its
heights in quanta of 1/144 inch, as list has them, or in inches, as in --from 12.5in.

Without -o the picture of page.tape is page.tape.svg. --force writes over a file that is there
already. --split draws each page into a file of its own: page.tape-1.svg, page.tape-2.svg, and
with zeros before the number where there are ten pages or more. In the name that -o gives, %d
is the number; without it the number comes before the ending.
";

pub const INDEX: &str = "\
Draws many tapes, galleys and sheets, and writes a page of HTML that shows their pictures
small, each with a link to the whole.

Usage: spatecanter index PATH... [--machine 4|8] [--list FILE] [--fonts NAMES] [--codes FILE]
                         [--ending ENDING] -d FOLDER [--force]

A path is a file, or a folder: all files in it and in the folders below are taken, but for
names that start with a dot. The pictures are those of plot, with the same options. That of
shelf/a.tape is FOLDER/a.tape.svg, and the small one, of its first page that shows something,
FOLDER/a.tape.small.svg; files in folders below stand in such folders again. The page is
FOLDER/index.html. It needs no script and no network, and the folder can be moved. --list is
that of report: tapes, each with its machine, which come first, under their paths in the list.

A file that is refused has its refusal in the place of a picture; the exit status is 0, as in
report. All files are written or none. --force writes over files that are there already.
";

pub const PUNCH: &str = "\
Punches a tape of the 8-font machine from a galley, to set its pages again. Reading the tape
gives the same galley, byte for byte.

Usage: spatecanter punch GALLEY... [-o TAPE|-d FOLDER] [--force]

The tape begins, and goes on after each cut, with initialize and an escape of 16. For each
character it has what the machine lacks of rail, mag, tilt, half and size, then the motions
sideways and up or down, the longest first, and the flash. It ends with stop.

Refusals are those of check, and one more:
  48  the tape would be longer than 1,048,576 bytes; at 0

Without -o the tape of page.galley is page.galley.tape. --force writes over a file that is
there already.
";

pub const CONVERT: &str = "\
Writes a galley of the old form in the new form, or back. Each character keeps its x, height,
font and number; order, cuts and End stay. There and back gives the same bytes.

Usage: spatecanter convert --to new|old GALLEY... [-o GALLEY|-d FOLDER] [--force]

The forms differ in the field of a character:
  old  01 00 06, x (2 bytes), height (2), font number (1), character (1)
  new  07 00 08, x (2 bytes), height (4), font number (1), character (1)

Numbers:
  40  the galley is longer than 9,437,191 bytes in the old form, 11,534,343 in the new; at 0
  41  it is malformed by the rules of its form; at a place as in check
  43  to the old form: a height above 65,535; at the field of the first such character

Without -o the new form of page.galley is page.galley.new.galley, its old form
page.galley.old.galley. --force writes over a file that is there already.
";

pub const COMPARE: &str = "\
Says whether two tapes or galleys set the same pages, and if not, where they differ.

Usage: spatecanter compare TAPE|GALLEY TAPE|GALLEY [--machine 4|8] [--order any]

Each input is a tape or a galley, told apart as in plot. Tapes with codes in different order
may well give the same galley: what is compared is what they set, not their bytes. The same
galley is told with its characters and pages, and the exit status is 0.

Else it is 1, and standard output has for each page that differs, counted from 1: how many
characters it has in either input; how many differ in font alone, which is all that tells
measured values from estimates; and the first difference, with place, font and character in
both. A character differs in font alone if the other page has one at its place with its
number, but in another font or size.

With --order any a page's characters are compared as a whole, whatever their order; the first
difference is then the uppermost. Two readings of one reel are compared this way too.

--machine and refusals are those of read and check; both tapes are of one machine.
";

pub const REPORT: &str = "\
Reads many tapes and tells in numbers what they hold. Nothing is written but the report, to
standard output.

Usage: spatecanter report PATH... [--machine 4|8] [--list FILE] [--format text|csv|json]
                          [--tapes] [--ending ENDING]

A path is a tape, or a folder: all files in it and in the folders below are tapes, but for
names that start with a dot; with --ending only those whose names end so. The machine of all is
that of --machine, without it 8. A list has a line for each tape, with its path and its machine,
as in shelf/3.tape 4; empty lines and lines that start with # count for nothing, and paths are
as on the command line. With --list no other path is needed; the tapes of the list come first.

The report has the tapes accepted, and refused under each number of read (50 for a machine in
the list other than 4 or 8); the characters of accepted tapes, for each font and size; and
their forward and backward lead, in quanta of 1/144 inch. Forward less backward lead is the
sum of the heights at which their pages ended. The order of the tapes makes no difference.

--tapes adds a line for each tape: its characters and pages, or its refusal with number and
place. --format text is the table for people that comes without it. --format csv has the columns count, of and value, with a line for each number and each
font number, 0 to 119; with --tapes it has instead a line for each tape, with the columns
path, machine, number, place, characters and pages. --format json is one object, with the
tapes in the list each if --tapes is given.

Refused tapes are counted, and the exit status is 0. The number is
  47  there are more than 65,536 tapes; at 0
";
