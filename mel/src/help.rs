//! What --help prints.

pub const MEL: &str = "\
mel lists, checks, unpacks and edits Crystallographic Binary Files (CBF, imgCIF).

  mel list FILE..              a line for each section (frame)
  mel check FILE..             reads the files and unpacks every frame
  mel unpack FILE SECTION      the pixels of a section, as .npy, raw, text or pgm
  mel replace FILE SECTION FRAME
                               puts another frame in, in place or to another file
  mel mask FILE SECTION --above N
                               masks pixels, in place or to another file
  mel catalogue FILE           the catalogue of a file
  mel explain [NUMBER..]       what a refusal means and what to do

  mel COMMAND --help           how a command is called
  mel --version                the version

FILE - is standard input. Sections are numbered from 1, as mel list shows them.
Options stand before or after the other words; -- ends them; --option=VALUE is
the same as --option VALUE.

Answers go to standard output, refusals to standard error, one line each, such as
  frames.cbf: refused 9 at 363: data cut short or closing wrong
Status: 0 done, 1 refused, 2 wrong call, 3 the system failed, 4 busy. With several
files the greatest of theirs.
";

pub const LIST: &str = "\
mel list [--json] FILE..

Prints a line for each section: number, position of the first octet (BASE64: of the
text), size in octets, elements, compression, type, and the name of the data block.
With more than one FILE each line starts with the file's name and ': '. A refused file
gets its line on standard error, and the others are listed.

  --json   an array with an object for each section instead: file, section, position,
           size, elements, compression, type, encoding, block, id (null where there is
           none), dimensions (fastest first, as in the headers), shape (slowest first,
           as numpy has it). In names, what is not UTF-8 is shown as U+FFFD.
";

pub const CHECK: &str = "\
mel check [-v] FILE..

Reads each file and unpacks every frame. Says nothing of good files. Each section
whose octets do not unpack gets a line with its number.

  -v, --verbose   a line for each file that could be read
";

pub const UNPACK: &str = "\
mel unpack FILE SECTION [--as FORM] [-o OUT]

Unpacks the pixels of a section.

  --as npy    numpy's file format, with the section's type and shape (the default)
  --as raw    little-endian numbers of the section's type, and nothing else
  --as text   a number a line
  --as pgm    an image of 16 bits to look at: the least pixel is black, the greatest
              white. Pixels below 0 and, in an unsigned type, those of the type's
              greatest value are taken as masked: they are black and do not count for
              the scale, unless the frame has no others. A third dimension is drawn
              one image below the other.
  -o, --output OUT
              writes to OUT, as a whole or not at all; standard output where it is not
              given or -. What is no text is not written to a terminal.
  --wait S    where OUT is there: how long another editor of it is waited for
              (seconds, default 10)
";

pub const REPLACE: &str = "\
mel replace FILE SECTION FRAME [--raw] [-n] [-o OUT] [--wait S]

Puts another frame in the place of a BINARY section's. The section keeps its type, ID
and dimensions and is written with byte-offset compression; every other byte of the
file stays as it is. FRAME (- is standard input) is a .npy file of integers of any
width and byte order in C order, with the section's shape or flat.

In place, FILE is locked, and the new file takes its name as a whole or not at all.
A FILE that nobody may write (no write bit in its mode) is not edited, by root neither.

  --raw       FRAME is little-endian numbers of the section's type
  -n, --dry-run
              says what would happen, and writes nothing
  -o, --output OUT
              writes the new file to OUT (- is standard output) and leaves FILE
  --wait S    how long another editor is waited for (seconds, default 10; 0: not)
";

pub const MASK: &str = "\
mel mask FILE SECTION --above N [--value V] [-n] [-o OUT] [--wait S]
mel mask FILE SECTION --mask M.npy [--value V] [-n] [-o OUT] [--wait S]

Masks pixels of a BINARY section: unpacks, masks and replaces in one locked step, as
mel replace does, and prints how many pixels were masked. Where no pixel changes, the
file stays as it is, its old headers too.

  --above N   masks the pixels above N
  --mask M.npy
              masks the pixels where the array M (truth values or integers, the
              section's shape or flat; - is standard input) is not 0
  --value V   what masked pixels get. Default: what is customary for the section's
              type, -1 where it is signed, the greatest value where it is unsigned
              (u8 255, u16 65535, u32 4294967295)
  -n, --dry-run
              says what would happen, and writes nothing
  -o, --output OUT
              writes the new file to OUT (- is standard output) and leaves FILE
  --wait S    how long another editor is waited for (seconds, default 10; 0: not)
";

pub const CATALOGUE: &str = "\
mel catalogue FILE [-o OUT]

Writes the catalogue of a file: 8 bytes, then 64 for each section.

  -o, --output OUT
              writes to OUT, as a whole or not at all; standard output where it is not
              given or -. It is not written to a terminal.
  --wait S    where OUT is there: how long another editor of it is waited for
              (seconds, default 10)
";

pub const EXPLAIN: &str = "\
mel explain [NUMBER..]

Says of each refusal number what it means, which place it names, what usually causes
it, and what to do; of all numbers where none is given.
";
