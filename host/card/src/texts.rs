//! The texts of help and of the manual page.

pub const CARD: &str = "card: the flash translation layer on image files of a chip\n";

pub const ABOUT_SHAPE: &str = "\
SHAPE is -P P -L L -K K: pages per block, logical blocks, log blocks at most. It is
not stored in the image: give a card the same shape every time, or set it once, as in
CARD_SHAPE=4,2,1. `card VERB --help` says more; --version says which version this is,
--manual prints the manual page.
";

pub const NEW: &str = "\
Makes the image of an erased chip: all bytes are 255. The file must not be there yet.

  -P, --pages P      pages per block, 2 to 32
  -B, --blocks B     blocks, 3 to 64
  --bad BLOCK        mark this block bad; may be given again
";

pub const FORMAT: &str = "\
Makes an empty card: erases each good block that is not free. All content is lost.

  --cut N            pull the card out after N steps
";

pub const POWER_UP: &str = "\
Recovers a card that was pulled out: erases each obsolete block. Prints, for each
logical block, its data block and its live log block.

  --cut N            pull the card out after N steps
  --json             print an object: programs, erases, and table, for each logical
                     block data_block and log_block (null for none)
";

pub const READ: &str = "\
Reads logical page PAGE and writes its 512 bytes to FILE, or to standard output (on
a terminal in hexadecimal). A page never written is 512 bytes of 255. FILE is not
overwritten if it may be a card itself.

  --hex              write in hexadecimal, for people
  --force            overwrite FILE, whatever it is
";

pub const WRITE: &str = "\
Writes the 512 bytes of FILE, or of standard input, as logical page PAGE. Says so if
the image is too empty to tell a wrong P.

  --cut N            pull the card out after N steps
";

pub const LOAD: &str = "\
Writes the P x 512 bytes of FILE as logical block BLOCK, all or none: after a cut the
block is the old one or the new one. FILE has exactly so many bytes; with - they come
from standard input. Says so if the image is too empty to tell a wrong P.

  --cut N            pull the card out after N steps
  --pad              fill a shorter FILE up with bytes of 255
";

pub const LEND: &str = "\
Says where the content of logical page PAGE lies: its block, its page there, and the
byte of the image at which it starts.
";

pub const SHOW: &str = "\
Draws a map of the chip: for each block its role, its logical block, its sequence
number, and its pages. On a small card the pages are shown by the logical page that
they hold, on a large one by how far the block is filled (#; + in part). Bad, obsolete
and broken blocks are in capitals and marked with !, as are those that break a rule with
others. BAD p1: the maker's mark stands on page 1; BAD p0,1: on pages 0 and 1. In colour
on a terminal, unless NO_COLOR is set.

  --json             print an object: pages_per_block, well_formed, and blocks, of each
                     block, role, breaks (the rule, or null), marked_pages (by the
                     maker), logical_block, number and logical_pages
";

pub const CHECK: &str = "\
Says what the card would answer to format, power-up, and to read and write of PAGE
(without it: page 0), and why: which blocks are bad, by a mark on which page; which rule
is broken by which blocks, at which page and spare byte. Where a bad block was written,
the first page of it that can be read is named: nothing in the block counts. Changes
nothing. The exit status is the answer that write would give: 0 for a recovered card.

  --json             print an object: answers (of each command, answer, programs,
                     erases, meaning), good_blocks, blocks, highest_number, bad (of each
                     block, marked_pages, holds: the logical page named, or null),
                     faults (of each rule, blocks, page, spare_byte, what), obsolete,
                     and other_pages_per_block: other P with which it is as well-formed
";

pub const DUMP: &str = "\
Reads the logical pages out to FILE, ascending, one after the other, 512 bytes each.
Pages never written are 512 bytes of 255, and counted. FILE is not overwritten if it may
be a card itself.

  --from A           the first page (without it: 0)
  --to A             the last page (without it: that of the card)
  --force            overwrite FILE, whatever it is
";

pub const RESTORE: &str = "\
Writes the pages of FILE, as dump gives them, from the first page on. Pages that read so
already are left as they are. All are written or none: the image is replaced at the end.

  --from A           the first page (without it: 0)
  --to A             the last page; FILE has as many
";

pub const RENEW: &str = "\
Reads all pages out, formats the card and writes them again, so that its sequence
numbers begin anew: for a card that answers 7. The content is the same. The image is
replaced at the end, by one that has all of it.
";

pub const SALVAGE: &str = "\
Reads out to FILE what can be told for certain of a card that answers 5: all logical
pages, ascending, 255 where nothing is certain. Only blocks that break none of W1 to W4
are taken from. A page is doubtful where another block may have a newer content of it: a
broken one that names its logical block with a higher number, or of which no spare bytes
can be read, one of the same number, or a second live log block. Says what was taken from
where. Nothing on the card changes.

  --doubtful         take doubtful pages as well
  --force            overwrite FILE, whatever it is
";

pub const RAW: &str = "\
Shows flash page PAGE as it stands on the chip, counted through from 0 (page i of block
b is b x P + i): data and spare bytes in hexadecimal, with the spare bytes named and
what is wrong with them.

  -P, --pages P      pages per block: says the block as well
";

pub const SHAPES: &str = "\
Tells with which P the image is well-formed, and the least L and K with each, so that a
wrong P is noticed. An image that is nearly empty is so with several.

  --json             print an object: shapes, of each pages_per_block, blocks,
                     logical_blocks_at_least and log_blocks_at_least
";

pub const DIFF: &str = "\
Says in which flash pages, by block, and in which logical pages two images differ. A and
B are raw dumps; in the place of A two files may be given. Exit status 0 if they are the
same, 9 if not.

  --json             print an object: same, flash_pages (of both),
                     differing_flash_pages (of each block, page, data, spare) and
                     differing_logical_pages (of each page, written_in_first,
                     written_in_second), null if one image cannot be read
";

pub const SPLIT: &str = "\
Makes two files of the raw dump IMAGE: the data bytes and the spare bytes of its pages.
The two files must not be there yet. With - for IMAGE the dump is standard input.

  --data FILE        the file for the data bytes
  --spare FILE       the file for the spare bytes
";

pub const JOIN: &str = "\
Makes the raw dump IMAGE of two files. IMAGE must not be there yet; with - it is
standard output.

  --data FILE        the file with the data bytes
  --spare FILE       the file with the spare bytes
";

pub const DEMO: &str = "\
Runs the worked card of document 01, cases 1 to 8, on a new image file (without a
name: worked-card.img), and shows the map after each step. Every answer is held to the
document's; exit status 70 if one is another.
";

pub const HELP: &str = "\
Says what `card VERB --help` says; without a verb, what `card --help` says.
";

pub const SHAPE: &str = "
  -P, --pages P      pages per block
  -L, --logical L    logical blocks
  -K, --logs K       log blocks at most
                     without them: those of CARD_SHAPE=P,L,K
";

pub const IMAGE: &str = "
IMAGE is a raw dump as NAND readers write it: 528 bytes a page, data then spare. In
its place, two files may be given: --data FILE --spare FILE. A name of - is standard
input, and standard output for what is changed. An image is rewritten only after
success or a cut, whole, by a new file (IMAGE.card-new) renamed over the old one; a note
(IMAGE.card-note) tells to which files it belongs. If such files are left, the next
command that changes the image ends that write; commands that only look leave them, and
see two files as that write leaves them. A file with other names (hard links) is changed
only with --force, which leaves the others as they are.
";

pub const STATUS: &str = "
Exit status: 0 all done; 1 to 8 the answer with which the card refuses
  1 shape or image length outside the limits   5 the image is not well-formed
  2 page not 512, block not P x 512 bytes      6 an obsolete block exists
  3 logical page or block out of range         7 the sequence numbers do not suffice
  4 too few good blocks                        8 pulled out by --cut
9 (diff) the two differ; and of the tool itself:
  64 wrong arguments
  65 the file is no image
  66 a file cannot be read
  70 the layer did not do what document 01 says
  72 what an interrupted write left does not belong to what is there: nothing is done
  73 a file cannot be created or replaced: nothing is done
  74 writing broke off: the image is as it was, or the message says how it goes on
  75 all was done, but could not be said
";
