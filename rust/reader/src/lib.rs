//! An independent implementation of the Lozizol 0.5 logbook, written from the
//! papers alone: 01 (the scope, which decides), 02 \[1\], \[2\], \[5\], \[6\],
//! \[9\] and \[11\] (the change requests that have landed) and 000 (the format).
//!
//! A logbook is a lent buffer and a used length. [`start`] makes one,
//! [`Reading::step`] reads it item by item and [`SlowReading::move_on`] in
//! smaller moves, [`append`] and [`assign`] write at its end, [`erase`] and
//! [`wipe`] change what is there, [`listing`] writes the text of the listing
//! program. A refused call changes nothing. Apart from any logbook, [`shift`]
//! moves a shot to another epoch.
//!
//! # Readings of the papers
//!
//! Where the papers can be read in two ways, the most literal one was taken:
//!
//! 1. *Place 0.* A step or walk at position 0 knows only refusals 2 and 3 (a
//!    first byte 80 is one of these there, not 14) and never looks at the
//!    rows. A reading handed in at position 0 with implied rows fits (a written
//!    row cannot: it would have to end at place 0); its step reads the header
//!    and leaves exactly the two implied rows.
//! 2. *Used length 0.* "No end is reported there": every walk, an erase's and
//!    a wipe's too, is refused with 2 at place 0.
//! 3. *A size that is broken and short.* It is "never called incomplete": a
//!    first byte 80 is 14 also as the last used byte, and four bytes with the
//!    top bit set are 15 also as the last used ones. 81, FF FF or FF FF FF
//!    running into the used length is 2.
//! 4. *Size 0.* Its only writing is the byte 00, so it is always padding.
//! 5. *Assignment data.* "Broken" includes an integer that isn't over within
//!    the data; "missing" is no data at all. Both are 5.
//! 6. *A later header* must have all 109 bytes of the form, 6C 6F included. So
//!    a record whose number isn't 111, or whose size isn't 108, is refused
//!    with 3 even when its number resolves to urn:lozizol:header (which only a
//!    reading from outside can bring about for other numbers).
//! 7. *Rows from outside.* The list of what fits does not look at the URI's
//!    bytes, so neither does the step: a written row resolves to whatever
//!    bytes stand there. If these are urn:lozizol:deleted or no URI at all the
//!    record is a plain entry. Type 0 is never looked up.
//! 8. *Position from outside.* Any position within the used length fits, the
//!    inside of a record too; the step reads what stands there.
//! 9. *"Until it is passed".* An erase or wipe aimed inside a record walks
//!    that record in full, and that record's own refusal comes before 8. One
//!    aimed at or past the used length walks to the end, then is 8.
//! 10. *Wiping padding* is 8: a padding byte is not a deleted record.
//! 11. *Limit 0* of a wipe is judged last: all refusals still apply.
//! 12. *Removal* of a number not held, read or requested, needs no room and is
//!     never 7, also with 32 numbers held. Requested, it still needs a number
//!     that holds urn:lozizol:type (11) and room in the buffer (12).
//! 13. *An assign request of urn:lozizol:type* to any number is allowed, and
//!     so is urn:lozizol:header to 111; only an append refuses all three names.
//! 14. *Names* are compared byte by byte: URN:lozizol:type is an ordinary URI.
//! 15. *A scheme* may be one letter: "a:" is allowed.
//! 16. *The place of 12* is the used length before the call, also where two
//!     records were to be written and the first alone would fit.
//! 17. *Start* on a buffer longer than 16,777,216 bytes is not refused: only
//!     10 and 12 are known there, and 109 bytes fit.
//! 18. *The listing* shows live entries only. A file over 65,536 bytes gives
//!     the single line `refused`, 1, 0.
//! 19. *Two of 14, 15 and 16 at once.* They stand "in that order", so the first
//!     that applies is given: 80 FF FF FF is 14 and not 15 as a size, and so is
//!     80 with FF eight times behind it as a type; the record 01 80 is 14 and
//!     not 16; the record 09 with FF nine times is 15 and not 16.
//! 20. *Sizes and types.* A size can be 14 or 15, and then no type is looked
//!     at; one that isn't over is 2, never 16, which says "type". A type can be
//!     any of the three, once its record is complete: 02 80 at the used
//!     length is 2.
//! 21. *A type's bytes* are those within its size. The record 03 FF FF FF is 16
//!     at its last FF, also where a further FF stands behind it. So 16 is only
//!     met with a size of 1 to 8, every byte of the body with the top bit set
//!     and the first one not 80.
//! 22. *The number in an assignment's data* is neither size nor type. 01 lists
//!     it under 5 ("broken"), which 02 \[1\] leaves as it is: with a first byte
//!     80 (03 01 80 02) or over its length limit (0A 01 and FF nine times) it is
//!     5 at the record's start, as it is where it isn't over (point 5).
//! 23. *The places of 14, 15 and 16* are those of bytes, counted as any other
//!     place. "The fourth or the ninth" is the integer's own, so a type's ninth
//!     is found behind the whole size: 81 00 and FF nine times at 109 is 15 at
//!     119.
//! 24. *A shift* (02 \[11\], to point 33) takes a shot as its URI and its
//!     data. No logbook is walked and no place is asked for, so only 24, 25 and
//!     26 are known, and the place is 0 for each.
//! 25. *The URI of an epoch* is compared byte by byte (point 14) and from end to
//!     end: URN:ep:2010 is 24, and so is the form with any byte before or behind
//!     it. A digit is a byte 30 to 39 and a point is 2E. None, one or three
//!     digits behind the point, or a sign before the year, are 24.
//! 26. *The two digits* are hundredths of a year, not a month: urn:ep:2017.50 is
//!     201,750. Without them they are 00, so that urn:ep:2017 and urn:ep:2017.00
//!     are one epoch. Any digits do, 0000 to 9999.99.
//! 27. *"Signed"* is two's complement; FF eight times is -1. The coordinates
//!     stand one behind the other, and the motions go with them in that order.
//! 28. *"In size"* is the distance from 0, on either side, and "at most" allows
//!     the bound itself. It is that of each coordinate and of each motion, not
//!     the length of the three together.
//! 29. *"At most 100,000"* is said of the difference. The asked epoch and the
//!     shot's have no bound of their own: from 9999.99 to 8999.99 is allowed, and
//!     so is an asked epoch below 0.
//! 30. *A figure* in 26 is one that is given, or the difference; each is judged
//!     also where it wouldn't count, as the difference is with no motion and
//!     the motion with no difference. Point and motion in micrometres have no
//!     bound. Which figure it was is not told.
//! 31. *"100 times the position plus motion times difference"* is 100 times the
//!     position, and to that the product is added. The example says so: 700 and
//!     720 move a point 504,000, not 50,400,000.
//! 32. *"Each motion 100 times the given one"* doesn't look at the difference:
//!     it stays a yearly one, with the given sign.
//! 33. *The doubles* are whole micrometres and at most 10,001,000,000,000 in
//!     size, below 2^53. So [`Shifted`] holds the whole numbers they equal; the
//!     sign that a double's zero can have is no part of that.
//! 34. *Two limits* (02 \[5\], to point 39). A record's type and the number
//!     in an assignment's data have nine bytes, a size four. 01's "any written
//!     integer: at most 4 bytes" holds for sizes alone then. Nine bytes are 63
//!     bits, so none of them passes 9,223,372,036,854,775,807: what is read is
//!     judged by its length only.
//! 35. *M10* is a size. FF FF FF FF as a type isn't over its limit: the record
//!     04 FF FF FF FF is 16 at its last byte, and 05 FF FF FF FF 7F is number
//!     34,359,738,367 (6 where it isn't held).
//! 36. *"The last byte allowed"* goes by what the integer is, not by its size:
//!     a type's is always its ninth. A record that ends before it is 16, one
//!     that ends with it is 15 (point 19). Bytes behind it are not looked at.
//! 37. *"Number 0 or over the limit"* in 10 and *"within the integer limit"* in
//!     a fit mean the limit of type numbers. A stated number is 10 from
//!     9,223,372,036,854,775,808 up, a removal's too; a row with one is 13.
//! 38. *"The order and kinds of refusal stay"*: an assigned number of ten bytes
//!     is 5 at the record's start and not 15, also with an empty URI behind it.
//! 39. *The whole number counts.* 4,294,967,296 is not type 0, 4,294,967,297 is
//!     not implied, and urn:lozizol:header goes to 111 alone.
//! 40. *What a slow reading holds* (02 \[9\], to point 54) tells which move
//!     comes next: none of the four fields, type's place and end, or all four.
//!     Either pair is in use where one of its two isn't 0, so half a pair is 13.
//!     A held type of 0 is 13 too: no row holds 0.
//! 41. *Padding and the end* have no size to be taken. Each is one move, with
//!     nothing held. While a size is held the byte at the position isn't looked
//!     at: a 00 that a wipe left there is no padding then.
//! 42. *Place 0 as one move* is a step's in every way (points 1 and 2). With any
//!     of the four fields not 0 it is 13.
//! 43. *"Besides"*: all that makes a plain reading fit stays, and its position is
//!     the record's start. A written URI that ends within the record is 13.
//! 44. *The fit looks at no byte of the record.* The type's place fits 4 past the
//!     position where the size there has one byte, and so do a held type and a
//!     data's place that other bytes there would not give. The moves go by what
//!     is held. "Within" and "not past" allow the used length and the end
//!     themselves: an entry may have no data.
//! 45. *Each move takes its own part, as it is then.* The type move looks at no
//!     size: its bytes go from the held place to the held end (point 21), also
//!     where a wipe made the size smaller. The data move looks at no size and no
//!     type (point 48 aside). So 2 is a size move's alone, and a used length
//!     that falls below a held end is 13.
//! 46. *The places* of 14, 15 and 16 in a type move are counted from what is
//!     held: the type's place, the ninth byte from there, the last byte before
//!     the end. 6, 3, 5 and 7 are at the record's start, which is the position.
//! 47. *A record done by its type move* is a deleted one at the position, also
//!     where all its bytes are 00 by then. The next item is the one at the held
//!     end.
//! 48. *The header form* is asked of the bytes from the position to the held end
//!     as the data move finds them, size and type among them. It is 3 where the
//!     type became 00 after it was taken. The held type and the data's place are
//!     no part of the form.
//! 49. *An erase between type and data* is late: the data move still gives the
//!     entry. Against the premise wiped bytes are taken as they are: a plain
//!     entry has 00 for data, an assignment is 5 (its number is 0).
//! 50. *"An entry counts as passed"* is said of the place where its record
//!     starts. That place is passed with the type, the places within the record
//!     with the position (nothing starts there: an erase or wipe aimed at one is
//!     8 on either side). A deleted record is passed when it is done.
//! 51. *"No wipe on a record"* is one aimed at its start. One aimed within it is
//!     8, on no record, and not forbidden.
//! 52. *Passed and forbidden* are told by the fields alone, also where the reading
//!     wouldn't fit; the type is taken where `number` isn't 0.
//! 53. *A refused move* lets go of nothing: the same move comes next.
//! 54. *The list.* An entry comes into it with its data move, with the bytes of
//!     its URI and data as they are then.
//! 55. *What a live item reports* (02 \[6\], to the last point) is what the row
//!     holds by which its own type was resolved, as that row stands at the record,
//!     before the record takes force. So an assignment, a removal too, reports who
//!     declared the number it is written under and never itself: under the implied
//!     1 none, and the old row's where it ends or replaces that very number.
//! 56. *None* is place 0 and number 0. It is what an implied row holds and what
//!     an item of one reports. 0 alone is also a place, the header's: a written
//!     row with place 0 and another number than 0 has both, and fits.
//! 57. *A header.* The one at place 0 reports none: no row is looked at (point
//!     1). A later one reports what the row of 111 holds, none where that is
//!     implied. The rows behind either hold none, and the count goes on.
//! 58. *"The record that assigned it"* is the latest one. A number assigned again
//!     gets the place and number of that record, with the URI it had too, and so
//!     does a removed one; a removal of a number not held changes no row. The
//!     place is that of the record's size, not of its URI.
//! 59. *"As counted by this reading"*: one more than its count before the record,
//!     whatever count it was handed in with. What was erased before it got there
//!     isn't counted, as padding and deleted records aren't; an erase behind it
//!     changes no row. 32 bits hold any count that fits, and the next one.
//! 60. *The fit* bounds the place by the position alone, which it is below, and the
//!     number by 0 alone. The number isn't held against the count, nor either
//!     against the URI's place, another row or the bytes there; two rows may have
//!     the same. What is handed in is reported as it is.
//! 61. *Unused rows* are zero in these two as well.
//! 62. *A slow reading* reports and keeps them with the data move, by the row of
//!     the held type as it is handed in then; its position, which the places are
//!     below, is the record's start. Place 0 is point 57.
//! 63. *The calls that walk* hand out no row and no number, and keep no count.
//!     The listing shows what it did.

#![forbid(unsafe_code)]
#![warn(missing_docs)]

mod calls;
mod epoch;
mod header;
mod integer;
mod listing;
mod reading;
mod record;
mod refusal;
mod register;
mod slow;
mod uri;

pub use calls::{append, assign, erase, start, wipe, Appended};
pub use epoch::{shift, Shifted};
pub use listing::listing;
pub use reading::{Item, Kind, Reading};
pub use refusal::Refusal;
pub use register::Row;
pub use slow::{Moved, SlowReading};

/// 01, Figures: the largest used length.
const MAX_USED: usize = 16_777_216;
