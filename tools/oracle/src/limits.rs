//! The limits of the papers, and what follows from them.

/// Bytes of a label, without its quotes.
pub const LABEL: usize = 32;
/// Leaves of a tree.
pub const LEAVES: usize = 80;
/// Labels of a list.
pub const LIST: usize = 80;
/// Bytes of a job.
pub const JOB: usize = 16_384;
/// Digits of a length in the contents.
pub const DIGITS: usize = 5;

/// Bytes of a label in a text: two quotes more.
pub const TOKEN: usize = LABEL + 2;
/// Bytes of the longest tree text: the labels, `(`, `,` and `)` of each inner node, and `;`.
pub const TREE_TEXT: usize = LEAVES * TOKEN + 3 * (LEAVES - 1) + 1;
/// Bytes of the longest record: the lines `size`, `set` and `tree`.
pub const RECORD: usize = "size 80\nset ".len() + LEAVES * (TOKEN + 1) - 1 + "\ntree ".len() + TREE_TEXT + 1;
/// Required leaves of a job with the most pieces. With k of them there are at most 2k - 1 places and LEAVES - k other leaves; for this k the two
/// are equal, and each other leaf has a place of its own.
pub const REQUIRED: usize = (LEAVES + 1) / 3;
/// The most pieces.
pub const PIECES: usize = LEAVES - REQUIRED;
/// The most labels on their lines: a head and a leaf each.
pub const TOTAL: usize = 2 * PIECES;
/// Bytes of the longest printed answer: the lines of the pieces, and the record.
pub const LINES: usize = "pieces 106\n".len() + PIECES * ("at  \n".len() + 2 * TOKEN) + RECORD;
