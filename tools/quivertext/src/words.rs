//! Document 01's numbers in its words, each with what it means for a kernel.

/// Why a file does not read: 1 to 5.
pub fn reading(number: u32) -> Option<[&'static str; 2]> {
    Some(match number {
        1 => [
            "length not a multiple of 4, too short, or something left over",
            "The file is not whole: a part is missing, cut off or doubled.",
        ],
        2 => [
            "a count outside its range",
            "Ranges: registers 1 to 32, buffers 0 to 16, arrays 1 to 8, statements 0 to 256 a program, \
             derivation records 0 to 1,024.",
        ],
        3 => [
            "a field or code outside its range, or lengths over 8,192 (at the array record that passes it)",
            "A code or a number of this record is none that it may hold, or the lengths of all inputs (or of all \
             outputs) add up to more than 8,192.",
        ],
        4 => [
            "blocks don't match",
            "Every for and if needs its end, every if one else; at the section's end a block is still open.",
        ],
        5 => [
            "too deep, too many passes, or a counter not around",
            "Blocks nest at most 8 deep and loops at most 4; passes of a loop times those around it are at most 65,536; \
             an index names only counters of loops around it.",
        ],
        _ => return None,
    })
}

/// Why a derivation is refused: 10 to 19.
pub fn checking(number: u32) -> Option<[&'static str; 2]> {
    Some(match number {
        10 => [
            "rule doesn't fit the next statements, or hold rows missing, out of order, stray or naming a counter not \
             around",
            "Compare the rule with the two statements below; at a for, compare its hold rows: a position for each array, \
             then a row for each buffer, in order.",
        ],
        11 => [
            "position not below count",
            "At some pass the stream has no item left to read (or no room left to write): the streams would run over.",
        ],
        12 => [
            "the index is not the next index",
            "The array program touches another cell than the one whose turn it is in the stream's order.",
        ],
        13 => [
            "the buffer doesn't hold that array and index",
            "A use copies a buffer that holds another cell or nothing; a move copies a buffer that holds nothing.",
        ],
        14 => [
            "hold rows not true at entry",
            "With the counter at first, a position row differs from where the stream stands, or a buffer row names what \
             the buffer doesn't hold.",
        ],
        15 => [
            "hold rows not kept",
            "After one pass the rows, with the counter one step on, are no longer true: the body reads, writes or moves \
             too much or too little.",
        ],
        16 => [
            "positions of both branches not equal",
            "One branch of the if reads or writes more items than the other.",
        ],
        17 => [
            "derivation over, statements left",
            "No rule is left for the statements below: the derivation ends too soon.",
        ],
        18 => ["none left, but a block open", "The derivation and both programs are over, and a block has no end."],
        19 => [
            "some stream's position isn't its count",
            "At the end a stream has items left over for the next job, or lacks items that its order promises.",
        ],
        _ => return None,
    })
}

/// Why a run is refused or stuck: 21 and 31 to 35.
pub fn running(number: u32) -> Option<[&'static str; 2]> {
    Some(match number {
        21 => ["memory of a wrong length", "The lent memories have as many numbers as listed below."],
        31 => ["an unset register", "The statement uses a register that nothing was put into before."],
        32 => ["a zero divisor", "The statement divides by a register that is 0."],
        33 => ["an index outside the array", "The index form leaves the array's cells."],
        34 => ["an empty stream", "The statement reads, and the stream has no item left."],
        35 => [
            "a stream that has its full count",
            "The statement writes, and the stream has all items that its order promises.",
        ],
        _ => return None,
    })
}
