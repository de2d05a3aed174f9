//! The paper's tried numbers P1 to P12, its 'Run:' numbers, the table's counts, published checksums,
//! the spare bits of 02's Ask 1, the status of its Ask 2, the edges of its Ask 3, the two forms of its
//! Ask 4, the fixed vectors and the hash of what was written, on this program alone.

mod bench;
mod carried;
mod edges;
mod fresh;
mod programs;
mod samples;
mod shrink;
mod spare;
mod status;
mod tally;
mod tally_forms;
mod tally_numbers;
mod turns;
mod values;
mod went_out;
mod words;
mod wrapping;
mod written;
