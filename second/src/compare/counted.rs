//! The second program's own output; what it did is counted along the way.

use crate::programs::replay::Replay;
use crate::programs::{self, stream, Input, Name};
use crate::tally::{Spare, Tally, Thing};

pub fn run(name: Name, input: &Input, tally: &mut Tally) -> Vec<u8> {
    if name == Name::Replay {
        let mut replay = Replay::fresh();
        let output = stream::run(&mut replay, &input.bytes);
        tally.add(&replay.tally);
        return output;
    }
    let output = programs::run(name, input);
    let bytes = &input.bytes[..];
    match name {
        Name::List => {
            tally.listing(&output);
            tally.spare_words(Spare::Listed, bytes);
        }
        Name::Decode => {
            tally.count_many(Thing::SampleRead, bytes.len());
            tally.answers(&output);
            tally.edges_read(bytes, &output);
        }
        Name::Encode => {
            tally.count_many(Thing::SampleWritten, output.len());
            tally.spare_words(Spare::Written, bytes);
        }
        Name::Still => tally.still(input, &output),
        _ => {
            tally.count_many(Thing::Float, bytes.len() / 4);
            tally.answers(&output);
        }
    }
    output
}
