//! Samples as runs of one level, and those as text: each run as its length, an x and its level.

pub fn of(samples: &[u8]) -> Vec<Vec<u8>> {
    let mut runs: Vec<Vec<u8>> = Vec::new();
    for sample in samples {
        match runs.last_mut() {
            Some(run) if run[0] == *sample => run.push(*sample),
            _ => runs.push(vec![*sample]),
        }
    }
    runs
}

pub fn text(samples: &[u8]) -> String {
    let runs: Vec<String> = of(samples)
        .iter()
        .map(|run| format!("{}x{}", run.len(), run[0]))
        .collect();
    runs.join(" ")
}

/// The samples of a text that was typed.
pub fn read(text: &str) -> Vec<u8> {
    text.split_whitespace().flat_map(read_one).collect()
}

fn read_one(run: &str) -> Vec<u8> {
    let (count, level) = run.split_once('x').expect("a run has a length and a level");
    vec![level.parse().expect("a level"); count.parse().expect("a length")]
}
