//! The 33 distances between a frame's middle edges (02, Ask 3), each within its bounds.

use crate::random::Random;

const WINDOW: [usize; 6] = [18, 19, 20, 21, 22, 23];
const COUNT: usize = 33;
/// How much oftener the first and the last place are dealt than the others.
const OFTENER: usize = 4;

/// Places still to come, dealt like cards so that the smallest and the largest stand at each.
#[derive(Default)]
pub struct Distances {
    smallest: Vec<usize>,
    largest: Vec<usize>,
}

/// Anywhere, or at the ends alone.
pub fn wide(random: &mut Random, tight: bool) -> Vec<usize> {
    match tight {
        true => among(random, &[18, 23]),
        false => among(random, &WINDOW),
    }
}

fn among(random: &mut Random, choices: &[usize]) -> Vec<usize> {
    (0..COUNT).map(|_| random.pick(choices)).collect()
}

impl Distances {
    /// All equal, or a smallest and a largest that stand alone, with what lies between them, or one
    /// of them where nothing does.
    pub fn draw(&mut self, random: &mut Random) -> Vec<usize> {
        if random.percent(15) {
            return vec![random.pick(&WINDOW); COUNT];
        }
        let mut window = WINDOW;
        random.shuffle(&mut window);
        let (smallest, largest) = (window[0].min(window[1]), window[0].max(window[1]));
        let mut between: Vec<usize> = (smallest + 1..largest).collect();
        if between.is_empty() {
            between.push(window[0]);
        }
        let mut all = among(random, &between);
        all[place(random, &mut self.smallest)] = smallest;
        all[place(random, &mut self.largest)] = largest;
        all
    }
}

fn place(random: &mut Random, deck: &mut Vec<usize>) -> usize {
    if deck.is_empty() {
        deck.extend(0..COUNT);
        deck.extend([0, COUNT - 1].repeat(OFTENER - 1));
        random.shuffle(deck);
    }
    deck.pop().expect("the deck was just filled")
}
