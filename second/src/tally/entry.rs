//! A line of the table, and how much must have been seen.

pub struct Entry {
    name: String,
    seen: u64,
    wanted: Wanted,
}

enum Wanted {
    Nothing,
    Once,
    Exactly(u64),
}

impl Entry {
    /// Shown, but not asked for.
    pub fn shown(name: impl Into<String>, seen: u64) -> Entry {
        Entry::new(name, seen, Wanted::Nothing)
    }

    pub fn once(name: impl Into<String>, seen: u64) -> Entry {
        Entry::new(name, seen, Wanted::Once)
    }

    pub fn exactly(number: u64, name: impl Into<String>, seen: u64) -> Entry {
        Entry::new(name, seen, Wanted::Exactly(number))
    }

    fn new(name: impl Into<String>, seen: u64, wanted: Wanted) -> Entry {
        let name = name.into();
        Entry { name, seen, wanted }
    }

    pub fn line(&self) -> String {
        format!("{:>12}  {}\n", self.seen, self.name)
    }

    /// What is missing, in words.
    pub fn lack(&self) -> Option<String> {
        match self.wanted {
            Wanted::Once if self.seen == 0 => Some(self.name.clone()),
            Wanted::Exactly(number) if self.seen != number => {
                Some(format!("{}: {number} (seen: {})", self.name, self.seen))
            }
            _ => None,
        }
    }
}
