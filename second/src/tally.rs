//! How often each kind of call was there, so that a sweep whose generator goes wrong does not pass.

use std::collections::BTreeMap;

/// A name for some kinds that are printed together; each kind has a name of its own, and one in so many calls is to be of it.
pub type Part = (&'static str, &'static [(&'static str, u64)]);

pub struct Tally {
    parts: &'static [Part],
    times: BTreeMap<&'static str, u64>,
}

impl Tally {
    pub fn new(parts: &'static [Part]) -> Tally {
        let names = parts.iter().flat_map(|(_, kinds)| kinds.iter().map(|&(name, _)| (name, 0)));
        Tally { parts, times: names.collect() }
    }

    pub fn add(&mut self, name: &str) {
        *self.times.get_mut(name).expect("a kind of the table") += 1;
    }

    pub fn add_if(&mut self, is_there: bool, name: &str) {
        if is_there {
            self.add(name);
        }
    }

    /// Print all of them, a line for each part, and then that nothing differed; whether no kind is too rare.
    pub fn report(&self, seed: u64, calls: u64, what: &str) -> bool {
        for (title, kinds) in self.parts {
            let kinds: Vec<String> = kinds.iter().map(|(name, _)| format!("{name} {}", self.times[name])).collect();
            println!("second: {title}: {}", kinds.join(", "));
        }
        let rare = self.rare(calls);
        let verdict = match rare[..] {
            [] => String::new(),
            _ => format!(", but FAILED: too rare: {}", rare.join(", ")),
        };
        println!("second: seed {seed}, {calls} {what}, all equal{verdict}");
        rare.is_empty()
    }

    /// The kinds that are too rare among so many calls. A short run may lack some.
    fn rare(&self, calls: u64) -> Vec<&'static str> {
        let kinds = self.parts.iter().flat_map(|(_, kinds)| kinds.iter());
        kinds.filter(|(name, of)| calls >= 10_000 && self.times[name] * of < calls).map(|&(name, _)| name).collect()
    }
}

#[cfg(test)]
mod tests {
    use super::*;

    #[test]
    fn rare() {
        let mut tally = Tally::new(&[("one", &[("often", 2), ("seldom", 5_000)]), ("two", &[("never", 10_000)])]);
        (0..10_000).for_each(|number| tally.add_if(number % 2 == 0, "often"));
        tally.add("seldom");
        assert_eq!(tally.rare(10_000), ["seldom", "never"]);
        tally.add("seldom");
        assert_eq!(tally.rare(10_000), ["never"]);
        assert_eq!(tally.rare(9_999), [""; 0]);
    }
}
