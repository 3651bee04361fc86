//! What one part of the comparison finds: differences, the number of inputs in each
//! class, and the planted faults that it catches.

use std::collections::BTreeMap;

/// Every class has at least this many inputs.
pub const LEAST: u64 = 50;

/// This many differences are shown; later ones are only counted.
const SHOWN: u64 = 3;

/// A group of classes: what its numbers are, and how many inputs have each of them.
struct Group {
    name: &'static str,
    counts: BTreeMap<u64, u64>,
}

/// A planted fault, and the round that first told it from the library.
struct Plant {
    name: String,
    caught: Option<u64>,
}

/// What is left of the findings of a part at its end.
pub struct Summary {
    /// Whether nothing is wrong.
    pub good: bool,
    /// How many classes there are, and how many inputs the smallest has.
    pub classes: usize,
    pub smallest: u64,
    /// The names of the planted faults, and the round that first told each from the library.
    pub plants: Vec<(String, Option<u64>)>,
}

impl Summary {
    /// The summary of a part that came to no end.
    pub const BROKEN: Summary = Summary {
        good: false,
        classes: 0,
        smallest: 0,
        plants: Vec::new(),
    };
}

/// The findings of one part.
pub struct Findings {
    round: u64,
    compared: u64,
    differences: u64,
    groups: Vec<Group>,
    plants: Vec<Plant>,
    wrong: Vec<String>,
}

impl Findings {
    /// No findings yet: the groups with the numbers that each must show, and the names
    /// of the planted faults.
    pub fn new(groups: Vec<(&'static str, Vec<u64>)>, plants: Vec<String>) -> Findings {
        let group = |(name, numbers): (&'static str, Vec<u64>)| Group {
            name,
            counts: numbers.into_iter().map(|number| (number, 0)).collect(),
        };
        let plant = |name| Plant { name, caught: None };
        Findings {
            round: 0,
            compared: 0,
            differences: 0,
            groups: groups.into_iter().map(group).collect(),
            plants: plants.into_iter().map(plant).collect(),
            wrong: Vec::new(),
        }
    }

    /// A round begins.
    pub fn begin(&mut self, round: u64) {
        self.round = round;
    }

    /// Two answers to one input were compared; `tell` says how they differ.
    pub fn compared(&mut self, equal: bool, tell: impl FnOnce() -> String) {
        self.compared += 1;
        if equal {
            return;
        }
        self.differences += 1;
        if self.differences <= SHOWN {
            self.wrong
                .push(format!("round {} differs: {}", self.round, tell()));
        }
    }

    /// One input more has a number of a group.
    pub fn count(&mut self, group: &str, number: u64) {
        let found = self.groups.iter_mut().find(|one| one.name == group);
        match found.and_then(|one| one.counts.get_mut(&number)) {
            Some(count) => *count += 1,
            None => self.wrong.push(format!(
                "round {}: {group} has no class {number}",
                self.round
            )),
        }
    }

    /// How many inputs have a number of a group.
    pub fn counted(&self, group: &str, number: u64) -> u64 {
        let found = self.groups.iter().find(|one| one.name == group);
        let count = found.and_then(|one| one.counts.get(&number));
        count.copied().unwrap_or(0)
    }

    /// The planted faults that nothing has told from the library yet.
    pub fn uncaught(&self) -> Vec<usize> {
        let open = |&i: &usize| self.plants[i].caught.is_none();
        (0..self.plants.len()).filter(open).collect()
    }

    /// A planted fault answers something else than the library.
    pub fn caught(&mut self, plant: usize) {
        self.plants[plant].caught = Some(self.round);
    }

    /// A demand on the inputs as a whole.
    pub fn demand(&mut self, holds: bool, what: &str) {
        if !holds {
            self.wrong.push(format!("not so: {what}"));
        }
    }

    /// Prints the counts and all that is wrong.
    pub fn report(mut self) -> Summary {
        println!(
            "  {} answers compared, {} differ",
            self.compared, self.differences
        );
        for group in &self.groups {
            let pair = |(number, count): (&u64, &u64)| format!("{number}:{count}");
            let pairs: Vec<String> = group.counts.iter().map(pair).collect();
            println!("  {} {}", group.name, pairs.join(" "));
            for (number, count) in group.counts.iter().filter(|(_, &count)| count < LEAST) {
                self.wrong.push(format!(
                    "{} {number} has {count} inputs, fewer than {LEAST}",
                    group.name
                ));
            }
        }
        let caught: Vec<u64> = self.plants.iter().filter_map(|one| one.caught).collect();
        println!(
            "  {} of {} planted faults caught, the last in round {}",
            caught.len(),
            self.plants.len(),
            caught.iter().max().unwrap_or(&0)
        );
        for plant in self.plants.iter().filter(|one| one.caught.is_none()) {
            self.wrong
                .push(format!("the planted fault {} is not caught", plant.name));
        }
        for line in &self.wrong {
            println!("  WRONG: {line}");
        }
        let counts = self.groups.iter().flat_map(|group| group.counts.values());
        let plants = self.plants.into_iter();
        Summary {
            good: self.wrong.is_empty(),
            classes: counts.clone().count(),
            smallest: counts.copied().min().unwrap_or(0),
            plants: plants.map(|plant| (plant.name, plant.caught)).collect(),
        }
    }
}
