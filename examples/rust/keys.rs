//! Keys that aren't plain numbers: several rows with one value, negative numbers and floats in order, and names, which are wider than
//! 64 bits. docs/KEYS.md says more of each. Run: cargo run --release --bin keys

use blink::{keys, Error, Index};

struct Person {
    name: &'static str,
    age: u32,
    balance: i64,
    score: f64,
}

const PEOPLE: [Person; 5] = [
    Person { name: "Margarethe Holm", age: 41, balance: -250, score: 0.5 },
    Person { name: "Ada Winter", age: 30, balance: 1_000, score: -3.25 },
    Person { name: "Margaret Hamilton", age: 41, balance: 0, score: 12.0 },
    Person { name: "Li Na", age: 9, balance: 40, score: -0.0 },
    Person { name: "Margaretha Zelle", age: 30, balance: -3, score: 1e-9 },
];

fn rows() -> impl Iterator<Item = (u64, &'static Person)> {
    (0..).zip(&PEOPLE)
}

/// The rows of the people of an age. The key is the age and the row, so each row has a key of its own.
fn of_age(by_age: &Index, age: u32) -> Vec<u64> {
    by_age.range(keys::of_pair(age, 0)..=keys::of_pair(age, u32::MAX)).map(|(_, row)| row).collect()
}

/// The first eight bytes of a name, which are in the order that names are in. Shorter names have zeros behind.
fn prefix(name: &str) -> u64 {
    let mut first = [0; 8];
    first.iter_mut().zip(name.bytes()).for_each(|(place, byte)| *place = byte);
    u64::from_be_bytes(first)
}

/// An index of names: a prefix maps to the number of a list of all rows that have it, in the order of their names.
struct ByName {
    index: Index,
    lists: Vec<Vec<u64>>,
}

impl ByName {
    fn new() -> Result<ByName, Error> {
        Ok(ByName { index: Index::new(32)?, lists: Vec::new() })
    }

    fn insert(&mut self, row: u64) -> Result<(), Error> {
        let name = PEOPLE[row as usize].name;
        let number = match self.index.get(prefix(name)) {
            Some(number) => number as usize,
            None => {
                self.index.insert(prefix(name), self.lists.len() as u64)?;
                self.lists.push(Vec::new());
                self.lists.len() - 1
            }
        };
        let list = &mut self.lists[number];
        let place = list.partition_point(|&other| PEOPLE[other as usize].name < name);
        list.insert(place, row);
        Ok(())
    }

    /// The row of a name: the prefix finds few, and the row itself decides.
    fn get(&self, name: &str) -> Option<u64> {
        let list = &self.lists[self.index.get(prefix(name))? as usize];
        list.iter().copied().find(|&row| PEOPLE[row as usize].name == name)
    }

    /// All rows in the order of their names.
    fn rows(&self) -> impl Iterator<Item = u64> + '_ {
        self.index.iter().flat_map(|(_, number)| self.lists[number as usize].iter().copied())
    }
}

fn main() -> Result<(), Error> {
    let by_age: Index = rows().map(|(row, person)| (keys::of_pair(person.age, row as u32), row)).collect();
    println!("41 years old: rows {:?}", of_age(&by_age, 41));

    let by_balance: Index = rows().map(|(row, person)| (keys::of_i64(person.balance), row)).collect();
    let overdrawn: Vec<i64> = by_balance.range(..keys::of_i64(0)).map(|(key, _)| keys::to_i64(key)).collect();
    println!("overdrawn: {overdrawn:?}");

    let by_score: Index = rows().map(|(row, person)| (keys::of_f64(person.score), row)).collect();
    let scores: Vec<f64> = by_score.iter().map(|(key, _)| keys::to_f64(key)).collect();
    println!("scores: {scores:?}");

    let mut by_name = ByName::new()?;
    rows().try_for_each(|(row, _)| by_name.insert(row))?;
    let names: Vec<&str> = by_name.rows().map(|row| PEOPLE[row as usize].name).collect();
    println!("names: {}", names.join(", "));
    println!("{:?} {:?}", by_name.get("Margaret Hamilton"), by_name.get("Margaret"));
    Ok(())
}
