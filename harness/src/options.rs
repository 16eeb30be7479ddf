//! The options of `evidence` and `bench`, as their usage texts (usage/) list them: a line `  --name N ..` is an option with a number,
//! `  --name TEXT ..` one with any word, `  --name ..` one alone. harness/build reads the same lines before it builds anything.

use std::process::exit;

/// The options that were given, each with its value.
pub struct Given {
    usage: &'static str,
    options: Vec<(String, String)>,
}

/// What is wrong, the usage, status 2.
pub fn refuse(usage: &str, what: &str) -> ! {
    eprintln!("{what}");
    eprint!("{usage}");
    exit(2)
}

/// What an option takes, by the usage: none where there is no such option, else `N`, `TEXT` or nothing.
fn takes(usage: &'static str, name: &str) -> Option<&'static str> {
    let mut lines = usage.lines().map(str::split_whitespace);
    let mut words = lines.find_map(|mut words| (name.starts_with("--") && words.next() == Some(name)).then_some(words))?;
    Some(words.next().filter(|word| ["N", "TEXT"].contains(word)).unwrap_or_default())
}

impl Given {
    /// The program's arguments; ends the program where they are not as the usage says.
    pub fn new(usage: &'static str) -> Given {
        let mut options = vec![];
        let mut words = std::env::args().skip(1);
        while let Some(name) = words.next() {
            let value = match takes(usage, &name) {
                None if name == "--help" => {
                    print!("{usage}");
                    exit(2)
                }
                None => refuse(usage, &format!("unknown option: {name}")),
                Some("") => Some(String::new()),
                Some("N") => words.next().filter(|word| word.parse::<u64>().is_ok()),
                Some(_) => words.next(),
            };
            let Some(value) = value else { refuse(usage, &format!("{name} without its value, or with a bad one")) };
            options.push((name, value));
        }
        Given { usage, options }
    }

    /// An option's value; the last one counts.
    pub fn text(&self, name: &str) -> Option<String> {
        self.options.iter().rev().find(|option| option.0 == name).map(|option| option.1.clone())
    }

    pub fn number(&self, name: &str) -> Option<u64> {
        self.text(name).map(|word| word.parse().expect("tested when it was taken in"))
    }

    /// An option's number, else the environment's STATION_NAME, else the default.
    pub fn number_or(&self, name: &str, default: u64) -> u64 {
        let variable = format!("STATION_{}", name.trim_start_matches('-').to_uppercase());
        let Some(word) = self.text(name).or_else(|| std::env::var(&variable).ok()) else { return default };
        word.parse().unwrap_or_else(|_| refuse(self.usage, &format!("{variable} is no number: {word}")))
    }

    pub fn flag(&self, name: &str) -> bool {
        self.text(name).is_some()
    }
}
