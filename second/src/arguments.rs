//! Command line: a command, plain words, `--name value` options, and a program's own words after `--`.

pub struct Arguments {
    pub words: Vec<String>,
    options: Vec<(String, String)>,
    pub for_program: Vec<String>,
}

/// Options without a value.
const SWITCHES: [&str; 7] =
    ["--table", "--masks", "--compare", "--lengths", "--sheets", "--captures", "--lateness"];

impl Arguments {
    pub fn read(given: impl Iterator<Item = String>) -> Result<Arguments, String> {
        let mut arguments =
            Arguments { words: Vec::new(), options: Vec::new(), for_program: Vec::new() };
        let mut given = given;
        while let Some(word) = given.next() {
            if word == "--" {
                arguments.for_program = given.collect();
                break;
            }
            if SWITCHES.contains(&word.as_str()) {
                arguments.options.push((word, String::new()));
            } else if word.starts_with("--") {
                let value = given.next().ok_or(format!("{word} needs a value"))?;
                arguments.options.push((word, value));
            } else {
                arguments.words.push(word);
            }
        }
        Ok(arguments)
    }

    pub fn text(&self, name: &str) -> Option<&str> {
        let found = self.options.iter().find(|(option, _)| option == name);
        found.map(|(_, value)| value.as_str())
    }

    pub fn has(&self, name: &str) -> bool {
        self.text(name).is_some()
    }

    pub fn number(&self, name: &str, otherwise: u64) -> Result<u64, String> {
        match self.text(name) {
            None => Ok(otherwise),
            Some(text) => text.parse().map_err(|_| format!("{name} needs a number")),
        }
    }
}
