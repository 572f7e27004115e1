//! The words of a command line, taken apart.

use std::str::FromStr;

/// Which options a command takes: those with a value behind them, and those without.
#[derive(Clone, Copy)]
pub struct Takes {
    pub valued: &'static [&'static str],
    pub flags: &'static [&'static str],
}

/// Options with their values, a flag's being empty, and the other words in their order.
pub struct Arguments<'a> {
    options: Vec<(&'a str, &'a str)>,
    pub words: Vec<&'a str>,
}

impl<'a> Arguments<'a> {
    /// A word that begins with two dashes is an option, up to a word that is two dashes alone. `--node 3` is `--node=3`.
    pub fn read(words: &[&'a str], takes: Takes) -> Result<Arguments<'a>, String> {
        let mut read = Arguments { options: Vec::new(), words: Vec::new() };
        let mut rest = words.iter().copied();
        while let Some(word) = rest.next() {
            if word == "--" {
                read.words.extend(rest);
                break;
            }
            match word.starts_with("--") {
                true => read.option(word, &mut rest, takes)?,
                false => read.words.push(word),
            }
        }
        Ok(read)
    }

    fn option(&mut self, word: &'a str, rest: &mut impl Iterator<Item = &'a str>, takes: Takes) -> Result<(), String> {
        let (name, joined) = word.split_once('=').map_or((word, None), |(name, value)| (name, Some(value)));
        let value = match (takes.valued.contains(&name), takes.flags.contains(&name), joined) {
            (true, _, Some(value)) => value,
            (true, _, None) => rest.next().ok_or_else(|| format!("{name} asks for a value"))?,
            (_, true, None) => "",
            (_, true, Some(_)) => return Err(format!("{name} takes no value")),
            _ => return Err(format!("there is no option {name}")),
        };
        if self.value(name).is_some() {
            return Err(format!("{name} is said twice"));
        }
        self.options.push((name, value));
        Ok(())
    }

    pub fn value(&self, name: &str) -> Option<&'a str> {
        self.options.iter().find(|(option, _)| *option == name).map(|(_, value)| *value)
    }

    pub fn has(&self, flag: &str) -> bool {
        self.value(flag).is_some()
    }

    pub fn number<N: FromStr>(&self, name: &str) -> Result<Option<N>, String> {
        let fit = |value: &str| value.parse().map_err(|_| format!("{name} {value}: no number that fits here"));
        self.value(name).map(fit).transpose()
    }

    /// One of the words, if the option is there.
    pub fn among(&self, name: &str, words: &[&'static str]) -> Result<Option<&'static str>, String> {
        let fit = |value: &str| {
            let found = words.iter().copied().find(|word| *word == value);
            found.ok_or_else(|| format!("{name} {value}: it is one of {}", words.join(", ")))
        };
        self.value(name).map(fit).transpose()
    }
}

#[cfg(test)]
mod tests {
    use super::*;

    const TAKES: Takes = Takes { valued: &["--node", "--to"], flags: &["--records"] };

    fn trouble(words: &[&str]) -> String {
        Arguments::read(words, TAKES).err().expect("the words are refused")
    }

    #[test]
    fn options_stand_anywhere() {
        let read = Arguments::read(&["a", "--node", "3", "-5", "--records", "--", "--to"], TAKES).unwrap();
        assert_eq!(read.words, ["a", "-5", "--to"]);
        assert_eq!(read.number::<u32>("--node"), Ok(Some(3)));
        assert!(read.has("--records") && !read.has("--to"));
        assert_eq!(Arguments::read(&["--node=3"], TAKES).unwrap().value("--node"), Some("3"));
    }

    #[test]
    fn what_is_wrong_is_named() {
        assert_eq!(trouble(&["--nodes"]), "there is no option --nodes");
        assert_eq!(trouble(&["--node"]), "--node asks for a value");
        assert_eq!(trouble(&["--records=1"]), "--records takes no value");
        assert_eq!(trouble(&["--node", "1", "--node", "2"]), "--node is said twice");
        let read = Arguments::read(&["--node", "x", "--to", "y"], TAKES).unwrap();
        assert_eq!(read.number::<u32>("--node"), Err("--node x: no number that fits here".to_string()));
        assert_eq!(read.among("--to", &["image", "text"]), Err("--to y: it is one of image, text".to_string()));
    }
}
