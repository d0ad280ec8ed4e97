//! The words of the command line: options are taken out by name, the rest in order.

pub struct Arguments(Vec<String>);

impl Arguments {
    pub fn new() -> Arguments {
        Arguments(std::env::args_os().skip(1).map(|a| a.to_string_lossy().into_owned()).collect())
    }

    /// The next word.
    pub fn next(&mut self) -> Option<String> {
        (!self.0.is_empty()).then(|| self.0.remove(0))
    }

    pub fn need(&mut self, what: &str) -> Result<String, String> {
        self.next().ok_or(format!("{what} is missing"))
    }

    pub fn need_number(&mut self, what: &str) -> Result<u64, String> {
        number(what, &self.need(what)?)
    }

    /// Whether a switch is given.
    pub fn switch(&mut self, name: &str) -> bool {
        let at = self.0.iter().position(|a| a == name);
        at.map(|at| self.0.remove(at)).is_some()
    }

    /// The word after an option.
    pub fn option_word(&mut self, name: &str) -> Result<Option<String>, String> {
        let Some(at) = self.0.iter().position(|a| a == name) else { return Ok(None) };
        if at + 1 == self.0.len() {
            return Err(format!("{name} needs a value"));
        }
        self.0.remove(at);
        Ok(Some(self.0.remove(at)))
    }

    /// The number after an option.
    pub fn option(&mut self, name: &str) -> Result<Option<u64>, String> {
        self.option_word(name)?.map(|word| number(name, &word)).transpose()
    }

    /// Nothing may be left.
    pub fn end(self) -> Result<(), String> {
        match self.0.first() {
            None => Ok(()),
            Some(word) => Err(format!("unexpected {word:?}")),
        }
    }
}

fn number(what: &str, word: &str) -> Result<u64, String> {
    word.parse().map_err(|_| format!("{what}: no number: {word:?}"))
}
