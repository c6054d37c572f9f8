//! The words of a command line: options, each with its value behind it.

use std::{env, iter::Skip, str::FromStr};

pub struct Words {
    rest: Skip<env::Args>,
    option: String,
}

impl Words {
    /// Those behind the program's name.
    pub fn of_program() -> Self {
        Self {
            rest: env::args().skip(1),
            option: String::new(),
        }
    }

    /// The next option.
    pub fn option(&mut self) -> Option<String> {
        self.option = self.rest.next()?;
        Some(self.option.clone())
    }

    /// The word behind the option.
    pub fn value(&mut self) -> Result<String, String> {
        let missing = || format!("{} needs a value", self.option);
        self.rest.next().ok_or_else(missing)
    }

    /// The number behind the option.
    pub fn number<N: FromStr>(&mut self) -> Result<N, String> {
        let word = self.value()?;
        word.parse().map_err(|_| format!("{word}: not a number"))
    }
}
