//! The code of the libraries, and where a name that one of them uses is declared.

use std::collections::BTreeMap;

use super::code::Code;
use super::repository::Repository;

/// The code of each library.
pub struct Library {
    codes: BTreeMap<String, Code>,
}

/// Where the code of a library stands.
pub fn code_path(home: &str) -> String {
    format!("{home}/src/lib.rt")
}

impl Library {
    pub fn of(repository: &Repository) -> Library {
        let codes = repository.ending("/src/lib.rt");
        Library {
            codes: codes
                .map(|(path, text)| (path.to_string(), Code::read(text)))
                .collect(),
        }
    }

    pub fn at(&self, path: &str) -> Option<&Code> {
        self.codes.get(path)
    }

    pub fn code(&self, home: &str) -> Option<&Code> {
        self.at(&code_path(home))
    }

    /// The crate that declares what a name means in the code of a crate: this one, or the one that it is brought in from.
    pub fn home_of(
        &self,
        home: &str,
        name: &str,
        declares: fn(&Code, &str) -> bool,
    ) -> Option<String> {
        let code = self.code(home)?;
        if declares(code, name) {
            return Some(home.to_string());
        }
        let brought = code.imports.iter().find(|import| import.item == name)?;
        self.home_of(&brought.home, name, declares)
    }
}
