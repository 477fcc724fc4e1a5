//! The names of promises followed: from the `ensures` of a call, through every definition that it rests on.

use std::collections::{BTreeMap, BTreeSet};

use super::reading::code::{Code, Function};
use super::reading::library::{code_path, Library};
use super::reading::module::Module;
use super::reading::names::{Names, Used};
use super::reading::repository::Repository;
use super::reading::words::{part_written, parts};

/// The crates that may declare the types of answers: those of promises, the board's among them, which stand above the library.
const HOMES_OF_TYPES: [&str; 3] = ["promises", "answer", "board_promises"];

/// Libraries of the toolchain: a name of theirs is followed no further.
const TOOLCHAIN: [&str; 7] = [
    "Prim", "mathlib", "native", "lib", "borrow", "denote", "mir",
];

/// Before the name of a crate of this repository, or of one of the toolchain's.
const CRATES: &str = "Rattle";

/// The crate of the toolchain in whose words promises are written.
const STD: &str = "std";

/// What every clause is lent by the toolchain: what the function answers.
const LENT: [&str; 1] = ["result"];

/// Where a name leads.
#[derive(Clone, Debug, PartialEq, Eq, PartialOrd, Ord)]
pub enum Place {
    Toolchain,
    /// A definition of a file, by its number there.
    Definition(String, usize),
    /// A type that a crate's code declares.
    Declared(String, String),
}

/// Every file, read.
pub struct Sources {
    modules: BTreeMap<String, Module>,
    library: Library,
}

impl Sources {
    pub fn of(repository: &Repository) -> Sources {
        let modules = repository.ending(".antt");
        Sources {
            modules: modules
                .map(|(path, text)| (path.to_string(), Module::read(text)))
                .collect(),
            library: Library::of(repository),
        }
    }

    /// The places that a word can mean in a file: the one of its name, or those of the operators that it is a part of.
    fn meanings(&self, path: &str, used: &Used) -> Result<Vec<Place>, String> {
        let module = self.modules.get(path);
        let imports = match module {
            Some(module) => &module.imports,
            None => &self.library.at(path).expect("a file").ghost_imports,
        };
        // a whole way, as `Rattle.answer.specs.Checks.Check`, or one that begins with a module brought in
        if let Some((item, between)) = used.members.split_last() {
            let brought = imports
                .iter()
                .find(|import| import.item.is_none() && import.name == used.name);
            let start = match brought {
                Some(import) => Some(import.path.clone()),
                None if TOOLCHAIN.contains(&used.name.as_str()) => Some(vec![used.name.clone()]),
                None if used.name == CRATES => Some(vec![used.name.clone()]),
                None => None,
            };
            if let Some(mut way) = start {
                way.extend_from_slice(between);
                return Ok(vec![self.item(&way, item)?]);
            }
        }
        let part = part_written(&used.name);
        let means = |name: &str| name == used.name || parts(name).contains(&part);
        let mut found = Vec::new();
        for (index, definition) in module
            .iter()
            .flat_map(|module| module.definitions.iter().enumerate())
        {
            if means(&definition.name) || definition.with_it.iter().any(|name| means(name)) {
                found.push(Place::Definition(path.to_string(), index));
            }
        }
        for import in imports.iter().filter(|import| means(&import.name)) {
            if let Some(item) = &import.item {
                found.push(self.item(&import.path, item)?);
            }
        }
        Ok(found)
    }

    /// What a module has under a name, in another module where it is only passed on.
    fn item(&self, way: &[String], item: &str) -> Result<Place, String> {
        if TOOLCHAIN.contains(&way[0].as_str()) {
            return Ok(Place::Toolchain);
        }
        let missing = || format!("{}.{item} is not there", way.join("."));
        let home = match &way[..] {
            [root, home, ..] if root == CRATES => home.as_str(),
            _ => return Err(missing()),
        };
        if home == STD {
            return Ok(Place::Toolchain);
        }
        if way.get(3).is_some_and(|word| word == "declared") {
            let name = way.get(4).ok_or_else(missing)?;
            let code = self.library.code(home).ok_or_else(missing)?;
            let declared = code.type_named(name).ok_or_else(missing)?;
            let known = match way.get(5).map(String::as_str) {
                None => item == name,
                Some("TheVariants") => declared.variants.iter().any(|variant| variant == item),
                Some(_) => false,
            };
            return match known {
                true => Ok(Place::Declared(home.to_string(), name.clone())),
                false => Err(missing()),
            };
        }
        let path = format!("{home}/{}.antt", way[2..].join("/"));
        let module = self.modules.get(&path).ok_or_else(missing)?;
        if let Some(index) = module.definition(item) {
            return Ok(Place::Definition(path, index));
        }
        let passed = module
            .imports
            .iter()
            .find(|import| import.passed_on && import.name == item);
        match passed.and_then(|import| Some((&import.path, import.item.as_ref()?))) {
            Some((way, item)) => self.item(way, item),
            None => Err(missing()),
        }
    }

    /// The type that a name has in the code of a crate.
    fn type_in(&self, home: &str, name: &str) -> Option<Place> {
        let declares = |code: &Code, name: &str| code.type_named(name).is_some();
        let home = self.library.home_of(home, name, declares)?;
        Some(Place::Declared(home, name.to_string()))
    }
}

pub struct Walk<'a> {
    sources: &'a Sources,
    floors: &'a [&'a str],
    /// What was followed, and stands in the repository.
    pub followed: BTreeSet<Place>,
    /// What is still to be followed, each with who names it.
    waiting: Vec<(Place, String)>,
    pub faults: BTreeSet<String>,
}

impl<'a> Walk<'a> {
    pub fn over(sources: &'a Sources, floors: &'a [&'a str]) -> Walk<'a> {
        Walk {
            sources,
            floors,
            followed: BTreeSet::new(),
            waiting: Vec::new(),
            faults: BTreeSet::new(),
        }
    }

    /// Follows every call that a face passes on, and every type; a constant needs a floor to stand on.
    pub fn follow_face(mut self, crate_name: &str) -> Walk<'a> {
        let face = self
            .sources
            .library
            .code(crate_name)
            .expect("the code of a face");
        for (line, form) in &face.unread {
            self.fault(format!(
                "crates/{crate_name}/src/lib.rt:{line}: {form} is not read here"
            ));
        }
        for passed in face.imports.iter().filter(|import| import.passed_on) {
            let home = passed.home.as_str();
            let code = self.sources.library.code(home);
            match code.and_then(|code| code.function_named(&passed.item)) {
                Some(function) => self.follow_function(home, function),
                None if code.is_some_and(|code| code.has_constant(&passed.item)) => {
                    if !self.floors.contains(&home) {
                        self.fault(format!(
                            "{crate_name}::{}: declared on no floor of promises, in {home}",
                            passed.item
                        ));
                    }
                }
                None => self.name_type(
                    home,
                    &passed.item,
                    &format!("{crate_name}::{}", passed.item),
                ),
            }
        }
        self.follow();
        self
    }

    /// Follows every public function of a crate.
    pub fn follow_crate(mut self, home: &str) -> Walk<'a> {
        let code = self
            .sources
            .library
            .code(home)
            .expect("the code of the crate");
        for function in code.functions.iter().filter(|function| function.public) {
            self.follow_function(home, function);
        }
        self.follow();
        self
    }

    /// Follows what every function of a crate promises, of those too that only it can call, but for some.
    pub fn follow_all_but(mut self, home: &str, some: &[&str]) -> Walk<'a> {
        let code = self
            .sources
            .library
            .code(home)
            .expect("the code of the crate");
        let functions = code.functions.iter();
        for function in functions.filter(|own| !some.contains(&own.name.as_str())) {
            self.follow_function(home, function);
        }
        self.follow();
        self
    }

    fn follow_function(&mut self, home: &str, function: &Function) {
        let path = code_path(home);
        let from = format!("{} (crates/{path}:{})", function.name, function.line);
        if function.ensures.is_empty() {
            self.fault(format!("{from}: promises nothing"));
        }
        for name in &function.types {
            self.name_type(home, name, &from);
        }
        let mut names = Names::of(&function.ensures);
        for parameter in &function.parameters {
            names.add_bound(parameter);
        }
        names
            .used
            .retain(|used| !LENT.contains(&used.name.as_str()));
        self.name_all(&path, &names, &from);
    }

    fn follow(&mut self) {
        while let Some((place, from)) = self.waiting.pop() {
            if place == Place::Toolchain || !self.followed.insert(place.clone()) {
                continue;
            }
            match &place {
                Place::Toolchain => {}
                Place::Definition(path, index) => self.follow_definition(path, *index, &from),
                Place::Declared(home, name) => self.follow_type(home, name, &from),
            }
        }
    }

    fn follow_definition(&mut self, path: &str, index: usize, from: &str) {
        let module = &self.sources.modules[path];
        let definition = &module.definitions[index];
        let here = format!("{} (crates/{path}:{})", definition.name, definition.line);
        let stands = |floor: &&str| path.starts_with(&format!("{floor}/specs/"));
        if !self.floors.iter().any(stands) {
            self.fault(format!(
                "{here}: stands on no floor of promises; {from} names it"
            ));
        }
        for (line, form) in &module.unread {
            self.fault(format!("crates/{path}:{line}: {form} is not read here"));
        }
        self.name_all(path, &Names::of(&definition.items), &here);
    }

    fn follow_type(&mut self, home: &str, name: &str, from: &str) {
        let code = self
            .sources
            .library
            .code(home)
            .expect("the code of the type");
        let declared = code.type_named(name).expect("the type");
        let here = format!("{name} (crates/{}:{})", code_path(home), declared.line);
        if !HOMES_OF_TYPES.contains(&home) {
            self.fault(format!(
                "{here}: declared on no floor of promises; {from} names it"
            ));
        }
        for name in &declared.types {
            self.name_type(home, name, &here);
        }
    }

    /// Takes up a type that the code of a crate names, or reports that nothing declares it.
    fn name_type(&mut self, home: &str, name: &str, from: &str) {
        match self.sources.type_in(home, name) {
            Some(place) => self.waiting.push((place, from.to_string())),
            None => self.fault(format!("{from}: nothing declares {name}")),
        }
    }

    /// Takes up each name that a text in a file uses, or reports that nothing has it.
    fn name_all(&mut self, path: &str, names: &Names, from: &str) {
        for used in &names.used {
            let word = &used.name;
            match self.sources.meanings(path, used) {
                Ok(places) if places.is_empty() => {
                    if !names.accounts_for(word) {
                        self.fault(format!("{from}: nothing has the name {word}"));
                    }
                }
                Ok(places) => {
                    let waiting = places.into_iter().map(|place| (place, from.to_string()));
                    self.waiting.extend(waiting);
                }
                Err(why) => self.fault(format!("{from}: {why}")),
            }
        }
    }

    fn fault(&mut self, text: String) {
        self.faults.insert(text);
    }
}
