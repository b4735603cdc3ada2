//! Definitions as they stand in the files: those of `specs/*.antt`, and the types that `src/*.rt` declares.

use std::collections::HashMap;

/// A definition: where it stands, its own lines (no comment, no blank line), and what its text names.
pub struct Definition {
    pub krate: String,
    pub module: String,
    pub name: String,
    pub file: String,
    /// Its constructors, by which other definitions may name it.
    pub constructors: Vec<String>,
    pub text: Vec<String>,
}

/// The module of the types that `src/` declares.
const DECLARED: &str = "declared";

impl Definition {
    /// Whether it is a type that `src/` declares.
    pub fn is_type(&self) -> bool {
        self.module == DECLARED
    }
}

/// What a name that a file imports stands for: a crate, a module, and the name there. An empty name is the module.
#[derive(Clone)]
pub struct Import {
    pub krate: String,
    pub module: String,
    pub name: String,
}

/// A file's definitions and imports.
pub struct Parsed {
    pub definitions: Vec<Definition>,
    pub imports: HashMap<String, Import>,
}

/// `Rattle.CRATE.specs.MODULE..`: the crate and the module.
fn place_of(path: &str) -> Option<(String, String)> {
    let rest = path.strip_prefix("Rattle.")?;
    let (krate, rest) = rest.split_once('.')?;
    let module = rest.strip_prefix("specs.")?;
    Some((krate.to_string(), module.to_string()))
}

/// Reads one `use` line into the imports.
fn import(line: &str, imports: &mut HashMap<String, Import>) {
    let line = line.trim_end_matches(';');
    let Some((_, path)) = line.split_once("use ") else {
        return;
    };
    if let Some((path, names)) = path.split_once(".{") {
        let Some((krate, module)) = place_of(path) else {
            return;
        };
        for name in names.trim_end_matches('}').split(',') {
            let name = name.trim();
            let (name, local) = name.split_once(" as ").unwrap_or((name, name));
            let target = Import {
                krate: krate.clone(),
                module: module.clone(),
                name: name.to_string(),
            };
            // `◌then◌` is written `then` between its operands
            imports.insert(local.trim_matches('◌').to_string(), target);
        }
        return;
    }
    let (path, alias) = match path.split_once(" as ") {
        Some((path, alias)) => (path, Some(alias)),
        None => (path, None),
    };
    if let Some((krate, module)) = place_of(path) {
        let last = module.rsplit('.').next().unwrap_or("").to_string();
        let local = alias.map_or(last, str::to_string);
        let name = String::new();
        imports.insert(
            local,
            Import {
                krate,
                module,
                name,
            },
        );
    }
}

/// The name that a line begins to define, and whether what is indented below it are its constructors.
fn head(line: &str) -> Option<(&str, bool)> {
    let mut words = line.split_whitespace().peekable();
    let mut marked = false;
    while let Some(&word) = words.peek() {
        if !matches!(word, "unfoldable" | "abbrev" | "pub") {
            break;
        }
        marked = true;
        words.next();
    }
    let first = words.next()?;
    if matches!(first, "data" | "record") {
        return Some((words.next()?, first == "data"));
    }
    (marked && words.next() == Some(":")).then_some((first, false))
}

/// The definitions and imports of a file of `specs/`.
pub fn specification(krate: &str, module: &str, file: &str, text: &str) -> Parsed {
    let mut definitions: Vec<Definition> = Vec::new();
    let mut imports = HashMap::new();
    // the indent of the definition that is being read, and whether it has constructors
    let mut open: Option<(usize, bool)> = None;
    for line in text.lines() {
        let trimmed = line.trim_start();
        let indent = line.len() - trimmed.len();
        if trimmed.is_empty() || trimmed.starts_with("--") {
            continue;
        }
        if indent == 0 && (trimmed.starts_with("use ") || trimmed.starts_with("pub use ")) {
            import(trimmed, &mut imports);
            continue;
        }
        let opens = trimmed.starts_with("module ") || trimmed.ends_with("mutual");
        if opens || trimmed.starts_with("infix") || trimmed.starts_with("pub mod ") {
            open = None;
            continue;
        }
        let inside = open.is_some_and(|(at, _)| indent > at);
        if let (false, Some((name, constructed))) = (inside, head(trimmed)) {
            open = Some((indent, constructed));
            definitions.push(Definition {
                krate: krate.to_string(),
                module: module.to_string(),
                name: name.trim_matches('◌').to_string(),
                file: file.to_string(),
                constructors: Vec::new(),
                text: vec![line.to_string()],
            });
            continue;
        }
        if let Some(last) = definitions.last_mut() {
            last.text.push(line.to_string());
            if let (true, Some((_, true)), Some((constructor, _))) =
                (inside, open, trimmed.split_once(" :"))
            {
                last.constructors.push(constructor.to_string());
            }
        }
    }
    Parsed {
        definitions,
        imports,
    }
}

/// The structs and enums that a file of `src/` declares.
pub fn declared(krate: &str, file: &str, text: &str) -> Vec<Definition> {
    let mut found: Vec<Definition> = Vec::new();
    let mut open = false;
    for line in text.lines() {
        let trimmed = line.trim();
        if open {
            if !trimmed.starts_with("//") {
                if let Some(last) = found.last_mut() {
                    last.text.push(line.to_string());
                }
            }
            open = !line.starts_with('}');
            continue;
        }
        let words: Vec<&str> = trimmed.split_whitespace().collect();
        if let ["pub", "struct" | "enum", name, ..] = words[..] {
            open = trimmed.ends_with('{');
            found.push(Definition {
                krate: krate.to_string(),
                module: DECLARED.to_string(),
                name: name.split('<').next().unwrap_or(name).to_string(),
                file: file.to_string(),
                constructors: Vec::new(),
                text: vec![line.to_string()],
            });
        }
    }
    found
}

/// A public function's contract: the lines that say what it ensures, and those that say what it asks for.
pub struct Contract {
    pub name: String,
    pub ensures: Vec<String>,
    pub requires: Vec<String>,
}

/// The contracts of a file of `src/`, of its methods too, and its ghost imports.
pub fn contracts(text: &str) -> (Vec<Contract>, HashMap<String, Import>) {
    let mut found: Vec<Contract> = Vec::new();
    let mut imports = HashMap::new();
    let mut open = false;
    for line in text.lines() {
        if line.starts_with("ghost use ") {
            import(line, &mut imports);
        }
        let trimmed = line.trim();
        if trimmed.starts_with("pub fn ") || trimmed.starts_with("pub extern \"C\" fn ") {
            let name = trimmed.split("fn ").nth(1).unwrap_or("");
            let name = name.split(['(', '<']).next().unwrap_or("").to_string();
            let (ensures, requires) = (Vec::new(), Vec::new());
            found.push(Contract {
                name,
                ensures,
                requires,
            });
            open = true;
        }
        if let (true, Some(contract)) = (open, found.last_mut()) {
            if trimmed.starts_with("ensures") {
                contract.ensures.push(line.to_string());
            } else if trimmed.starts_with("requires") {
                contract.requires.push(line.to_string());
            }
        }
        open &= trimmed != "{";
    }
    (found, imports)
}

/// The words of a line that may name something: what stands between blanks, brackets and signs. `.kind` is a field.
pub fn words(line: &str) -> impl Iterator<Item = &str> {
    line.split(|c: char| c.is_whitespace() || "(){}[],;λ|×⊎→∷&".contains(c))
        .filter(|word| !word.is_empty() && !word.starts_with('.'))
}

#[cfg(test)]
mod tests {
    use super::*;

    const TEXT: &str = "-- Rule 0.\nuse Rattle.text.specs.Bytes.{is_blank, named as naming}\n\n-- one\nunfoldable pub gap : ℕ → Bool\ngap b = is_blank b\n\npub record Form : Type 0 where\n  pub kind : ℕ\n  pub date : ℕ\n\nmodule _ (s : List ℕ) where\n  abbrev pub two : ℕ\n  two = 2\n";

    #[test]
    fn a_definition_has_its_lines_without_comments() {
        let parsed = specification("text", "Gaps", "text/specs/Gaps.antt", TEXT);
        let sizes: Vec<(&str, usize)> = parsed
            .definitions
            .iter()
            .map(|d| (d.name.as_str(), d.text.len()))
            .collect();
        assert_eq!(sizes, [("gap", 2), ("Form", 3), ("two", 2)]);
        assert!(parsed.definitions[1].constructors.is_empty());
        assert_eq!(parsed.imports["naming"].name, "named");
    }

    #[test]
    fn a_declared_type_has_its_lines() {
        let found = declared("row", "row/src/table.rt", "// A row.\npub struct Row {\n    // its kind\n    pub kind: u32,\n}\n\npub fn f() {\n}\n");
        assert_eq!(found.len(), 1);
        assert_eq!((found[0].name.as_str(), found[0].text.len()), ("Row", 3));
    }

    #[test]
    fn a_contract_is_its_ensures() {
        let (found, imports) = contracts("ghost use Rattle.ledger.specs.Plain.{plain};\npub fn f(s: &[u8]) -> usize\n    ensures value { result ≡ plain s.now }\n{\n}\n");
        assert_eq!(found[0].name, "f");
        assert!(words(&found[0].ensures[0]).any(|w| w == "plain"));
        assert_eq!(imports["plain"].module, "Plain");
    }

    #[test]
    fn a_method_has_a_contract() {
        let (found, _) = contracts("impl R {\n    pub fn at(self) -> usize\n        ensures { result ≡ place self }\n    {\n        self.ensures\n    }\n}\n");
        assert_eq!(
            (found.len(), found[0].name.as_str(), found[0].ensures.len()),
            (1, "at", 1)
        );
    }
}
