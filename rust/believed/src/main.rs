//! Counts the lines of definitions that a customer must believe: those that the promises of the calls reach, by name,
//! through `specs/`. A line is one of the definition itself: comments, blank lines and imports are not counted.
//!
//! `believed [CRATES]` reads the folder of the crates (`crates` where none is given) and writes how many lines the
//! calls of document 01 reach, these with the demands' statements, and all calls; for the first the share of each crate
//! and the ten longest. Then it names the definitions in `specs/` that neither a call's promise nor a statement
//! reaches: such ones are steps, and stand in `specs/steps/`. Last it looks whether each name stands in the file that
//! `docs/RULES.md` and `docs/LANGUAGE.md`, beside the folder, give for it. It fails where there is such a definition or
//! name, where a call cites a step, where a call or statement that it counts from is not there, and where a call has
//! not the same promise in `lumbrisse_c`, which hands it to C, word for word.

mod pages;
mod source;

use source::{Contract, Definition, Import};
use std::collections::{BTreeMap, BTreeSet, HashMap};
use std::fs;
use std::io::Write;
use std::path::Path;
use std::process::ExitCode;

/// Document 01's calls: the exports, and what Rattle programs call for a span's text and a row.
const DOCUMENT_01: &[(&str, &str)] = &[
    ("lumbrisse", "lumbrisse_read"),
    ("lumbrisse", "lumbrisse_recover"),
    ("lumbrisse", "lumbrisse_expression"),
    ("lumbrisse", "lumbrisse_expression_exact"),
    ("lumbrisse", "lumbrisse_content"),
    ("lumbrisse", "lumbrisse_tag_in_force"),
    ("lumbrisse", "lumbrisse_span"),
    ("access", "text_of"),
    ("access", "row"),
];

/// What document 02 names beside the exports: the display's reader, and the calls that two exports hand on to.
const DOCUMENT_02: &[(&str, &str)] = &[
    ("bus", "open"),
    ("bus", "advance"),
    ("bus", "next"),
    ("bus", "read_at"),
    ("totals", "totals"),
    ("rewrite", "write"),
];

/// The statements of the demands beside the promises: demand 2 is what the promises say.
const DEMANDS: &[(&str, &str, &str)] = &[
    ("lumbrisse", "Demand1", "Demand1"),
    ("recovery", "Demand3", "Demand3"),
    ("recovery", "Demand3", "Demand3Call"),
    ("recovery", "Demand3", "OneRefusalRow"),
];

/// Files of `specs/` that nobody must believe: lists of modules, of what is opened, and examples with what they ask.
const ASIDE: &[&str] = &[
    "Lib",
    "Opened",
    "Examples",
    "steps",
    "Asked",
    "Edges",
    "Easy",
    "Roundings",
];

/// The crate of the exports: all of its public functions are calls, or say what a call answers.
const EXPORTS: &str = "lumbrisse";

/// How a page says where definitions stand.
type Claims = fn(&str) -> Vec<pages::Claim>;

/// The pages that do.
const PAGES: [(&str, Claims); 3] = [
    ("RULES.md", pages::in_tables),
    ("LANGUAGE.md", pages::in_tables),
    ("LANGUAGE.md", pages::in_paragraphs),
];

/// The crate that hands the exports to C: each call has its promise in `EXPORTS` already, in the same words.
const FOR_C: &str = "lumbrisse_c";

/// A program that makes the calls: nobody must believe it.
const PROGRAM: &str = "replay";

/// The contracts of a file of code.
struct Contracts {
    krate: String,
    found: Vec<Contract>,
    imports: HashMap<String, Import>,
}

/// Everything that was read.
#[derive(Default)]
struct Sources {
    definitions: Vec<Definition>,
    /// By crate, module and name: a definition's own, and its constructors'.
    names: HashMap<(String, String, String), usize>,
    /// By crate and name.
    types: HashMap<(String, String), usize>,
    /// The imports of each specification, by crate and module.
    imports: HashMap<(String, String), HashMap<String, Import>>,
    /// The contracts of each file of code, with its crate and imports.
    contracts: Vec<Contracts>,
}

impl Sources {
    fn add(&mut self, definition: Definition) {
        let number = self.definitions.len();
        let key = |name: &str| {
            let module = definition.module.clone();
            (definition.krate.clone(), module, name.to_string())
        };
        if definition.is_type() {
            let name = definition.name.clone();
            self.types.insert((definition.krate.clone(), name), number);
        } else {
            self.names.insert(key(&definition.name), number);
            for constructor in &definition.constructors {
                self.names.entry(key(constructor)).or_insert(number);
            }
        }
        self.definitions.push(definition);
    }

    /// Reads a crate's `specs/*.antt` and `src/**/*.rt`.
    fn read(&mut self, crates: &Path, krate: &str) -> std::io::Result<()> {
        for path in files(&crates.join(krate).join("specs"), "antt")? {
            let module = path
                .file_stem()
                .unwrap_or_default()
                .to_string_lossy()
                .to_string();
            if ASIDE.contains(&module.as_str()) {
                continue;
            }
            let text = fs::read_to_string(&path)?;
            let parsed = source::specification(
                krate,
                &module,
                &format!("{krate}/specs/{module}.antt"),
                &text,
            );
            self.imports
                .insert((krate.to_string(), module), parsed.imports);
            parsed.definitions.into_iter().for_each(|d| self.add(d));
        }
        for path in files(&crates.join(krate).join("src"), "rt")? {
            let text = fs::read_to_string(&path)?;
            let file = path
                .strip_prefix(crates)
                .unwrap_or(&path)
                .to_string_lossy()
                .to_string();
            source::declared(krate, &file, &text)
                .into_iter()
                .for_each(|d| self.add(d));
            let (found, imports) = source::contracts(&text);
            let krate = krate.to_string();
            self.contracts.push(Contracts {
                krate,
                found,
                imports,
            });
        }
        Ok(())
    }

    /// The definition that a crate's module has by a name; of a declared type, by the module's own words.
    fn find(&self, krate: &str, module: &str, name: &str) -> Option<usize> {
        if let Some(path) = module.strip_prefix("declared.") {
            return path
                .split('.')
                .chain([name])
                .filter_map(|word| self.types.get(&(krate.to_string(), word.to_string())))
                .copied()
                .last();
        }
        self.names
            .get(&(krate.to_string(), module.to_string(), name.to_string()))
            .copied()
    }

    /// What a word names, in a file with these imports, of this crate and module.
    fn named(
        &self,
        word: &str,
        imports: &HashMap<String, Import>,
        krate: &str,
        module: &str,
    ) -> Option<usize> {
        let plain = word.trim_matches('.');
        let (first, rest) = plain.split_once('.').unwrap_or((plain, ""));
        if let Some(found) = self.find(krate, module, first) {
            return Some(found);
        }
        let import = imports.get(first)?;
        if import.name.is_empty() {
            let name = rest.split('.').next().unwrap_or("");
            return self.find(&import.krate, &import.module, name);
        }
        self.find(&import.krate, &import.module, &import.name)
            .or_else(|| self.find(&import.krate, &import.module, import.name.trim_matches('◌')))
    }

    /// All that these definitions reach, themselves among them.
    fn reached(&self, roots: impl IntoIterator<Item = usize>) -> BTreeSet<usize> {
        let mut seen = BTreeSet::new();
        let mut left: Vec<usize> = roots.into_iter().collect();
        while let Some(number) = left.pop() {
            if !seen.insert(number) {
                continue;
            }
            let definition = &self.definitions[number];
            let key = (definition.krate.clone(), definition.module.clone());
            let Some(imports) = self.imports.get(&key) else {
                continue;
            };
            let words = definition.text.iter().flat_map(|line| source::words(line));
            left.extend(words.filter_map(|word| self.named(word, imports, &key.0, &key.1)));
        }
        seen
    }

    /// What the contracts of these functions name.
    fn roots(&self, wanted: impl Fn(&str, &str) -> bool) -> Vec<usize> {
        let mut roots = Vec::new();
        for file in &self.contracts {
            let krate = &file.krate;
            for contract in file.found.iter().filter(|c| wanted(krate, &c.name)) {
                let words = contract.ensures.iter().flat_map(|line| source::words(line));
                roots.extend(words.filter_map(|word| self.named(word, &file.imports, krate, "")));
            }
        }
        roots
    }

    /// The calls and statements named above that are not there, or promise nothing: a count would leave them out unsaid.
    fn absent(&self) -> Vec<String> {
        let promises = |krate: &str, name: &str| {
            let files = self.contracts.iter().filter(|file| file.krate == krate);
            let mut contracts = files.flat_map(|file| &file.found);
            contracts.any(|c| c.name == name && !c.ensures.is_empty())
        };
        let calls = DOCUMENT_01.iter().chain(DOCUMENT_02);
        let calls = calls.filter(|(krate, name)| !promises(krate, name));
        let calls = calls.map(|(krate, name)| format!("      {name} ({krate})\n"));
        let demands = DEMANDS.iter();
        let demands =
            demands.filter(|(krate, module, name)| self.find(krate, module, name).is_none());
        let demands = demands.map(|(krate, _, name)| format!("      {name} ({krate})\n"));
        calls.chain(demands).collect()
    }

    /// The calls that C has without the promise that they have in `EXPORTS`, word for word, or that it has not.
    fn apart_for_c(&self) -> Vec<String> {
        let of = |krate: &str| {
            let files = self.contracts.iter().filter(|file| file.krate == krate);
            let contracts = files.flat_map(|file| &file.found);
            let calls = contracts.filter(|c| c.name.starts_with("lumbrisse_"));
            let calls = calls.map(|c| (c.name.clone(), (c.requires.clone(), c.ensures.clone())));
            calls.collect::<BTreeMap<_, _>>()
        };
        let (exports, for_c) = (of(EXPORTS), of(FOR_C));
        let names: BTreeSet<&String> = exports.keys().chain(for_c.keys()).collect();
        let apart = names
            .into_iter()
            .filter(|&name| exports.get(name) != for_c.get(name));
        apart
            .map(|name| format!("      {name} ({FOR_C})\n"))
            .collect()
    }

    /// The public functions whose contract names a step, as crate and name; and how many public functions there are.
    fn citing_steps(&self) -> (Vec<(&str, &str)>, usize) {
        let mut citing = Vec::new();
        let mut count = 0;
        let aside = [PROGRAM, FOR_C];
        for file in self.contracts.iter() {
            if aside.contains(&file.krate.as_str()) {
                continue;
            }
            let is_step = |word: &str| {
                let import = file.imports.get(word.split('.').next().unwrap_or(word));
                import.is_some_and(|import| import.module.starts_with("steps."))
            };
            for contract in &file.found {
                count += 1;
                let mut lines = contract.ensures.iter().chain(&contract.requires);
                if lines.any(|line| source::words(line).any(is_step)) {
                    citing.push((file.krate.as_str(), contract.name.as_str()));
                }
            }
        }
        (citing, count)
    }

    /// What is claimed of every input: closed statements, and those that a profile alone is left open in.
    fn statements(&self) -> impl Iterator<Item = usize> + '_ {
        let numbered = self.definitions.iter().enumerate();
        let closed = |line: &str| {
            let line = line.trim_end_matches(" where");
            let kinds = [" : Type 0", " : Type 1", " : Profile → Type 0"];
            kinds.iter().any(|kind| line.ends_with(kind))
        };
        let stated =
            move |d: &Definition| !d.is_type() && d.text.first().is_some_and(|line| closed(line));
        numbered
            .filter(move |(_, d)| stated(d))
            .map(|(number, _)| number)
    }

    /// The lines of the definitions among these, or of the declared types.
    fn lines(&self, numbers: &BTreeSet<usize>, types: bool) -> usize {
        let those = numbers.iter().map(|&n| &self.definitions[n]);
        let those = those.filter(|d| d.is_type() == types);
        those.map(|d| d.text.len()).sum()
    }
}

/// The files below a folder with an ending, in order; those of `specs/steps` are not asked for.
fn files(folder: &Path, ending: &str) -> std::io::Result<Vec<std::path::PathBuf>> {
    let mut found = Vec::new();
    if !folder.is_dir() {
        return Ok(found);
    }
    for entry in fs::read_dir(folder)? {
        let path = entry?.path();
        if path.is_dir() && ending == "rt" {
            found.extend(files(&path, ending)?);
        } else if path.extension().is_some_and(|e| e == ending) {
            found.push(path);
        }
    }
    found.sort();
    Ok(found)
}

/// One line for a set of definitions.
fn told(sources: &Sources, what: &str, numbers: &BTreeSet<usize>) -> String {
    let (lines, types) = (sources.lines(numbers, false), sources.lines(numbers, true));
    format!("{lines:5} {types:5}   {what}\n")
}

/// The whole report, and whether every definition in `specs/` is reached, no call cites a step and none is missing.
fn report(sources: &Sources) -> (String, bool) {
    let first = sources.reached(sources.roots(|krate, name| DOCUMENT_01.contains(&(krate, name))));
    let listed = |call: (&str, &str)| DOCUMENT_01.contains(&call) || DOCUMENT_02.contains(&call);
    let all =
        sources.reached(sources.roots(|krate, name| krate == EXPORTS || listed((krate, name))));
    let demands = DEMANDS
        .iter()
        .filter_map(|(krate, module, name)| sources.find(krate, module, name));
    let stated = sources.reached(first.iter().copied().chain(demands));
    let mut out =
        String::from("lines of definitions, and of declared types, that are reached from\n");
    out += &told(sources, "the promises of document 01's calls", &first);
    out += &told(
        sources,
        "these, and the statements of demands 1 and 3",
        &stated,
    );
    out += &told(sources, "the promises of all calls", &all);

    out += "\nof document 01's calls, by crate:\n";
    let mut shares: BTreeMap<&str, usize> = BTreeMap::new();
    for &number in &first {
        let definition = &sources.definitions[number];
        *shares.entry(&definition.krate).or_default() += definition.text.len();
    }
    shares
        .iter()
        .for_each(|(krate, lines)| out += &format!("{lines:5} {krate}\n"));

    out += "\nthe ten longest:\n";
    let mut longest: Vec<&Definition> = first.iter().map(|&n| &sources.definitions[n]).collect();
    longest.retain(|definition| !definition.is_type());
    longest.sort_by_key(|definition| std::cmp::Reverse(definition.text.len()));
    for definition in longest.iter().take(10) {
        let (name, file) = (&definition.name, &definition.file);
        out += &format!("{:5} {name} ({file})\n", definition.text.len());
    }

    let (citing, count) = sources.citing_steps();
    let calls = citing
        .iter()
        .filter(|&&(krate, name)| krate == EXPORTS || listed((krate, name)));
    let calls: Vec<String> = calls
        .map(|(krate, name)| format!("      {name} ({krate})\n"))
        .collect();
    out += &format!(
        "\nof {count} public functions {} cite a step, of the calls {}\n",
        citing.len(),
        calls.len()
    );
    out += &calls.concat();

    let used = sources.reached(all.iter().copied().chain(sources.statements()));
    let numbered = sources.definitions.iter().enumerate();
    let unused =
        numbered.filter(|(number, d)| !d.is_type() && d.krate != PROGRAM && !used.contains(number));
    let unused: Vec<String> = unused
        .map(|(_, d)| format!("      {} ({})\n", d.name, d.file))
        .collect();
    out += &format!(
        "\nof specs/, reached from no call and no statement: {}\n",
        unused.len()
    );
    out += &unused.concat();

    let absent = sources.absent();
    out += &format!(
        "\nof the calls and statements, not there: {}\n",
        absent.len()
    );
    out += &absent.concat();

    let apart = sources.apart_for_c();
    out += &format!(
        "\nof the calls, not there for C with the same promise: {}\n",
        apart.len()
    );
    out += &apart.concat();
    (
        out,
        unused.is_empty() && calls.is_empty() && absent.is_empty() && apart.is_empty(),
    )
}

/// The names that the pages look for in the wrong file, as a report, and how many there are.
fn pages_report(crates: &Path) -> std::io::Result<(String, usize)> {
    let docs = crates.join("../docs");
    let mut out = String::new();
    let (mut looked, mut wrong) = (0, 0);
    for (page, claims_of) in PAGES {
        let claims = claims_of(&fs::read_to_string(docs.join(page))?);
        let told = pages::wrong(page, &claims, crates);
        looked += claims.len();
        wrong += told.len();
        out += &told.concat();
    }
    let head = format!("\nof {looked} names in the pages, not where the page says: {wrong}\n");
    Ok((head + &out, wrong))
}

/// Reads every crate in the folder.
fn read(crates: &Path) -> std::io::Result<Sources> {
    let mut sources = Sources::default();
    let entries = fs::read_dir(crates)?.collect::<Result<Vec<_>, _>>()?;
    let mut names: Vec<String> = entries
        .iter()
        .map(|e| e.file_name().to_string_lossy().to_string())
        .collect();
    names.sort();
    for name in &names {
        sources.read(crates, name)?;
    }
    Ok(sources)
}

fn main() -> ExitCode {
    let folder = std::env::args()
        .nth(1)
        .unwrap_or_else(|| "crates".to_string());
    let crates = Path::new(&folder);
    let told = read(crates).and_then(|sources| Ok((report(&sources), pages_report(crates)?)));
    let ((text, apart), (pages, wrong)) = match told {
        Ok(told) => told,
        Err(error) => {
            eprintln!("believed: {folder}: {error}");
            return ExitCode::from(2);
        }
    };
    // a reader that has seen enough closes the pipe
    let _ = std::io::stdout().write_all((text + &pages).as_bytes());
    if apart && wrong == 0 {
        ExitCode::SUCCESS
    } else {
        ExitCode::FAILURE
    }
}
