//! Where a new ledger goes, and what is said of it when it has been written there.

use std::ffi::{OsStr, OsString};
use std::path::Path;

use super::source::Source;
use super::{shown, store, tell};

/// Where a ledger goes that was edited or written afresh.
#[derive(Debug, PartialEq, Eq)]
pub enum Destination {
    /// Nowhere: what is said of it is all there is to see.
    Nowhere,
    /// A file that there is not yet.
    New(OsString),
    /// The ledger's own file.
    Own(OsString),
}

/// Writes the new ledger to where it goes, says so, and gives the name by which it is spoken of.
pub fn write(to: &Destination, ledger: &Source, new: &[u8]) -> Result<String, String> {
    let (name, said) = match to {
        Destination::Nowhere => {
            let said = "nothing is written without --output OUT or --in-place";
            (ledger.name.clone(), said.to_string())
        }
        Destination::New(path) => {
            let name = shown_name(path);
            store::create(Path::new(path), new)
                .map_err(|error| format!("cannot write {name}: {error}"))?;
            (name, "written".to_string())
        }
        Destination::Own(path) => {
            let name = ledger.name.clone();
            let kept = store::replace(Path::new(path), &ledger.bytes, new)
                .map_err(|error| format!("cannot write {name}: {error}"))?;
            let kept = shown_name(kept.as_os_str());
            (name, format!("written; what it was before is {kept}"))
        }
    };
    tell(&name, &said);
    Ok(name)
}

fn shown_name(path: &OsStr) -> String {
    shown::text(path.as_encoded_bytes())
}
