//! Finds the Rust original in ORACLE_SRC and has its files compiled where they stand: nothing of it is copied into the
//! project. Runs of lines of its attribute.rs (the rules of values, the subscription bits, its own list) are cut out,
//! unchanged, into Cargo's output folder.

use std::path::{Path, PathBuf};
use std::{env, fs, process};

/// Where the original stands when ORACLE_SRC does not say: beside the project.
const BESIDE: &str = "../../../shared/docs/src";

fn main() {
    println!("cargo:rerun-if-env-changed=ORACLE_SRC");
    let source = find_source();
    let out = PathBuf::from(env::var_os("OUT_DIR").expect("cargo names the output folder"));
    write(&out.join("source.rs"), &modules(&source));
    write(&out.join("config.rs"), CONFIG);
    let attribute = read(&source.join("attribute.rs"));
    write(&out.join("values.rs"), &values(&attribute));
    write(&out.join("subscriptions.rs"), from(&attribute, "/// CCCD flag values."));
    write(&out.join("own_list.rs"), &own_list(&attribute));
}

fn find_source() -> PathBuf {
    let named = env::var_os("ORACLE_SRC").filter(|name| !name.is_empty());
    let folder = named.map_or_else(|| PathBuf::from(BESIDE), PathBuf::from);
    match folder.canonicalize() {
        Ok(folder) if folder.join("attribute_server.rs").is_file() => folder,
        _ => fail(&format!(
            "the Rust original is not in {}: name its folder in ORACLE_SRC",
            folder.display()
        )),
    }
}

/// Modules whose files stand in the original's own folder.
fn modules(source: &Path) -> String {
    println!("cargo:rerun-if-changed={}", source.display());
    format!(
        "#[path = {:?}]\npub mod source {{\n    pub mod att;\n    pub mod attribute_server;\n    pub mod codec;\n    \
         pub mod config;\n    pub mod cursor;\n    pub mod types {{\n        pub mod uuid;\n    }}\n}}\n",
        source.to_str().expect("a folder's name in UTF-8")
    )
}

/// Where the kinds of values start.
const DATA: &str = "#[derive(Debug, PartialEq, Eq)]\npub(crate) enum AttributeData<'d>";

fn values(attribute: &str) -> String {
    let parts = [
        until(from(attribute, DATA), "impl From<Uuid> for AttributeData<'_>"),
        until(
            from(attribute, "impl AttributeData<'_> {"),
            "impl fmt::Debug for Attribute<'_>",
        ),
    ];
    parts.concat()
}

/// Permissions, attributes, their iterator with the group ends, and the table of them up to the calls that fill it.
fn own_list(attribute: &str) -> String {
    let permissions =
        "/// Attribute permissions\n#[derive(Default, Debug, Clone, Copy, PartialEq, Eq, PartialOrd, Ord)]";
    let parts = [
        until(
            from(attribute, permissions),
            "/// A GATT characteristic declaration value.",
        ),
        until(from(attribute, "/// Attribute metadata."), DATA),
        until(
            from(attribute, "pub struct AttributeIterator<'a, 'd> {"),
            "/// A GATT service.",
        ),
        until(
            from(attribute, "/// A table of attributes."),
            "    /// Add a service to the attribute table",
        ),
        "}\n",
    ];
    parts.concat()
}

fn from<'a>(text: &'a str, mark: &str) -> &'a str {
    let at = text
        .find(mark)
        .unwrap_or_else(|| fail(&format!("attribute.rs lacks {mark:?}")));
    &text[at..]
}

fn until<'a>(text: &'a str, mark: &str) -> &'a str {
    let at = text
        .find(mark)
        .unwrap_or_else(|| fail(&format!("attribute.rs lacks {mark:?}")));
    &text[..at]
}

fn read(path: &Path) -> String {
    fs::read_to_string(path).unwrap_or_else(|error| fail(&format!("{}: {error}", path.display())))
}

fn write(path: &Path, text: &str) {
    fs::write(path, text).unwrap_or_else(|error| fail(&format!("{}: {error}", path.display())));
}

fn fail(why: &str) -> ! {
    eprintln!("oracle: {why}");
    process::exit(1)
}

/// What the original's own build script writes; the table's size is the requirements'.
const CONFIG: &str = "
pub const CONNECTION_EVENT_QUEUE_SIZE: usize = 2;
pub const L2CAP_TX_QUEUE_SIZE: usize = 8;
pub const L2CAP_RX_QUEUE_SIZE: usize = 8;
pub const DEFAULT_PACKET_POOL_SIZE: usize = 16;
pub const DEFAULT_PACKET_POOL_MTU: usize = 251;
pub const GATT_CLIENT_NOTIFICATION_MAX_SUBSCRIBERS: usize = 1;
pub const GATT_CLIENT_NOTIFICATION_QUEUE_SIZE: usize = 1;
pub const GATT_CLIENT_NOTIFICATION_MTU: usize = 512;
pub const CLIENT_ATT_TABLE_SIZE: usize = 640;
pub const PREPARE_WRITE_BUFFER_SIZE: usize = 512;
";
