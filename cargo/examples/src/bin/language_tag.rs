//! Language identifiers, read and printed: `cargo run --bin language_tag -- zh_hant_tw en-latin`.

use tinystr::subtags::LangId;

fn described(tag: &str) -> String {
    match tag.parse::<LangId>() {
        Ok(id) => {
            let script = id.script().map_or(String::new(), |script| format!(", script {script}"));
            let region = id.region().map_or(String::new(), |region| format!(", region {region}"));
            format!("{tag} is {id}: language {}{script}{region}", id.language())
        }
        Err(fault) => format!("{tag}: {fault}"),
    }
}

fn main() {
    let mut tags: Vec<String> = std::env::args().skip(1).collect();
    if tags.is_empty() {
        tags = ["zh_hant_tw", "EN", "es-419", "en-latin"].map(String::from).to_vec();
    }
    for tag in tags {
        println!("{}", described(&tag));
    }
}
