// Links target/lib/libmooringelm.a, which `make lib` writes (or the one in the folder MOORINGELM_LIB), and takes the
// version and the refusals' sentences from the header, where they are said once.
use std::{env, fs, path::Path};

/// The text of a `#define NAME "text"`.
fn defined<'a>(header: &'a str, name: &str) -> &'a str {
    let rest = header
        .split(&format!("#define {name} \""))
        .nth(1)
        .expect("the header defines it");
    rest.split('"').next().unwrap()
}

fn main() {
    let root = env::var("CARGO_MANIFEST_DIR").unwrap();
    let lib = env::var("MOORINGELM_LIB").unwrap_or_else(|_| format!("{root}/../../target/lib"));
    println!("cargo:rerun-if-env-changed=MOORINGELM_LIB");
    println!("cargo:rustc-link-search=native={lib}");
    println!("cargo:rustc-link-lib=static=mooringelm");
    println!("cargo:rerun-if-changed={lib}/libmooringelm.a");

    let path = format!("{root}/../../include/mooringelm.h");
    println!("cargo:rerun-if-changed={path}");
    let header = fs::read_to_string(&path).expect("include/mooringelm.h");
    let arms: String = header
        .lines()
        .filter_map(|line| line.trim().strip_prefix("case ")?.split_once(": return "))
        .map(|(number, text)| format!("        {number} => {},\n", text.trim_end_matches(';')))
        .collect();
    assert!(
        arms.contains("18 => "),
        "the header's sentences were not found"
    );
    let version = defined(&header, "MEL_VERSION");
    let text = format!(
        "/// The version of the library.\npub const VERSION: &str = \"{version}\";\n\n\
         /// What a refusal number means, as in the header.\npub fn refusal_text(number: u32) -> &'static str {{\n    \
         match number {{\n{arms}        _ => \"unknown refusal number\",\n    }}\n}}\n"
    );
    let out = env::var("OUT_DIR").unwrap();
    fs::write(Path::new(&out).join("header.rs"), text).unwrap();
}
