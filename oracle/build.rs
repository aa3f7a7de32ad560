//! Copies the original parser's text into the build folder and opens its two private readers.
use std::path::{Path, PathBuf};
use std::{env, fs};

const FILES: [&str; 4] = ["mod.rs", "ast.rs", "debug.rs", "exp.rs"];

/// Added at the end of the copy of `mod.rs`, never to the original.
const ACCESSORS: &str = "
impl Parser {
    pub fn oracle_expression(&mut self) -> Result<ast::ExpressionKind, ParserError> {
        self.parse_expression(ExpOrder::Zero)
    }
    pub fn oracle_statement(&mut self) -> Result<ast::StatementKind, ParserError> {
        self.parse_statement()
    }
}
";

/// Public, as the bench builds the original by it too.
pub fn main() {
    println!("cargo:rerun-if-changed=build.rs");
    println!("cargo:rerun-if-env-changed=BOSON_SRC");
    let given = env::var("BOSON_SRC").expect("BOSON_SRC names the folder with boson/src/parser");
    let from = Path::new(&given).join("boson/src/parser");
    let out = PathBuf::from(env::var("OUT_DIR").expect("cargo sets OUT_DIR"));
    let to = out.join("parser");
    fs::create_dir_all(&to).expect("the build folder can be written");
    for name in FILES {
        copy(&from.join(name), &to.join(name));
    }
    let module =
        format!("#[allow(warnings)]\n#[path = {:?}]\npub mod parser;\n", to.join("mod.rs"));
    fs::write(out.join("original.rs"), module).expect("the build folder can be written");
}

/// Copies one file; the module's root gets the accessors.
fn copy(from: &Path, to: &Path) {
    println!("cargo:rerun-if-changed={}", from.display());
    let mut text =
        fs::read_to_string(from).unwrap_or_else(|error| panic!("{}: {}", from.display(), error));
    if from.ends_with("mod.rs") {
        text.push_str(ACCESSORS);
    }
    fs::write(to, text).expect("the build folder can be written");
}
