//! The header in C++: nothing in it is warned about, with the warnings on casts.

use std::process::Command;

#[test]
fn the_header_has_no_casts_that_cpp_warns_about() {
    let folder = env!("CARGO_MANIFEST_DIR");
    let mut compiler = Command::new("c++");
    compiler.args(["-std=c++11", "-fsyntax-only", "-Wall", "-Wextra", "-pedantic", "-Werror"]);
    compiler.args(["-Wold-style-cast", "-Wuseless-cast", "-Wconversion", "-Wsign-conversion"]);
    compiler.args([format!("-I{folder}/../../include"), format!("{folder}/tests/header.cpp")]);
    assert!(compiler.status().expect("a C++ compiler").success());
}
