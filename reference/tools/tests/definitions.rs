//! The writer of the throw-away repository that checks the definitions. The check itself needs rt.

use std::path::{Path, PathBuf};
use std::{env, fs, process};
use tools::definitions::bundles;
use tools::definitions::cases;
use tools::definitions::ceilings;
use tools::definitions::ends;
use tools::definitions::inputs;
use tools::definitions::opened::unfoldable_names;
use tools::definitions::repository::write_repository;
use tools::definitions::runs;

fn repository() -> PathBuf {
    Path::new(env!("CARGO_MANIFEST_DIR")).join("../..")
}

/// A folder outside the repository that is removed in the end.
struct Temporary(PathBuf);

impl Drop for Temporary {
    fn drop(&mut self) {
        let _ = fs::remove_dir_all(&self.0);
    }
}

#[test]
fn a_repository_is_written_into_an_empty_folder_outside() {
    let temporary = Temporary(env::temp_dir().join(format!("definitions-{}", process::id())));
    let folder = &temporary.0;
    let figures = write_repository(&repository(), folder, 1, 60).expect("an empty folder");
    assert!(figures.starts_with("cases: 60 rows; "));
    assert!(figures.contains("bundles: 12 rows; "));
    assert!(figures.contains("runs: 15 rows; "));
    assert!(figures.contains("inputs: 12 rows; "));
    assert!(figures.contains("ceilings: 30 rows; "));
    assert!(figures.contains("ends: 30 rows; "));
    assert!(figures.contains("a unit is in ") && !figures.contains("a unit is in 0 "));

    let crosscheck = folder.join("crates/crosscheck");
    let text = |name: &str| fs::read_to_string(crosscheck.join(name)).expect("a module");
    assert_eq!(
        text("proofs/Lib.antt"),
        "pub mod Cases1\npub mod Cases2\npub mod Bundles1\npub mod Runs1\npub mod Inputs1\npub mod Ceilings1\npub mod Ends1\n"
    );
    assert_eq!(text("proofs/Cases1.antt").matches("record {").count(), 50);
    assert_eq!(text("proofs/Cases2.antt").matches("record {").count(), 10);
    assert!(text("proofs/Runs1.antt").contains("\nagree = refl\n"));
    let crates = fs::read_to_string(folder.join("crates.txt")).expect("a list of crates");
    assert_eq!(crates.lines().count(), 6);

    assert!(write_repository(&repository(), folder, 1, 1).is_err());
    let inside = folder.join("crates/inside");
    assert!(write_repository(folder, &inside, 1, 1).is_err());
}

#[test]
fn every_unfoldable_definition_is_opened() {
    let text = "
unfoldable pub first : A → B
abbrev pub second : A
  unfoldable mutual
    unfolding first

    pub third : A

    pub fourth : A
pub record Fifth : Type 0 where
  pub sixth : A
unfoldable pub seventh : A
";
    assert_eq!(unfoldable_names(text), ["first", "third", "seventh"]);
}

#[test]
fn a_row_has_what_the_line_says() {
    let row = cases::row(
        "0 1073741824;;1;0;7;8;9;10;0;1;2;1 2;11 12;0;1;0;1;0;1;9223372036854775808 0 0 0",
    );
    for field in [
        "types = 0 ∷ 1073741824 ∷ [];",
        "calls = [];",
        "budget = 7; output = 8; scratch₁ = 9; scratch₂ = 10;",
        "refusal = 0; type = 1; length' = 2;",
        "counts = 1 ∷ 2 ∷ [];",
        "normal_form = 11 ∷ 12 ∷ [];",
        "unchanged = 6;",
        "check_refusal = 0; check_type = 1; normal_refusal = 0; yes = true;",
        "inputs_refusal = 0; inputs_count = 1;",
        "inputs_marks = 9223372036854775808 ∷ 0 ∷ 0 ∷ 0 ∷ [];",
        "node_types' = some (1 ∷ []);",
        "insertions = 1;",
    ] {
        assert!(row.contains(field), "{field}");
    }
    let row = bundles::row("00ff;6e0a");
    assert!(row.contains("bundle = 0 ∷ 255 ∷ [];") && row.contains("written = 110 ∷ 10 ∷ [];"));
    let row = inputs::row("0;;0;0;3;2;4 5 6 7");
    for field in [
        "inputs = 0 ∷ [];",
        "inputs_refusal = 3; inputs_count = 2;",
        "inputs_marks = 4 ∷ 5 ∷ 6 ∷ 7 ∷ [];",
    ] {
        assert!(row.contains(field), "{field}");
    }
    let row = ceilings::row("0;;0;0;7;1 2;8;9;10;13;0;0;1 0;");
    for field in [
        "budget = 7;",
        "ceilings = 1 ∷ 2 ∷ [];",
        "output = 8; scratch₁ = 9; scratch₂ = 10;",
        "refusal = 13; type = 0; length' = 0;",
        "counts = 1 ∷ 0 ∷ [];",
        "normal_form = [];",
        "unchanged = 8;",
    ] {
        assert!(row.contains(field), "{field}");
    }
    let row = ends::row("0 1;2 3 4;2");
    assert!(row.contains("calls = 0 ∷ 1 ∷ [];") && row.contains("words = 2 ∷ 3 ∷ 4 ∷ [];"));
    assert!(row.contains("end = some 2;") && ends::row(";;-").contains("end = none;"));
    let row = runs::row("0;0 9223372036854775808;0;0;n 1 p l n 2 r n 3;n 4;1:|0:n 5,n 6");
    for field in [
        "values = (also (num 1) (also (tuple (left (num 2)) (right (num 3))) empty));",
        "answer = (num 4);",
        "trace = record { number = 1; arguments = empty } ∷ record { number = 0; arguments = (also (num 5) (also (num 6) empty)) } ∷ [];",
        "acting = record { number = 1; arguments = empty } ∷ [];",
    ] {
        assert!(row.contains(field), "{field}");
    }
    let row = runs::row("0;0;0;0;u p u n 1;l u;2:u");
    for field in [
        "values = (also trivial (also (tuple trivial (num 1)) empty));",
        "answer = (left trivial);",
        "trace = record { number = 2; arguments = (also trivial empty) } ∷ [];",
        "acting = [];",
    ] {
        assert!(row.contains(field), "{field}");
    }
}
