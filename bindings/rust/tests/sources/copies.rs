//! No function of the library takes, makes or hands back an array, a struct or an enum of 4,096 bytes or more, behind a reference
//! neither; constants aside. The product is read from the lent table, by one function.

use super::reading::library::Library;
use super::reading::repository::Repository;
use super::sizes::Sizes;

/// As many crates, arrays, and structs and enums together had the library when this was written. Raise them as it grows: fewer would
/// mean that some are not found.
const FOUND: [usize; 3] = [111, 80, 40];

#[test]
fn nothing_in_the_library_is_as_large_as_a_table() {
    let repository = Repository::here();
    let library = Library::of(&repository);
    let sizes = Sizes::of(&repository, &library);
    assert!(
        sizes.faults.is_empty(),
        "{} faults:\n{}",
        sizes.faults.len(),
        sizes.faults.join("\n")
    );
    let declared = sizes.structs + sizes.enums;
    let found = [sizes.crates.len(), sizes.arrays, declared];
    println!("crates, arrays, structs and enums: {found:?}");
    assert!(
        found
            .iter()
            .zip(FOUND)
            .all(|(found, least)| *found >= least),
        "only {found:?} were found"
    );
}

#[test]
fn one_function_reads_the_product_from_the_lent_table() {
    let repository = Repository::here();
    let library = Library::of(&repository);
    let products = Sizes::of(&repository, &library).products();
    assert_eq!(products, [("rule_table::product".to_string(), true)]);
}

/// The made-up library with the code of one crate.
fn made_up(code: &str) -> Repository {
    Repository::made_up(&[
        (
            "crates.txt",
            "# made up\nengine: sizes\nsizes:\nrules: engine\nexports: rules\nexports_c staticlib: exports\nrun: rules\n",
        ),
        ("rules/src/lib.rt", "pub use engine::call;\n"),
        ("exports/src/lib.rt", ""),
        ("exports_c/src/lib.rt", ""),
        (
            "sizes/src/lib.rt",
            "pub const ROW: usize = 64;\npub const TABLE: usize = ROW * ROW;\npub struct Row {\n    pub bytes: [u8; ROW],\n}\n",
        ),
        ("engine/src/lib.rt", code),
        (
            "run/src/main.rt",
            "fn main() {\n    let mut scratch = [0u8; 65536];\n}\n",
        ),
    ])
}

/// The faults of the made-up library, without their places.
fn faults(code: &str) -> Vec<String> {
    let repository = made_up(code);
    let library = Library::of(&repository);
    let faults = Sizes::of(&repository, &library).faults.into_iter();
    faults
        .map(|fault| {
            let (_, rest) = fault.split_once(".rt:").expect("a place");
            rest.split_once(": ").expect("a line").1.to_string()
        })
        .collect()
}

const NONE: [&str; 0] = [];

#[test]
fn a_small_array_and_a_large_constant_pass() {
    let text = "use sizes::Row;
use sizes::ROW;
const READY: [u8; 6561] = [0; 6561];
// [0u8; 4096]
pub struct Pair(Row, [u8; 4000]);
fn below(table: &[u8], rows: [[u8; ROW]; 63], last: &[u8; 4095]) -> [u64; 511]
    ensures { result ≡ [u8; 4096] }
{
    let small = [Row { bytes: [0; 64] }; 63];
    other(&READY, table[4096]);
    [0; 511]
}
";
    assert_eq!(faults(text), NONE);
    let repository = made_up(text);
    let library = Library::of(&repository);
    let sizes = Sizes::of(&repository, &library);
    let found = (sizes.crates.len(), sizes.arrays, sizes.structs, sizes.enums);
    // ROW's, 4000; [u8; ROW], 63, 4095, 511; of Row, 64, 511
    assert_eq!(found, (5, 9, 2, 0));
}

#[test]
fn a_table_by_value_is_found() {
    assert_eq!(
        faults("pub fn call(table: [u8; 4096]) {}\n"),
        ["[ u8 ; 4096 ]: 4096 bytes"]
    );
    assert_eq!(
        faults("fn call() -> [u16; 2048]\n{\n    make()\n}\n"),
        ["[ u16 ; 2048 ]: 4096 bytes"]
    );
    assert_eq!(
        faults("fn call() {\n    let table = [0u8; 4096];\n}\n"),
        ["[ 0u8 ; 4096 ]: 4096 bytes"]
    );
    // a number without its type may be of 8 bytes
    assert_eq!(
        faults("fn call() {\n    let table = [0; 512];\n}\n"),
        ["[ 0 ; 512 ]: 4096 bytes"]
    );
    let listed = vec!["0"; 512].join(", ");
    assert_eq!(faults(&format!("fn call() {{ [{listed}] }}\n")).len(), 1);
    let quoted = "x".repeat(4096);
    assert_eq!(
        faults(&format!("fn call() {{ other(b\"{quoted}\") }}\n")),
        ["b \" \": 4096 bytes"]
    );
}

#[test]
fn a_table_behind_a_reference_is_found() {
    assert_eq!(
        faults("fn call<'a>(table: &'a mut [u8; 4096]) {}\n"),
        ["[ u8 ; 4096 ]: 4096 bytes"]
    );
    assert_eq!(
        faults("fn call(table: &[[u8; 64]; 64]) {}\n"),
        ["[ [ u8 ; 64 ] ; 64 ]: 4096 bytes"]
    );
}

#[test]
fn a_struct_of_two_halves_is_found() {
    assert_eq!(
        faults("struct Table {\n    pub first: [u8; 2048],\n    pub second: [u8; 2048],\n}\n"),
        ["Table: 4096 bytes"]
    );
    assert_eq!(
        faults("struct Table([u8; 2048], [u8; 2041], u64);\n"),
        ["Table: 4104 bytes"]
    );
    assert_eq!(
        faults("struct Half {\n    row: [u64; 256],\n}\nstruct Table {\n    first: Half,\n    second: &'a Half,\n}\n"),
        ["Table: 4096 bytes"]
    );
}

#[test]
fn nested_rows_are_found() {
    assert_eq!(
        faults("fn call(table: [[u8; 64]; 64]) {}\n"),
        ["[ [ u8 ; 64 ] ; 64 ]: 4096 bytes"]
    );
    let row = "use sizes::Row;\nfn call(row: Row) {\n";
    assert_eq!(
        faults(&format!(
            "{row}    let table = [Row {{ bytes: [0; 64] }}; 64];\n}}\n"
        )),
        ["[ Row { bytes : [ 0 ; 64 ] } ; 64 ]: 4096 bytes"]
    );
    assert_eq!(
        faults("fn call(table: &[sizes::Row; 64]) {}\n"),
        ["[ sizes : : Row ; 64 ]: 4096 bytes"]
    );
}

#[test]
fn an_enum_with_a_table_is_found() {
    assert_eq!(
        faults(
            "enum Answer {\n    Nothing,\n    Table([u64; 600]),\n    Place { at: usize },\n}\n"
        ),
        ["Answer: 4808 bytes", "[ u64 ; 600 ]: 4800 bytes"]
    );
    assert_eq!(
        faults("enum Answer {\n    Table { first: [u8; 2048], second: [u8; 2040] },\n}\n"),
        ["Answer: 4096 bytes"]
    );
}

#[test]
fn a_length_by_name_is_found() {
    let own = "const HALF: usize = 2 * 1_024;\nfn call(table: [u8; (HALF + HALF)]) {}\n";
    assert_eq!(faults(own), ["[ u8 ; ( HALF + HALF ) ]: 4096 bytes"]);
    let brought = "use sizes::TABLE;\nfn call(table: [u8; TABLE]) {}\n";
    assert_eq!(faults(brought), ["[ u8 ; TABLE ]: 4096 bytes"]);
    let path = "fn call(table: [u8; sizes::TABLE]) {}\n";
    assert_eq!(faults(path), ["[ u8 ; sizes : : TABLE ]: 4096 bytes"]);
}

#[test]
fn the_bytes_of_a_number_pass() {
    let read = "fn call(out: &[u8]) -> u16 {\n    u16::from_le_bytes([out[0], out[1]])\n}\n";
    assert!(faults(read).is_empty());
    let written = "fn call(number: u16) -> u8 {\n    let [low, high] = number.to_le_bytes();\n    low\n}\n";
    assert!(faults(written).is_empty());
    let other = "fn call() {\n    let [low, high] = rows();\n}\n";
    assert_eq!(
        faults(other),
        ["[ low , high ]: the size of low is not known"]
    );
}

#[test]
fn what_has_no_known_size_is_found() {
    assert_eq!(
        faults("fn call(table: [u8; TABLE]) {}\n"),
        ["[ u8 ; TABLE ]: the length TABLE is not known"]
    );
    assert_eq!(
        faults("fn call(table: [u8; 64 - 1]) {}\n"),
        ["[ u8 ; 64 - 1 ]: the length 64 - 1 is not known"]
    );
    assert_eq!(
        faults("fn call(row: [u8; 64]) {\n    let table = [row; 2];\n}\n"),
        ["[ row ; 2 ]: the size of row is not known"]
    );
    assert_eq!(
        faults("fn call() {\n    let table = [Other::rows(); 2];\n}\n"),
        ["[ Other : : rows ( ) ; 2 ]: the size of Other : : rows ( ) is not known"]
    );
    assert_eq!(
        faults("type Line = [u8; 64];\nstruct Lines {\n    first: Line,\n}\n"),
        ["Lines: the size of Line is not known"]
    );
    assert_eq!(
        faults("struct Own {\n    own: Own,\n}\n"),
        ["Own: holds itself"]
    );
    let two = "fn one() {\n    const N: usize = 1;\n}\nfn two() {\n    const N: usize = 4096;\n    let table = [0u8; N];\n}\n";
    assert_eq!(faults(two), ["[ 0u8 ; N ]: the length N is not known"]);
}

#[test]
fn a_copy_of_a_large_constant_is_found() {
    let text = "const READY: [u8; 6561] = [0; 6561];\nfn call() {\n    let table = READY;\n    let lent = &READY;\n    other(READY);\n    other(&READY);\n}\n";
    let fault = "READY: is named and not only lent";
    assert_eq!(faults(text), [fault; 3]);
}

#[test]
fn a_large_constant_that_a_second_function_names_is_found() {
    let constant = "const READY: [u8; 6561] = [0; 6561];\n";
    let lends = |name: &str| format!("fn {name}() {{\n    other(&READY);\n}}\n");
    let one = format!("{constant}{}", lends("one"));
    assert_eq!(faults(&one), NONE);
    let fault = "READY: is named a second time";
    assert_eq!(faults(&format!("{one}{}", lends("second"))), [fault]);
    let twice = format!("{constant}fn one() {{\n    other(&READY, &READY);\n}}\n");
    assert_eq!(faults(&twice), [fault]);
}

#[test]
fn a_file_that_is_not_read_is_found() {
    let files = [
        (
            "crates.txt",
            "rules:\nexports: rules engine\nexports_c staticlib: exports\nengine:\n",
        ),
        ("rules/src/lib.rt", ""),
        ("rules/src/other.rt", ""),
        ("exports/src/lib.rt", ""),
        ("exports_c/src/lib.rt", ""),
    ];
    let repository = Repository::made_up(&files);
    let library = Library::of(&repository);
    assert_eq!(
        Sizes::of(&repository, &library).faults,
        [
            "crates/rules/src/other.rt: is not read here",
            "engine has no code"
        ]
    );
}

#[test]
fn a_product_that_is_not_read_from_the_lent_table_is_found() {
    let product = |kind: &str, body: &str| {
        let text = format!(
            "pub fn product(rule: {kind}, n: usize, a: usize, b: usize) -> usize
    ensures {{ result ≡ product_at rule.now n a b }}
{{
    {body}
}}
"
        );
        let repository = made_up(&text);
        let library = Library::of(&repository);
        Sizes::of(&repository, &library).products()
    };
    let found = |is_read: bool| vec![("engine::product".to_string(), is_read)];
    assert_eq!(
        product("&[u8]", "rule[1 + (a * n + b)] as usize"),
        found(true)
    );
    assert_eq!(
        product("&[u8; 1024]", "rule[1 + (a * n + b)] as usize"),
        found(false)
    );
    assert_eq!(
        product(
            "&[u8]",
            "let table = copied(rule); table[a * n + b] as usize"
        ),
        found(false)
    );
    let second = "rule[0] as usize\n}\nfn again(rule: &[u8]) -> usize
    ensures { result ≡ product_at rule.now 1 0 0 }
{\n    product(rule, 1, 0, 0)";
    assert_eq!(product("&[u8]", second).len(), 2);
}
