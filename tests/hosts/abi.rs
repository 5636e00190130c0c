//! Says what the crate for Rust declares of the library, each fact in a line, which `abi` compares with what C says: its structs by their layout, its
//! numbers, and its functions by the text of raw.rs, so that none is left out.
use raw::{CARDS_MAX, KEY_MAX, Pair, RawCounts, RawSettings, START_MAX, Slot};
use std::ffi::c_char;
use std::mem::offset_of;

#[allow(dead_code)]
#[path = "../../bindings/rust/src/raw.rs"]
mod raw;

const TEXT: &str = include_str!("../../bindings/rust/src/raw.rs");

/// How C calls the structs of raw.rs.
const NAMES: [(&str, &str); 5] = [
    ("Pair", "elltree_pair"),
    ("RawMap", "elltree_map"),
    ("RawSettings", "elltree_map_settings"),
    ("RawCounts", "elltree_map_counters"),
    ("Slot", "elltree_slot"),
];

/// The size of a member, by a function that has it from its struct.
fn size_of_member<T, M>(_: fn(T) -> M) -> usize {
    size_of::<M>()
}

/// Says a struct and its members, and does not compile if a member is left out.
macro_rules! say_struct {
    ($type:ident { $($member:ident),* }) => {
        let name = name_of(stringify!($type));
        println!("struct {name} size {}", size_of::<$type>());
        let _ = |$type { $($member: _),* }: $type| ();
        $(println!("struct {name}.{} offset {} size {}", stringify!($member), offset_of!($type, $member), size_of_member(|it: $type| it.$member));)*
    };
}

/// What C calls a struct.
fn name_of(of_rust: &str) -> &'static str {
    NAMES.iter().find(|name| name.0 == of_rust).unwrap_or_else(|| panic!("no name in C is known for {of_rust}")).1
}

/// A type, as `abi` names it.
fn type_of(text: &str) -> String {
    let text = text.trim();
    if let Some(pointee) = ["&mut ", "*mut ", "*const ", "&"].iter().find_map(|pointer| text.strip_prefix(pointer)) {
        return format!("ptr({})", type_of(pointee));
    }
    match text {
        "u64" | "u32" | "i32" | "bool" => text.to_string(),
        "usize" => format!("u{}", usize::BITS),
        "c_char" => format!("{}{}", if c_char::MIN < 0 { 'i' } else { 'u' }, c_char::BITS),
        _ => name_of(text).to_string(),
    }
}

/// Says a function by the text behind `fn elltree_`: the rest of its name, parameters and what it returns.
fn say_function(text: &str) {
    let (name, rest) = text.split_once('(').expect("parameters");
    let (parameters, rest) = rest.split_once(')').expect("an end of the parameters");
    let (returned, _) = rest.trim_start().strip_prefix("->").and_then(|it| it.split_once(';')).expect("a type that it returns");
    let types: Vec<String> = parameters.split(',').filter_map(|it| it.split_once(':')).map(|it| type_of(it.1)).collect();
    println!("function elltree_{name} {} ({})", type_of(returned), types.join(", "));
}

fn main() {
    say_struct!(Pair { key, value });
    say_struct!(RawSettings { cards, renewal_percent, renewal_microseconds, calls, unused });
    say_struct!(RawCounts { sections, cards, renewals, early_renewals, renewal_nanoseconds, pause_nanoseconds, longest_nanoseconds });
    say_struct!(Slot { at, is_open, unused });
    println!("value ELLTREE_KEY_MAX {KEY_MAX}\nvalue ELLTREE_CARDS_MAX {CARDS_MAX}\nvalue ELLTREE_START_MAX {START_MAX}");
    TEXT.split("fn elltree_").skip(1).for_each(say_function);
}
