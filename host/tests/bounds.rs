//! Each bound of document 01: at it there is an image that the check accepts, one over it there is none.
mod common;

use common::ast::Contract;
use common::{edges::*, tree::*};
use haspnettle::{analyse, image, Unwritable};

// The image, which the library's check accepts.
fn accepted(contract: &Contract) -> Vec<u8> {
    let img = image(contract).unwrap();
    assert!(analyse(&img).map_or_else(|r| r.number > 7, |()| true));
    img
}

fn bound(what: &str, most: usize, of: impl Fn(usize) -> Contract) {
    accepted(&of(most));
    let over = image(&of(most + 1)).unwrap_err();
    assert!(matches!(over, Unwritable::TooMany { what: w, most: m, found } if (w, m, found) == (what, most, most + 1)), "{over}");
    assert_eq!(over.to_string(), format!("{} {what}, and an image holds {most} at most", most + 1));
}

#[test]
fn storage_256() {
    bound("storage fields", 256, storage);
}

#[test]
fn structs_64() {
    bound("structs", 64, structs);
}

#[test]
fn fields_64() {
    bound("fields in one struct", 64, struct_fields);
}

#[test]
fn functions_256() {
    bound("functions", 256, functions);
}

#[test]
fn inits_64() {
    bound("initial values in one literal", 64, inits);
}

#[test]
fn arguments_64() {
    bound("arguments in one call", 64, args);
}

#[test]
fn emit_has_no_bound() {
    accepted(&logged(65));
}

#[test]
fn names_512() {
    let what = "parameters, Lets and Fors in one function";
    bound(what, 512, |n| names(n, 0, 0));
    bound(what, 512, |n| names(1, 0, n - 1));
    bound(what, 512, |n| names(1, 99, n - 100));
    // The name over is a For.
    bound(what, 512, |n| names(2, n - 257, n - 257));
}

#[test]
fn depth_64() {
    for of in [left_deep, |depth| nested_ifs(depth + 1)] {
        accepted(&of(64));
        assert_eq!(image(&of(65)), Err(Unwritable::TooDeep));
    }
}

#[test]
fn bytes_65_536() {
    assert_eq!(accepted(&sized(65_536)).len(), 65_536);
    assert_eq!(image(&sized(65_537)), Err(Unwritable::TooLong { bytes: 65_537 }));
}

#[test]
fn names_of_64_bytes() {
    let named = |name: &str| Contract { name: name.into(), ..main_of(vec![]) };
    accepted(&named(&"x".repeat(64)));
    for name in ["", "ä", &"x".repeat(65)] {
        assert_eq!(image(&named(name)), Err(Unwritable::Name(name.into())));
    }
    let allowed = "ABCDEFGHIJKLMNOPQRSTUVWXYZabcdefghijklmnopqrstuvwxyz0123456789_:";
    for byte in 0..128u8 {
        let name = char::from(byte).to_string();
        match allowed.contains(&name) {
            true => _ = accepted(&named(&name)),
            false => assert_eq!(image(&named(&name)), Err(Unwritable::Name(name))),
        }
    }
}
