// Which struct is meant (document 02, P2), where the Rust's own choice changes from run to run. It is the judge all the same: its analysis
// tells the struct of each base, and with the fields renamed apart its choice is the rule's.
use crate::analysis::{name_of, text, Bases};
use crate::compare::analysis_text;
use crate::image::*;
use crate::node::Node;

/// No name of an image has it.
const DOT: u8 = b'.';

/// The contract with its fields renamed apart: the struct's name and a dot stand before the names of its fields, of its literals' Inits and
/// of the accesses whose base is of it. For the other accesses, which are left, each struct stands there again with its fields as they were.
pub fn parted(img: &[u8], bases: &Bases) -> Vec<u8> {
    let mut top = Node::read(img, rec_at(img, 0));
    let mut again = top.parts[2].parts.clone();
    again.iter_mut().for_each(|s| s.parts[0].bytes.push(DOT));
    rename(img, &mut top, bases);
    top.parts[2].parts.extend(again);
    top.image()
}

fn rename(img: &[u8], n: &mut Node, bases: &Bases) {
    match n.kind {
        STRUCT | STRUCT_LITERAL => {
            let owner = n.parts[0].bytes.clone();
            n.parts[1].parts.iter_mut().for_each(|f| own(&owner, &mut f.parts[0]));
        }
        FIELD_ACCESS => bases.get(&n.at).into_iter().for_each(|s| own(name_of(img, s), &mut n.parts[1])),
        _ => {}
    }
    n.parts.iter_mut().for_each(|p| rename(img, p, bases));
}

fn own(owner: &[u8], name: &mut Node) {
    name.bytes.splice(0..0, owner.iter().copied().chain([DOT]));
}

/// The image with a field that no struct has in some of its accesses, told by their places; no place changes.
pub fn misnamed(img: &[u8], which: impl Fn(usize) -> bool) -> Vec<u8> {
    fn fill(img: &mut [u8], r: Rec, which: &dyn Fn(usize) -> bool) {
        if r.kind == FIELD_ACCESS && which(r.at) {
            let field = r.part(img, 1);
            img[field.body..field.end].fill(DOT);
        }
        let parts: Vec<Rec> = if is_leaf(r.kind) { vec![] } else { r.parts(img).collect() };
        parts.into_iter().for_each(|p| fill(img, p, which));
    }
    let mut out = img.to_vec();
    fill(&mut out, rec_at(img, 0), &which);
    out
}

/// Whether the Rust's analysis finds each base to be of the struct told: with a field that none has it says which struct lacks it, and of
/// all bases that are no declared struct nothing.
pub fn bases_hold(img: &[u8], bases: &Bases) -> Result<(), String> {
    for (&place, s) in bases {
        let said = analysis_text(&decode(&misnamed(img, |at| at == place)));
        let field = ".".repeat(rec_at(img, place).part(img, 1).bytes(img).len());
        if said != format!("SemanticError: Struct {} has no field {field}", text(name_of(img, s))) {
            return Err(format!("of the access at {place} it says \"{said}\""));
        }
    }
    let said = analysis_text(&decode(&misnamed(img, |at| !bases.contains_key(&at))));
    if said.is_empty() {
        Ok(())
    } else {
        Err(format!("of the other accesses it says \"{said}\""))
    }
}
