//! The names of proteins, under which targets and decoys compete.

use crate::cells::shown;
use vayemuku::Names;

/// Where the decoys of a table come from.
#[derive(Debug, PartialEq)]
pub enum Decoys {
    /// Sage generated them: a decoy is named as the protein that it was made from, with a tag before the name.
    Generated { tag: String },
    /// They are in the FASTA file, with names of their own.
    Fasta,
}

impl Decoys {
    /// Whether the sides of a slot have one name, as sage's picked_protein names them.
    pub fn names(&self) -> Names {
        match self {
            Decoys::Generated { .. } => Names::Two,
            Decoys::Fasta => Names::One,
        }
    }

    /// The name under which a row's protein competes: with generated decoys that of the target, and with decoys of a
    /// FASTA file its own. None where several proteins share the row, or there is none.
    pub fn protein_name<'a>(
        &self,
        label: i32,
        proteins: &'a [u8],
        num_proteins: u32,
    ) -> Result<Option<&'a [u8]>, String> {
        if num_proteins != 1 {
            return Ok(None);
        }
        let Decoys::Generated { tag } = self else {
            return Ok(Some(proteins));
        };
        match (label == -1, proteins.strip_prefix(tag.as_bytes())) {
            (true, Some(name)) => Ok(Some(name)),
            (true, None) => Err(format!(
                "column proteins: '{}' is a decoy by its label, but does not begin with {tag}: see --decoy-tag and \
                 --fasta-decoys",
                shown(proteins)
            )),
            (false, None) => Ok(Some(proteins)),
            (false, Some(_)) => {
                Err(format!("column proteins: '{}' is a target by its label, but begins with {tag}", shown(proteins)))
            }
        }
    }
}

#[cfg(test)]
mod tests {
    use super::*;

    #[test]
    fn generated_decoys_compete_with_their_targets() {
        let decoys = Decoys::Generated { tag: "rev_".into() };
        assert_eq!(decoys.protein_name(1, b"P1", 1), Ok(Some(&b"P1"[..])));
        assert_eq!(decoys.protein_name(-1, b"rev_P1", 1), Ok(Some(&b"P1"[..])));
        assert_eq!(decoys.protein_name(-1, b"rev_P1;rev_P2", 2), Ok(None));
        assert!(decoys.protein_name(-1, b"P1", 1).is_err());
        assert!(decoys.protein_name(0, b"rev_P1", 1).is_err());
    }

    #[test]
    fn decoys_of_a_fasta_file_have_slots_of_their_own() {
        assert_eq!(Decoys::Fasta.protein_name(1, b"P1", 1), Ok(Some(&b"P1"[..])));
        assert_eq!(Decoys::Fasta.protein_name(-1, b"rev_P1", 1), Ok(Some(&b"rev_P1"[..])));
        assert_eq!(Decoys::Fasta.protein_name(-1, b"", 0), Ok(None));
    }
}
