//! Subgroups that own their tables.

use subgroups::{fold, fold_sizes, Cause, Subgroup, ABSENT};

const LIST: &str = "aaB\nbAba\nabA\naaaaaa\n";

#[test]
fn small_graphs() {
    let basis = |n, list| Subgroup::fold(n, list).unwrap().basis_list().unwrap();
    assert_eq!(basis(2, ""), "");
    assert_eq!(basis(2, "aA\n"), "");
    assert_eq!(basis(2, "bb\nbbb\n"), "b\n");
    assert_eq!(basis(2, "ab\nab\n"), "ab\n");
    assert_eq!(basis(2, "abA\n"), "abA\n");
    assert_eq!(basis(1, "aaa\n"), "aaa\n");
    assert_eq!(basis(2, LIST), "b\naa\nabA\n");
}

#[test]
fn the_table_is_cut_to_its_rows() {
    let h = Subgroup::fold(2, LIST).unwrap();
    assert_eq!((h.table().n, h.table().points, h.table().cells), (2, 2, &[1, 1, 0, 0, 0, 0, 1, 1][..]));
    let long = Subgroup::from_cells(2, 2, vec![1, 1, 0, 0, 0, 0, 1, 1, 9]).unwrap();
    assert_eq!(h, long);
}

#[test]
fn a_basis_folds_back() {
    for list in ["", LIST, "abAb\nbbA\nBBab\n", "aab\nbba\n", "ababab\naabb\nBaBA\n"] {
        let h = Subgroup::fold(3, list).unwrap();
        let back = Subgroup::fold(3, h.basis_list().unwrap()).unwrap();
        assert!(h.equals(&back).unwrap());
        assert_eq!(h, back);
        assert_eq!(h.counts().unwrap().rank, h.basis().unwrap().len() as u64);
        list.lines().for_each(|word| assert!(h.contains(word).unwrap()));
    }
}

#[test]
fn each_refusal() {
    let cause = |n, list: &[u8]| Subgroup::fold(n, list).map_err(|refusal| (refusal.cause, refusal.place)).unwrap_err();
    assert_eq!(cause(27, b""), (Cause::Alphabet, 0));
    assert_eq!(cause(2, &[b'\n'; 1_048_577]), (Cause::Bytes, 0));
    assert_eq!(cause(2, b"a.\n"), (Cause::Byte, 1));
    assert_eq!(cause(2, b"ac\n"), (Cause::Letter, 1));
    assert_eq!(cause(2, b"ab"), (Cause::Unended, 2));
    let h = Subgroup::fold(2, LIST).unwrap();
    let said = |query: &[u8]| h.contains(query).unwrap_err().to_string();
    assert_eq!(said(&[b'a'; 1_048_577]), "text too long: 1,048,576 bytes at most");
    assert_eq!(said(b"ab\n"), "no letter at byte 2: a to z and A to Z alone, in a list line ends too");
    assert_eq!(said(b"c"), "letter beyond n at byte 0");
    assert_eq!(h.equals(&Subgroup::fold(3, LIST).unwrap()).unwrap_err().cause, Cause::Alphabet);
    assert_eq!(Subgroup::from_cells(0, 1, vec![]).unwrap_err().cause, Cause::Alphabet);
    assert_eq!(Subgroup::from_cells(1, 2, vec![1, 1, 0]).unwrap_err().cause, Cause::Table);
    assert_eq!(Subgroup::from_cells(1, 1, vec![0, ABSENT]).unwrap_err().cause, Cause::Canonical);
}

#[test]
fn the_longest_list() {
    let list = ["a".repeat(1_048_575), "\n".into()].concat();
    let h = Subgroup::fold(1, &list).unwrap();
    assert_eq!(h.counts().unwrap().index, Some(1_048_575));
}

#[test]
fn words_name_the_cells_needed() {
    let (list, mut table) = (b"ab\n", [0; 12]);
    assert_eq!(fold_sizes(2, list).work, 24);
    let refusal = fold(2, list, &mut table, &mut [0; 23]).unwrap_err();
    assert_eq!(refusal.to_string(), "work buffer too short: 24 cells needed");
}

#[test]
fn files() {
    use subgroups::{loaded, saved_list, Saved};
    let h = Subgroup::fold(2, LIST).unwrap();
    assert_eq!(loaded(&h.save().unwrap()).unwrap(), Saved::Table(h));
    let file = saved_list(2, LIST).unwrap();
    assert_eq!(loaded(&file).unwrap(), Saved::List { n: 2, list: LIST.into() });
    assert_eq!(loaded(&file[..5]).unwrap_err().cause, Cause::Number);
    assert_eq!(loaded(b"").unwrap_err().cause, Cause::Number);
    assert_eq!(loaded(&[1, 2, 9, 0]).unwrap_err().cause, Cause::Table);
}

#[test]
fn expressions() {
    let h = Subgroup::fold(2, LIST).unwrap();
    assert!(h.is_normal().unwrap());
    assert_eq!(h.express("aba").unwrap(), Some(vec![3, 2]));
    assert_eq!(h.express("aA").unwrap(), Some(vec![]));
    assert_eq!(h.express("a").unwrap(), None);
    assert_eq!(h.express("c").unwrap_err().cause, Cause::Letter);
}
