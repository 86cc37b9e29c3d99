//! Folds a list, asks queries of its table, prints the basis and saves the table: `cargo run --example worked`.

use subgroups::{Refusal, Subgroup};

fn main() -> Result<(), Refusal> {
    let h = Subgroup::fold(2, "aaB\nbAba\nabA\naaaaaa\n")?;
    let counts = h.counts()?;
    println!("points {}\nrank {}", h.table().points, counts.rank);
    match counts.index {
        Some(index) => println!("index {index}"),
        None => println!("index infinite"),
    }

    print!("basis of {} words\n{}", h.basis()?.len(), h.basis_list()?);

    for query in ["aba", "a", "aA", "ac"] {
        match h.contains(query) {
            Ok(yes) => println!("{query} {}", if yes { "yes" } else { "no" }),
            Err(refusal) => println!("{query}: {refusal}"),
        }
    }

    print!("file");
    h.save()?.iter().for_each(|byte| print!(" {byte:02x}"));
    println!();
    Ok(())
}
