//! Saves a table and a list, loads both back, and expresses words in the basis of what was loaded:
//! `cargo run --example saved`.

use subgroups::{loaded, saved_list, Refusal, Saved, Subgroup};

const LIST: &str = "aaB\nbAba\nabA\naaaaaa\n";

fn tell(h: &Subgroup) -> Result<(), Refusal> {
    println!("normal {}", if h.is_normal()? { "yes" } else { "no" });
    for query in ["aba", "bAba", "a"] {
        match h.express(query)? {
            Some(numbers) => println!("{query} yes{}", numbers.iter().map(|k| format!(" {k}")).collect::<String>()),
            None => println!("{query} no"),
        }
    }
    Ok(())
}

fn main() -> Result<(), Refusal> {
    let file = Subgroup::fold(2, LIST)?.save()?;
    if let Saved::Table(h) = loaded(&file)? {
        println!("table of {} points in {} bytes", h.table().points, file.len());
        tell(&h)?;
    }

    let file = saved_list(2, LIST)?;
    if let Saved::List { list, .. } = loaded(&file)? {
        print!("list of {} words in {} bytes\n{list}", list.lines().count(), file.len());
    }
    if let Err(refusal) = loaded(&file[..file.len() - 1]) {
        println!("load of a cut file: {refusal}");
    }
    Ok(())
}
