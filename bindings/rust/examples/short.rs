use subgroups::{Refusal, Subgroup};

fn main() -> Result<(), Refusal> {
    let h = Subgroup::fold(2, "ab\nbA\n")?;
    println!("{}", if h.contains("abbA")? { "yes" } else { "no" });
    Ok(())
}
