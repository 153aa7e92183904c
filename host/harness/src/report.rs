//! What a comparison tried and met, and its tally.

use std::collections::BTreeMap;

/// One kind of inputs that was tried.
pub struct Group {
    pub name: String,
    pub inputs: usize,
    pub differences: usize,
}

/// Prints what was met; gives the passed and the failed: one for each group, and one for each class of random inputs,
/// which must be met as often as `least`.
pub fn report(
    groups: &[Group],
    met: &BTreeMap<String, usize>,
    classes: &[String],
    least: Option<usize>,
) -> (usize, usize) {
    let (mut passed, mut failed) = (0, 0);
    let mut tell = |good: bool, line: String| {
        println!("{}{}", line, if good { "" } else { "  FAILED" });
        *(if good { &mut passed } else { &mut failed }) += 1;
    };
    println!("{:>9} {:>12}  group", "inputs", "differences");
    for Group { name, inputs, differences } in groups {
        tell(*inputs > 0 && *differences == 0, format!("{:>9} {:>12}  {}", inputs, differences, name));
    }
    if let Some(least) = least {
        println!("{:>9}  class of random inputs (at least {})", "inputs", least);
        for class in classes {
            let often = met.get(class).copied().unwrap_or(0);
            tell(often >= least, format!("{:>9}  {}", often, class));
        }
        for class in met.keys().filter(|class| !classes.contains(class)) {
            tell(false, format!("no such class: {}", class));
        }
    }
    (passed, failed)
}
