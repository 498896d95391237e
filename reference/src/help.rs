//! The pages of `tautgaff help`, made of the words that `docs/REFUSALS.md` is made of and of `command/usage`: as a definition and as code for the crate `helping`.

use crate::refusals::{section, Entry};

/// The byte behind each page of usage but the first, in `command/usage`.
const END: &str = "~\n";

/// The pages: numbers 0 to 19, each with the refusal and the stop that has it; then usage and the commands.
fn pages(entries: &[Entry], usage: &str) -> Vec<String> {
    let page = |number| {
        let of_number = entries.iter().filter(|entry| entry.number == number);
        of_number.map(section).collect::<Vec<_>>().join("\n")
    };
    (0..20).map(page).chain(usage.split_terminator(END).map(str::to_string)).collect()
}

fn escaped(text: &str) -> String {
    text.replace('\\', "\\\\").replace('"', "\\\"")
}

/// `specs/Pages.antt`.
pub fn definition(entries: &[Entry], usage: &str) -> String {
    let line = |line: &str| format!("bytes \"{}\"", escaped(line).replace('\n', "\\n"));
    let page = |page: &String| format!("({})", page.split_inclusive('\n').map(line).collect::<Vec<_>>().join("\n    ++ "));
    let pages: Vec<String> = pages(entries, usage).iter().map(page).collect();
    format!(
        "-- The pages of `tautgaff help`: numbers 0 to 19, each with the refusal and the stop that has it; usage and the commands.\n\
        -- Made of examples/refusals.data and command/usage by examples/make.\n\
        use Rattle.std.specs.Prelude.{{List, [], ◌∷◌, ◌++◌, ℕ}}\n\
        use Rattle.base.specs.Text.{{bytes}}\n\
        \nabbrev pub pages : List (List ℕ)\npages =\n    {}\n    ∷ []\n",
        pages.join("\n    ∷ ")
    )
}

/// `src/pages.rt`.
pub fn code(entries: &[Entry], usage: &str) -> String {
    let pages: Vec<String> = pages(entries, usage).iter().map(|page| format!("    b\"{}\",\n", escaped(page))).collect();
    format!(
        "// The pages of `tautgaff help`. Made of examples/refusals.data and command/usage by examples/make.\npub const PAGES: [&[u8]; {}] = [\n{}];\n",
        pages.len(),
        pages.concat()
    )
}
