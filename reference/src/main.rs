use reference::{cmd_run, cmd_text};

fn main() {
    let args: Vec<String> = std::env::args().skip(1).collect();
    let about_texts = matches!(args.first(), Some(word) if cmd_text::COMMANDS.contains(&word.as_str()));
    std::process::exit(if about_texts { cmd_text::main(&args) } else { cmd_run::main(&args) });
}
