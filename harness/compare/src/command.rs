//! Command lines of the form `<what> --seed S --count N`.

pub struct Command {
    pub what: String,
    pub seed: u64,
    pub count: u64,
}

impl Command {
    /// Reads the program's arguments; a command line that can't be read ends the program with its usage.
    pub fn read(usage: &str) -> Command {
        let arguments: Vec<String> = std::env::args().skip(1).collect();
        Command::parse(&arguments).unwrap_or_else(|| {
            eprintln!("{usage}");
            std::process::exit(2);
        })
    }

    fn parse(arguments: &[String]) -> Option<Command> {
        let (what, options) = arguments.split_first()?;
        let mut command = Command { what: what.clone(), seed: 1, count: 1_000 };
        for option in options.chunks(2) {
            let [name, value] = option else {
                return None;
            };
            let value = value.parse().ok()?;
            match name.as_str() {
                "--seed" => command.seed = value,
                "--count" => command.count = value,
                _ => return None,
            }
        }
        Some(command)
    }
}
