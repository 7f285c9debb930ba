//! The options of the program.

/// What the command line asks for.
pub struct Options {
    /// The command: run, queries, unlike or record.
    pub command: String,
    /// The folder of queries and answers.
    pub queries: String,
    /// The document that lists the differences.
    pub document: String,
    /// The build of the original that this program has: release or debug.
    pub build: String,
    pub seed: u64,
    pub seconds: u64,
    pub rounds: Option<u64>,
    /// How the sample says that it was made.
    pub made_by: String,
}

impl Options {
    /// The options of this process. A word that is no option ends it.
    pub fn from_arguments() -> Options {
        let mut words = std::env::args().skip(1);
        let mut options = Options {
            command: words.next().unwrap_or_default(),
            queries: "docs/differences".to_string(),
            document: "docs/DIFFERENCES.md".to_string(),
            build: "release".to_string(),
            seed: 1,
            seconds: 60,
            rounds: None,
            made_by: String::new(),
        };
        while let Some(word) = words.next() {
            let value = words
                .next()
                .unwrap_or_else(|| stop(&format!("{word} wants a value")));
            match word.as_str() {
                "--queries" => options.queries = value,
                "--document" => options.document = value,
                "--build" => options.build = value,
                "--made-by" => options.made_by = value,
                "--seed" => options.seed = number(&word, &value),
                "--seconds" => options.seconds = number(&word, &value),
                "--rounds" => options.rounds = Some(number(&word, &value)),
                _ => stop(&format!("unknown option {word}")),
            }
        }
        options
    }
}

/// The number behind an option.
fn number(option: &str, value: &str) -> u64 {
    value
        .parse()
        .unwrap_or_else(|_| stop(&format!("{option} wants a number")))
}

/// Ends the process with a message.
pub fn stop(message: &str) -> ! {
    eprintln!("oracle: {message}");
    std::process::exit(2)
}
