//! The command line, as `docs/COMMANDS.md` has it, for both programs.

#[derive(Clone)]
pub struct Settings {
    pub min: u64,
    pub max: u64,
    pub inc: u64,
    pub threshold: u64,
    pub rounds: u64,
    pub window: u64,
    pub hot: u64,
    pub start: u64,
    /// A warm start: the destination begins with the memory before this tick.
    pub base: Option<u64>,
    pub workers: usize,
    pub streams: usize,
    pub replayers: usize,
    pub lane: usize,
    pub skip: bool,
    pub at_stop: bool,
    /// Frames go over lanes as bytes and not by pointer; precopy has no such word.
    pub encoded: bool,
}

const DEFAULTS: Settings = Settings {
    min: 1000,
    max: 5000,
    inc: 500,
    threshold: 64,
    rounds: 30,
    window: 1000,
    hot: 2,
    start: 0,
    base: None,
    workers: 1,
    streams: 1,
    replayers: 1,
    lane: 1024,
    skip: false,
    at_stop: false,
    encoded: false,
};

pub enum Job {
    Image,
    Report(Settings),
    /// The cases in their order, and the number of workers.
    Sweep(Vec<Settings>, usize),
    Live(Settings),
}

const MOST: u64 = 1_000_000;

impl Settings {
    fn are_in_range(&self) -> bool {
        (1..=MOST).contains(&self.min)
            && (self.min..=MOST).contains(&self.max)
            && self.inc <= MOST
            && (1..=65_536).contains(&self.threshold)
            && (1..=64).contains(&self.rounds)
            && (1..=1 << 40).contains(&self.window)
            && (1..=1 << 20).contains(&self.hot)
            && self.start < 1 << 40
            && self.base.is_none_or(|base| base <= self.start)
            && [self.workers, self.streams, self.replayers].iter().all(|n| (1..=16).contains(n))
            && (1..=65_536).contains(&self.lane)
    }

    fn set(&mut self, name: &str, value: u64) -> Option<()> {
        match name {
            "min" => self.min = value,
            "max" => self.max = value,
            "inc" => self.inc = value,
            "threshold" => self.threshold = value,
            "rounds" => self.rounds = value,
            "window" => self.window = value,
            "hot" => self.hot = value,
            "start" => self.start = value,
            "base" => self.base = Some(value),
            "workers" => self.workers = value as usize,
            "streams" => self.streams = value as usize,
            "replayers" => self.replayers = value as usize,
            "lane" => self.lane = value as usize,
            _ => return None,
        }
        Some(())
    }

    /// One case of a sweep: six numbers with commas between.
    fn with_case(&self, text: &str) -> Option<Settings> {
        let numbers = text.split(',').map(|word| word.parse().ok()).collect::<Option<Vec<u64>>>()?;
        let [min, max, inc, threshold, rounds, skip @ 0..=1] = numbers[..] else { return None };
        let case = Settings { min, max, inc, threshold, rounds, skip: skip == 1, ..self.clone() };
        case.are_in_range().then_some(case)
    }
}

const COMMON: [&str; 8] = ["min", "max", "inc", "threshold", "rounds", "start", "base", "workers"];

fn takes(command: &str, option: &str) -> bool {
    match command {
        "report" => COMMON.contains(&option) || ["window", "hot"].contains(&option),
        "live" => COMMON.contains(&option) || ["streams", "replayers", "lane"].contains(&option),
        "sweep" => ["start", "base", "workers"].contains(&option),
        _ => false,
    }
}

/// What the words of a command line ask for, or which word is refused.
pub fn job(mut words: impl Iterator<Item = String>) -> Result<Job, String> {
    let command = words.next().ok_or("a command is missing: image, report, sweep or live")?;
    let (mut settings, mut cases) = (DEFAULTS, Vec::new());
    while let Some(word) = words.next() {
        let refused = || format!("the word {word} is refused");
        let Some(option) = word.strip_prefix("--") else {
            cases.push(word);
            continue;
        };
        match (option, command.as_str()) {
            ("skip", "report" | "live") => settings.skip = true,
            ("at-stop", "live") => settings.at_stop = true,
            ("encoded", "live") => settings.encoded = true,
            _ => {
                let (name, value) = match option.split_once('=') {
                    Some((name, value)) => (name, Some(value.to_string())),
                    None => (option, words.next()),
                };
                let value = value.and_then(|it| it.parse().ok()).filter(|_| takes(&command, name));
                value.and_then(|it| settings.set(name, it)).ok_or_else(refused)?;
            }
        }
    }
    if command == "sweep" {
        let all = cases.iter().map(|it| settings.with_case(it).ok_or(format!("the case {it} is refused")));
        let all = all.collect::<Result<Vec<_>, _>>()?;
        let fits = (1..=256).contains(&all.len());
        return fits.then_some(Job::Sweep(all, settings.workers)).ok_or("1 to 256 cases are taken".into());
    }
    if let Some(word) = cases.first() {
        return Err(format!("the word {word} is refused"));
    }
    if !settings.are_in_range() {
        return Err("a setting is out of its range".into());
    }
    match command.as_str() {
        "image" => Ok(Job::Image),
        "report" => Ok(Job::Report(settings)),
        "live" => Ok(Job::Live(settings)),
        _ => Err(format!("the command {command} is refused")),
    }
}
