//! The services of the C interface and the tool's reply, and how often each gave each number.

#[derive(Clone, Copy)]
pub enum Service {
    Fibonacci,
    Places,
    Number,
    Hofstadter,
    Height,
    Inverse,
    Build,
    Check,
    Load,
    Run,
    Step,
    Preview,
    Raise,
    Trace,
    Table,
    Cut,
    Listing,
    Reply,
}

const SERVICES: [Service; 18] = [
    Service::Fibonacci,
    Service::Places,
    Service::Number,
    Service::Hofstadter,
    Service::Height,
    Service::Inverse,
    Service::Build,
    Service::Check,
    Service::Load,
    Service::Run,
    Service::Step,
    Service::Preview,
    Service::Raise,
    Service::Trace,
    Service::Table,
    Service::Cut,
    Service::Listing,
    Service::Reply,
];

/// 0 and the refusals of documents 01 and 02.
const NUMBERS: usize = 15;

impl Service {
    fn name(self) -> &'static str {
        match self {
            Service::Fibonacci => "fibonacci",
            Service::Places => "places",
            Service::Number => "number",
            Service::Hofstadter => "hofstadter",
            Service::Height => "height",
            Service::Inverse => "inverse",
            Service::Build => "build",
            Service::Check => "check",
            Service::Load => "load",
            Service::Run => "run",
            Service::Step => "step",
            Service::Preview => "preview",
            Service::Raise => "raise",
            Service::Trace => "trace",
            Service::Table => "table",
            Service::Cut => "cut",
            Service::Listing => "listing",
            Service::Reply => "reply",
        }
    }

    /// The refusals that documents 01 and 02 list for the service; of the tool's reply its other statuses.
    fn refusals(self) -> &'static [usize] {
        match self {
            Service::Fibonacci => &[13],
            Service::Places => &[5],
            Service::Number => &[13, 12],
            Service::Hofstadter | Service::Height => &[],
            Service::Inverse => &[2, 3],
            Service::Build => &[1, 2, 3, 4, 5],
            Service::Check => &[6, 7, 4, 1, 2, 3, 8],
            Service::Load => &[6, 7, 4, 1, 2, 3, 8, 9, 11],
            Service::Run | Service::Step | Service::Preview => &[6, 7, 4, 1, 2, 3, 8, 9, 10],
            Service::Raise => &[6, 7, 4, 1, 2, 3, 8, 14, 9, 11],
            Service::Trace | Service::Table => &[6, 7, 4, 1, 2, 3, 8, 10, 12],
            Service::Cut => &[6, 7, 4, 1, 2, 3, 8, 10],
            Service::Listing => &[6, 7, 4, 1, 2, 3, 8, 5],
            Service::Reply => &[1, 2],
        }
    }
}

#[derive(Default)]
pub struct Tally([[u64; NUMBERS]; SERVICES.len()]);

impl Tally {
    pub fn add(&mut self, service: Service, number: u32) {
        self.0[service as usize][number as usize] += 1;
    }

    pub fn calls(&self) -> u64 {
        self.0.iter().flatten().sum()
    }

    pub fn print(&self) {
        print!("{:10} {:>9} {:>9}", "service", "calls", "answered");
        (1..NUMBERS).for_each(|number| print!(" {number:>7}"));
        println!();
        for (service, counts) in SERVICES.iter().zip(&self.0) {
            let calls: u64 = counts.iter().sum();
            print!("{:10} {calls:>9} {:>9}", service.name(), counts[0]);
            for &count in &counts[1..] {
                match count {
                    0 => print!(" {:>7}", ""),
                    _ => print!(" {count:>7}"),
                }
            }
            println!();
        }
        let (count, service, number) = self.rarest();
        println!("least often of what a service can give: {service} {number}, {count} times");
    }

    fn rarest(&self) -> (u64, &'static str, usize) {
        let given = SERVICES.iter().zip(&self.0).flat_map(|(service, counts)| {
            let numbers = service.refusals().iter();
            numbers.map(|&number| (counts[number], service.name(), number))
        });
        given.min().unwrap_or_default()
    }
}
