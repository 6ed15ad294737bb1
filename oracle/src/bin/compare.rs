//! Makes every call at the library and at the crate and compares: number, length, and every byte of the output.
//! Words: `long` for more; the path of docs/DIFFERENCES.md. Fails at a difference that isn't named there.

use oracle::calls::{Call, Name};
use oracle::crdts_answers::{answer, Differences};
use oracle::gatelichen;
use oracle::random::Random;
use oracle::worlds;
use std::collections::BTreeMap;

const GUARD: usize = 16;

#[derive(Default)]
struct Judge {
    /// The text of docs/DIFFERENCES.md.
    page: String,
    calls: u64,
    /// How often each call gave each number.
    numbers: BTreeMap<(Name, u32), u64>,
    met: Differences,
    unexplained: u64,
}

impl Judge {
    /// One call at both, in an output that is now too short by one byte, now just long enough, now longer, with guards around it.
    fn judge(&mut self, call: Call) {
        self.calls += 1;
        let granted = answer(&call, &mut self.met);
        let enough = granted.bytes.len();
        let room = [enough, enough + 5, enough + 300, enough.saturating_sub(1), enough / 2][(self.calls % 5) as usize];
        let expected = granted.in_room(room);
        let fill = self.calls as u8 | 1;
        let mut lent = vec![fill; GUARD + room + GUARD];
        let reply = gatelichen::run_call(&call, &mut lent[GUARD..GUARD + room]);
        *self.numbers.entry((call.name, reply.number)).or_default() += 1;
        let mut should = vec![fill; GUARD + room + GUARD];
        should[GUARD..GUARD + expected.bytes.len()].copy_from_slice(&expected.bytes);
        if (reply.number, reply.length) != (expected.number, expected.length) || lent != should {
            self.unexplained += 1;
            println!("unexplained: {}", call.line(room));
            println!("  crate: {}", expected.line());
            println!("  library: {:x} {:x}{}", reply.number, reply.length, if lent != should { ", other bytes" } else { "" });
            if self.unexplained == 10 {
                self.report();
            }
        }
    }

    /// Prints what was met and ends the program.
    fn report(&self) -> ! {
        println!("\n{:16} calls by number", "call");
        for name in Name::ALL {
            let given = self.numbers.iter().filter(|((n, _), _)| *n == name);
            let given: Vec<String> = given.map(|((_, number), times)| format!("{number}: {times}")).collect();
            println!("{:16} {}", name.text(), given.join(", "));
        }
        println!("\ndifferences of docs/DIFFERENCES.md");
        let mut unnamed = 0;
        for (name, times) in &self.met.0 {
            let named = self.page.contains(&format!("| {name} |"));
            unnamed += !named as u64;
            println!("{times:10} {name}{}", if named { "" } else { " (not on that page)" });
        }
        println!("\n{} calls, {} unexplained", self.calls, self.unexplained);
        std::process::exit((self.unexplained + unnamed > 0) as i32);
    }
}

fn main() {
    let words: Vec<String> = std::env::args().skip(1).collect();
    let long = words.iter().any(|w| w == "long");
    let page = words.iter().find(|w| *w != "long").expect("the path of docs/DIFFERENCES.md");
    let page = std::fs::read_to_string(page).expect("docs/DIFFERENCES.md can be read");
    let times = if long { 50 } else { 1 };
    let mut judge = Judge { page, ..Default::default() };
    let mut random = Random(1);
    worlds::marked_cases(&mut |call| judge.judge(call));
    worlds::histories(500 * times, &mut random, &mut |call| judge.judge(call));
    worlds::damaged_inputs(2000 * times, &mut random, &mut |call| judge.judge(call));
    worlds::around_limits(200 * times, &mut random, &mut |call| judge.judge(call));
    let larger = if long { &worlds::LARGER[..] } else { &[] };
    for world in worlds::SMALL.iter().chain(larger) {
        world.calls(&mut |call| judge.judge(call));
    }
    judge.report();
}
