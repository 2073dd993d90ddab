//! What was compared, under which name, and what differed.

/// How many differences are shown.
const SHOWN: u64 = 8;

#[derive(Default)]
pub struct Tally {
    compared: u64,
    differ: u64,
    groups: Counts,
    streams: Counts,
}

#[derive(Default)]
struct Counts(Vec<(String, u64)>);

impl Counts {
    fn add(&mut self, name: &str) {
        match self.0.iter_mut().find(|(known, _)| known == name) {
            Some((_, count)) => *count += 1,
            None => self.0.push((name.to_string(), 1)),
        }
    }

    fn print(&self, title: &str) {
        println!("{title}");
        self.0.iter().for_each(|(name, count)| println!("{count:>10}  {name}"));
    }
}

impl Tally {
    /// Counts a stream under its class.
    pub fn stream(&mut self, class: &str) {
        self.streams.add(class);
    }

    /// Counts one comparison under a name; `say` tells of it if it differs.
    pub fn same<T: PartialEq + std::fmt::Debug>(
        &mut self,
        group: &str,
        ours: T,
        expected: T,
        say: impl FnOnce() -> String,
    ) {
        self.compared += 1;
        self.groups.add(group);
        if ours != expected {
            self.differ += 1;
            if self.differ <= SHOWN {
                println!(
                    "DIFFERS {group}: {}\n  ours     {ours:?}\n  expected {expected:?}",
                    say()
                );
            }
        }
    }

    /// Writes the counts, the last line among them, and gives the exit status.
    pub fn close(&self) -> i32 {
        self.streams.print("streams");
        self.groups.print("comparisons");
        println!("{} compared, {} differ", self.compared, self.differ);
        (self.differ != 0 || self.compared == 0) as i32
    }
}

/// A stream in hexadecimal; of a long one the length and the first bytes.
pub fn hex(stream: &[u8]) -> String {
    let shown: Vec<String> = stream.iter().take(96).map(|byte| format!("{byte:02X}")).collect();
    format!("{} bytes: {}", stream.len(), shown.join(" "))
}

/// The first place where two lists differ, with what stands there; a place past the shorter one's end has none.
#[cfg(any(layer = "codes", layer = "sound", layer = "wav"))]
pub fn first_difference<T: PartialEq + Copy>(ours: &[T], expected: &[T]) -> Option<(usize, Option<T>, Option<T>)> {
    let longer = ours.len().max(expected.len());
    let at = (0..longer).find(|&i| ours.get(i) != expected.get(i))?;
    Some((at, ours.get(at).copied(), expected.get(at).copied()))
}
