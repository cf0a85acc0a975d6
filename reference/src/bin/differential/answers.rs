//! How often each number was given back.

use reference::answer::Answer;

#[derive(Default)]
pub struct Answers {
    by_number: [usize; 9],
}

impl Answers {
    pub fn take(&mut self, answer: Answer) {
        self.by_number[usize::from(answer.number)] += 1;
    }

    pub fn all(&self) -> usize {
        self.by_number.iter().sum()
    }

    pub fn summary(&self) -> String {
        let mut summary = format!("{} done", self.by_number[0]);
        for (number, times) in self.by_number.iter().enumerate().skip(1) {
            if *times > 0 {
                summary += &format!(", {times} refused with {number}");
            }
        }
        summary
    }
}
