//! The claim of request 6: "whoever replays with windows gets what the job with those entries cut out gives, step numbers kept."

/// A job's stream without the entries of its shut steps.
pub fn stream(whole: &[u8], shut: &[bool]) -> Vec<u8> {
    let (front, schedule) = whole.split_at(whole.len() - shut.len());
    let kept: Vec<u8> = schedule.iter().zip(shut).filter(|(_, shut)| !**shut).map(|(&entry, _)| entry).collect();
    let mut stream = front.to_vec();
    stream[4..6].copy_from_slice(&(kept.len() as u16).to_be_bytes());
    stream.extend(kept);
    stream
}

/// The report of such a job, with each step number that of the entry that it stood at: behind `first` and `last`, and in a line of the record.
pub fn numbered_back(report: &[u8], shut: &[bool]) -> Vec<u8> {
    let numbers: Vec<usize> = (1..=shut.len()).filter(|number| !shut[number - 1]).collect();
    let text = String::from_utf8_lossy(report);
    text.split_inclusive('\n').flat_map(|line| numbered_line(line, &numbers).into_bytes()).collect()
}

fn numbered_line(line: &str, numbers: &[usize]) -> String {
    let mut before = "";
    let words = line.split(' ').map(|word| {
        let counts_steps = matches!(before, "first" | "last" | "at");
        before = word;
        match word.parse::<usize>() {
            Ok(step) if counts_steps => numbers[step - 1].to_string(),
            _ => word.to_string(),
        }
    });
    words.collect::<Vec<_>>().join(" ")
}
