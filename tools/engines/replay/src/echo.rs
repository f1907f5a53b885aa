//! The lines of a job file as they are in the file, for the echo of a replay.

/// The lines of the plan, and the lines of each worker's commands, without their line ends.
pub struct Echo<'a> {
    plan: Vec<&'a [u8]>,
    scripts: Vec<Vec<&'a [u8]>>,
}

impl<'a> Echo<'a> {
    /// Cuts the text of a job file into its lines. The text must have no fault.
    pub fn of(text: &'a [u8]) -> Echo<'a> {
        let mut lines = text.split(|&byte| byte == b'\n').skip(4);
        let mut scripts = Vec::new();
        for line in lines.by_ref().take_while(|line| line != b"plan") {
            if line.starts_with(b"worker") {
                scripts.push(Vec::new());
            } else if let Some(script) = scripts.last_mut() {
                script.push(line);
            }
        }
        let plan = lines.take_while(|line| line != b"end").collect();
        Echo { plan, scripts }
    }

    /// The line at `place` of the plan, counted from 0.
    pub fn line(&self, place: usize) -> &'a [u8] {
        self.plan[place]
    }

    /// The command at `place` of a worker's script, counted from 0, if the script is that long.
    pub fn command(&self, worker: usize, place: usize) -> Option<&'a [u8]> {
        self.scripts[worker].get(place).copied()
    }
}
