//! The ten standard function blocks. The fields of one lie side by side in the cells; here is what it keeps besides.

/// Types of a kind's fields, inputs then outputs: b BOOL, i INT, t TIME. Kinds count from 1: SR RS R_TRIG F_TRIG CTU CTD CTUD
/// TP TON TOF.
pub const FIELDS: [&str; 11] = [
    "", "bbb", "bbb", "bb", "bb", "bbibi", "bbibi", "bbbbibbi", "btbt", "btbt", "btbt",
];

#[derive(Clone, Copy)]
pub struct Block {
    kind: u8,
    pub first_field: u32,
    /// What the inputs were whose edges count.
    last: bool,
    last_down: bool,
    runs: bool,
    since: u64,
}

/// A call: copies (from, to) before it and after it.
pub struct Call {
    pub block: u32,
    pub before: Vec<(u32, u32)>,
    pub after: Vec<(u32, u32)>,
}

impl Call {
    pub fn perform(&self, blocks: &mut [Block], cells: &mut [i32], moment: u64) {
        for &(from, to) in &self.before {
            cells[to as usize] = cells[from as usize];
        }
        blocks[self.block as usize].perform(cells, moment);
        for &(from, to) in &self.after {
            cells[to as usize] = cells[from as usize];
        }
    }
}

fn is_on(cell: i32) -> bool {
    cell != 0
}

impl Block {
    pub fn new(kind: u8, first_field: u32) -> Block {
        Block {
            kind,
            first_field,
            last: false,
            last_down: false,
            runs: false,
            since: 0,
        }
    }

    /// The type of a field.
    pub fn field_type(&self, field: u16) -> u8 {
        match FIELDS[self.kind as usize].as_bytes()[field as usize] {
            b'b' => 0,
            b'i' => 1,
            _ => 3,
        }
    }

    fn perform(&mut self, cells: &mut [i32], moment: u64) {
        let first = self.first_field as usize;
        let fields = &mut cells[first..first + FIELDS[self.kind as usize].len()];
        match self.kind {
            1 => fields[2] = (is_on(fields[0]) || (!is_on(fields[1]) && is_on(fields[2]))) as i32,
            2 => fields[2] = (!is_on(fields[1]) && (is_on(fields[0]) || is_on(fields[2]))) as i32,
            3 => self.edge(fields, is_on(fields[0])),
            4 => self.edge(fields, !is_on(fields[0])),
            5 => self.count_up(fields),
            6 => self.count_down(fields),
            7 => self.count_both(fields),
            8 => self.pulse(fields, moment),
            9 => self.on_delay(fields, moment),
            _ => self.off_delay(fields, moment),
        }
    }

    fn edge(&mut self, fields: &mut [i32], clock: bool) {
        fields[1] = (clock && !self.last) as i32;
        self.last = clock;
    }

    fn count_up(&mut self, fields: &mut [i32]) {
        let up = is_on(fields[0]) && !self.last;
        if is_on(fields[1]) {
            fields[4] = 0
        } else if up && fields[4] < 32767 {
            fields[4] += 1
        }
        fields[3] = (fields[4] >= fields[2]) as i32;
        self.last = is_on(fields[0]);
    }

    fn count_down(&mut self, fields: &mut [i32]) {
        let down = is_on(fields[0]) && !self.last;
        if is_on(fields[1]) {
            fields[4] = fields[2]
        } else if down && fields[4] > -32768 {
            fields[4] -= 1
        }
        fields[3] = (fields[4] <= 0) as i32;
        self.last = is_on(fields[0]);
    }

    fn count_both(&mut self, fields: &mut [i32]) {
        let up = is_on(fields[0]) && !self.last;
        let down = is_on(fields[1]) && !self.last_down;
        if is_on(fields[2]) {
            fields[7] = 0
        } else if is_on(fields[3]) {
            fields[7] = fields[4]
        } else if up && !down && fields[7] < 32767 {
            fields[7] += 1
        } else if down && !up && fields[7] > -32768 {
            fields[7] -= 1
        }
        fields[5] = (fields[7] >= fields[4]) as i32;
        fields[6] = (fields[7] <= 0) as i32;
        self.last = is_on(fields[0]);
        self.last_down = is_on(fields[1]);
    }

    fn rests(&mut self, fields: &mut [i32], output: bool) {
        (fields[2], fields[3]) = (output as i32, 0);
        (self.runs, self.since) = (false, 0);
    }

    fn starts(&mut self, moment: u64) {
        (self.runs, self.since) = (true, moment);
    }

    /// The preset, and the time since it began, up to the preset.
    fn times(&self, fields: &[i32], moment: u64) -> (u64, u64) {
        let preset = fields[1].max(0) as u64;
        (preset, moment.saturating_sub(self.since).min(preset))
    }

    fn pulse(&mut self, fields: &mut [i32], moment: u64) {
        let input = is_on(fields[0]);
        if input && !self.last && !self.runs {
            self.starts(moment);
        }
        self.last = input;
        let (preset, elapsed) = self.times(fields, moment);
        if !self.runs || elapsed == preset && !input {
            self.rests(fields, false);
        } else {
            (fields[2], fields[3]) = ((elapsed < preset) as i32, elapsed as i32);
        }
    }

    fn on_delay(&mut self, fields: &mut [i32], moment: u64) {
        let input = is_on(fields[0]);
        if input && !self.last {
            self.starts(moment);
        }
        self.last = input;
        if !input {
            return self.rests(fields, false);
        }
        let (preset, elapsed) = self.times(fields, moment);
        (fields[2], fields[3]) = ((elapsed >= preset) as i32, elapsed as i32);
    }

    fn off_delay(&mut self, fields: &mut [i32], moment: u64) {
        let input = is_on(fields[0]);
        if !input && self.last {
            self.starts(moment);
        }
        self.last = input;
        if input || !self.runs {
            return self.rests(fields, input);
        }
        let (preset, elapsed) = self.times(fields, moment);
        (fields[2], fields[3]) = ((elapsed < preset) as i32, elapsed as i32);
    }
}
