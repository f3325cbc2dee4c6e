//! Tables, the lines of hexadecimal that carry them, and the refusals 1 to 13 and 17.

pub const EDF: u32 = 0;
pub const FP: u32 = 1;
pub const MOST_CORES: u32 = 16;
pub const MOST_TASKS: usize = 32;
pub const LONGEST_PERIOD: u32 = 1_000_000;
pub const LOWEST_LEVEL: u32 = 32;
pub const LONGEST_PLAN: usize = 1_003;

/// Bytes of a frame, check included.
const HEAD_FRAME: usize = 5;
const TASK_FRAME: usize = 15;

#[derive(Clone, Copy, Debug, PartialEq, Eq)]
pub struct Task {
    /// 1 for preemptive, 0 for non-preemptive.
    pub flag: u32,
    pub period: u32,
    pub cost: u32,
    pub deadline: u32,
    /// 1 to 32, 1 the highest (document 02, wish 8). Only FP looks at it.
    pub level: u32,
}

impl Task {
    /// A task by the four numbers of an old line or call. Its level comes with its place in a table.
    pub const fn of_four(flag: u32, period: u32, cost: u32, deadline: u32) -> Task {
        Task { flag, period, cost, deadline, level: 0 }
    }
}

/// The tasks with their places as levels, as they come from old lines and calls.
pub fn in_places(tasks: &[Task]) -> Vec<Task> {
    (1..).zip(tasks).map(|(level, task)| Task { level, ..*task }).collect()
}

#[derive(Clone, Debug, PartialEq, Eq)]
pub struct Table {
    pub cores: u32,
    pub policy: u32,
    pub tasks: Vec<Task>,
}

impl Table {
    /// A table from old lines or calls.
    pub fn in_places(cores: u32, policy: u32, tasks: &[Task]) -> Table {
        Table { cores, policy, tasks: in_places(tasks) }
    }

    /// The flags as given. Bounds take their flags apart from the table, since forcing changes them.
    pub fn flags(&self) -> Vec<u32> {
        self.tasks.iter().map(|task| task.flag).collect()
    }
}

/// A numbered refusal. `passes` is 0 except under 14 and 15.
#[derive(Clone, Copy, Debug, PartialEq, Eq)]
pub struct Refusal {
    pub number: u32,
    pub place: u32,
    pub passes: u32,
}

/// The refusals before 14 know no passes.
pub fn refuse<A>(number: u32, place: u32) -> Result<A, Refusal> {
    Err(Refusal { number, place, passes: 0 })
}

// ---------------------------------------------------------------- reading

/// Reads a plan. The first fault met is the answer, with its line as place.
pub fn read(text: &[u8]) -> Result<Table, Refusal> {
    let mut left = text;
    let head = frame(&mut left, HEAD_FRAME, 0x01, 1)?;
    let (cores, policy, n) = (head[1] as u32, head[2] as u32, head[3] as usize);
    check_head(cores, policy, n, 1)?;
    let mut tasks = Vec::new();
    for i in 1..=n {
        let line = i as u32 + 1;
        let bytes = frame(&mut left, TASK_FRAME, 0x02, line)?;
        let task = Task { level: i as u32, ..task_of(&bytes) };
        check_task(&task, line)?;
        tasks.push(task);
    }
    if !left.is_empty() {
        return refuse(12, n as u32 + 2);
    }
    Ok(Table { cores, policy, tasks })
}

/// Takes one line off the text and gives its frame: refusals 1, 2, 3, 4 in that order.
fn frame(left: &mut &[u8], size: usize, kind: u8, line: u32) -> Result<Vec<u8>, Refusal> {
    let digits = 2 * size;
    if left.len() < digits + 1 {
        return refuse(1, line);
    }
    let mut bytes = Vec::new();
    for pair in left[..digits].chunks(2) {
        match (digit(pair[0]), digit(pair[1])) {
            (Some(high), Some(low)) => bytes.push(16 * high + low),
            _ => return refuse(2, line),
        }
    }
    if left[digits] != 0x0A {
        return refuse(2, line);
    }
    let sum: u32 = bytes.iter().map(|&byte| byte as u32).sum();
    if sum % 256 != 0 {
        return refuse(3, line);
    }
    if bytes[0] != kind {
        return refuse(4, line);
    }
    *left = &left[digits + 1..];
    Ok(bytes)
}

/// Both cases of the six letters (document 02, wish 6), and no other byte besides the ten figures.
fn digit(byte: u8) -> Option<u8> {
    match byte {
        b'0'..=b'9' => Some(byte - b'0'),
        b'A'..=b'F' => Some(byte - b'A' + 10),
        b'a'..=b'f' => Some(byte - b'a' + 10),
        _ => None,
    }
}

/// The text with its letters a to f raised to A to F. A text is read exactly if this is the written form of
/// a legal table, and writing what was read gives this.
pub fn raised(text: &[u8]) -> Vec<u8> {
    let raise = |&byte: &u8| if (b'a'..=b'f').contains(&byte) { byte - b'a' + b'A' } else { byte };
    text.iter().map(raise).collect()
}

/// The fields of a task frame: 02, flag, T, C, D, check. It has no level: that is the task's place.
fn task_of(bytes: &[u8]) -> Task {
    let number = |at: usize| u32::from_be_bytes([bytes[at], bytes[at + 1], bytes[at + 2], bytes[at + 3]]);
    Task::of_four(bytes[1] as u32, number(2), number(6), number(10))
}

// ---------------------------------------------------------------- ranges

/// Refusals 5, 6, 7.
fn check_head(cores: u32, policy: u32, n: usize, place: u32) -> Result<(), Refusal> {
    if !(1..=MOST_CORES).contains(&cores) {
        return refuse(5, place);
    }
    if policy > 1 {
        return refuse(6, place);
    }
    if !(1..=MOST_TASKS).contains(&n) {
        return refuse(7, place);
    }
    Ok(())
}

/// Refusals 8, 9, 10, 11, 17. The deadline comes before the cost here, though not in the frame.
fn check_task(task: &Task, place: u32) -> Result<(), Refusal> {
    if task.flag > 1 {
        return refuse(8, place);
    }
    if !(1..=LONGEST_PERIOD).contains(&task.period) {
        return refuse(9, place);
    }
    if !(1..=task.period).contains(&task.deadline) {
        return refuse(10, place);
    }
    if !(1..=task.deadline).contains(&task.cost) {
        return refuse(11, place);
    }
    if !(1..=LOWEST_LEVEL).contains(&task.level) {
        return refuse(17, place);
    }
    Ok(())
}

/// A call on cores, policy and a list of tasks: 5, 6, 7, then 8 to 11 and 17 task by task, then 13. The place
/// is 0 for 5, 6, 7 and 13, and the task's number for 8 to 11 and 17.
pub fn check_list(cores: u32, policy: u32, tasks: &[Task], room: usize) -> Result<Table, Refusal> {
    check_head(cores, policy, tasks.len(), 0)?;
    for (at, task) in tasks.iter().enumerate() {
        check_task(task, at as u32 + 1)?;
    }
    check_room(tasks.len(), room)?;
    Ok(Table { cores, policy, tasks: tasks.to_vec() })
}

/// A call on a text: it is read first, and only then is the caller's list looked at.
pub fn check_text(text: &[u8], room: usize) -> Result<Table, Refusal> {
    let table = read(text)?;
    check_room(table.tasks.len(), room)?;
    Ok(table)
}

/// Refusal 13.
fn check_room(n: usize, room: usize) -> Result<(), Refusal> {
    if room < n {
        return refuse(13, 0);
    }
    Ok(())
}

// ---------------------------------------------------------------- writing

/// The plan text of a table, without its levels. The ranges are not looked at, so that texts to be refused
/// can be written too; what does not fit its bytes is cut to its lowest ones.
pub fn write(table: &Table) -> Vec<u8> {
    let n = table.tasks.len() as u8;
    let mut text = line(&[0x01, table.cores as u8, table.policy as u8, n]);
    for task in &table.tasks {
        text.extend(line(&task_bytes(task)));
    }
    text
}

/// A task frame without its check byte.
pub fn task_bytes(task: &Task) -> Vec<u8> {
    let mut bytes = vec![0x02, task.flag as u8];
    for number in [task.period, task.cost, task.deadline] {
        bytes.extend(number.to_be_bytes());
    }
    bytes
}

/// One line: the bytes, the check byte that makes their sum 0 modulo 256, and 0A.
pub fn line(bytes: &[u8]) -> Vec<u8> {
    let check = bytes.iter().fold(0u8, |sum, &byte| sum.wrapping_add(byte)).wrapping_neg();
    let mut whole = bytes.to_vec();
    whole.push(check);
    line_as_is(&whole)
}

/// One line from bytes that hold their check byte already, right or wrong.
pub fn line_as_is(bytes: &[u8]) -> Vec<u8> {
    let mut text = Vec::new();
    for byte in bytes {
        text.extend(format!("{byte:02X}").bytes());
    }
    text.push(0x0A);
    text
}
