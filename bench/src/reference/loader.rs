//! Fresh, feed and finish: the fast loader. A call tests, indexes the registry once, and then goes
//! over the piece line by line; detail lines that are well formed are read straight on the piece.

use super::calendar::intervals;
use super::direct::*;
use super::registry::Index;
use super::rows::*;
use super::*;
use crate::Entry;

/// A line of more bytes is long.
const MAX_LINE: usize = 200;
/// So many bytes of an unended line are kept: enough to know that it is long.
const MAX_KEPT: usize = 201;
/// Row one, two, three, four and thirty.
const HEADERS: u32 = 5;
const MAX_DETAILS: usize = 25;

/// What the current unit does.
#[derive(Clone, Copy, PartialEq, Eq, Debug)]
enum Mode {
    None,
    Rows,
    Waits,
    Skips,
}

#[derive(Clone, PartialEq, Eq, Debug)]
pub struct State {
    /// Bytes taken; open, so that a test can come near the limit.
    pub taken: usize,
    kept_len: usize,
    lines: u32,
    mode: Mode,
    /// Header rows read, 0 to 5.
    headers: u32,
    /// Detail rows read.
    details: u32,
    /// Detail rows of the day.
    need: u32,
    first_line: u32,
    last_line: u32,
    day: u32,
    day_number: u32,
    channel: u32,
    /// While waiting: meter from 0 and window day.
    meter: u32,
    window_day: u32,
    esi: [u8; 64],
    sender: [u8; 13],
    kept: [u8; MAX_KEPT],
    /// The read as it will stand in its cell.
    cell: [u32; CELL_WORDS],
}

pub fn fresh() -> State {
    State {
        taken: 0,
        kept_len: 0,
        lines: 0,
        mode: Mode::None,
        headers: 0,
        details: 0,
        need: 0,
        first_line: 0,
        last_line: 0,
        day: 0,
        day_number: 0,
        channel: 0,
        meter: 0,
        window_day: 0,
        esi: [0; 64],
        sender: [0; 13],
        kept: [0; MAX_KEPT],
        cell: [0; CELL_WORDS],
    }
}

/// The rows, as they add to the record: Err is the verdict. Unless DIRECT, the direct readers are
/// left out.
impl State {
    #[inline(always)]
    fn row_one<const DIRECT: bool>(&mut self, line: &[u8]) -> Result<(), u32> {
        let r = match if DIRECT { one_direct(line) } else { None } {
            Some(r) => r,
            None => one_exact(line)?,
        };
        self.esi = [b' '; 64];
        self.esi[..r.esi.len()].copy_from_slice(r.esi);
        self.channel = r.channel;
        self.day = r.date;
        self.day_number = r.number;
        let n = intervals(r.date, r.number);
        self.need = n / 4;
        self.cell[COUNT] = n;
        self.cell[MARKS..VALUES].fill(0);
        self.cell[VALUES + 92..].fill(0);
        Ok(())
    }

    #[inline(always)]
    fn row_four<const DIRECT: bool>(&mut self, line: &[u8]) -> Result<(), u32> {
        let t = match if DIRECT { four_direct(line) } else { None } {
            Some(t) => t,
            None => four_exact(line)?,
        };
        self.cell[DATE] = t.date;
        self.cell[CLOCK] = t.clock;
        Ok(())
    }

    #[inline(always)]
    fn row_thirty<const DIRECT: bool>(&mut self, line: &[u8]) -> Result<(), u32> {
        let s = match if DIRECT { thirty_direct(line) } else { None } {
            Some(s) => s,
            None => thirty_exact(line)?,
        };
        self.sender = [b' '; 13];
        self.sender[..s.len()].copy_from_slice(s);
        Ok(())
    }

    #[inline(always)]
    fn row_detail(&mut self, line: &[u8]) -> Result<(), u32> {
        let k = self.details as usize;
        if k >= MAX_DETAILS {
            return Err(13); // only from a forged state
        }
        let (v, marks) = detail_exact(line, k)?;
        self.put_detail(k, &v, marks);
        self.details += 1;
        Ok(())
    }

    #[inline(always)]
    fn put_detail(&mut self, k: usize, v: &[u32; 4], marks: u32) {
        let at = VALUES + 4 * k;
        self.cell[at..at + 4].copy_from_slice(v);
        self.cell[MARKS + k / 8] |= marks << (4 * (k % 8));
    }
}

/// One call at work.
struct Run<'a> {
    st: &'a mut State,
    registry: &'a [u8],
    index: &'a Index,
    table: &'a mut [u32],
    report: &'a mut [Entry],
    count: usize,
    hint: usize,
}

/// Place of the first LF at or after `from`, or the length.
#[inline]
fn find_lf(b: &[u8], from: usize) -> usize {
    let mut p = from;
    while let Some(w) = b.get(p..p + 16) {
        let x = load8(w, 0) ^ (ONES * 10);
        let y = load8(w, 8) ^ (ONES * 10);
        let m = x.wrapping_sub(ONES) & !x & HIGHS;
        let n = y.wrapping_sub(ONES) & !y & HIGHS;
        if m | n != 0 {
            return if m != 0 {
                p + (m.trailing_zeros() >> 3) as usize
            } else {
                p + 8 + (n.trailing_zeros() >> 3) as usize
            };
        }
        p += 16;
    }
    while p < b.len() && b[p] != 10 {
        p += 1;
    }
    p
}

impl Run<'_> {
    #[inline]
    fn emit(&mut self, verdict: u32, at: u32, meter: u32) {
        let e = Entry { line: self.st.first_line, verdict, at, meter, day: self.st.day };
        // Room was tested: a piece gives no more than 2 + length div 2 entries.
        if let Some(slot) = self.report.get_mut(self.count) {
            *slot = e;
            self.count += 1;
        }
    }

    fn refuse(&mut self, verdict: u32) {
        let at = self.st.lines;
        self.emit(verdict, at, 0);
        self.st.mode = Mode::Skips;
    }

    fn stray(&mut self) {
        self.st.first_line = self.st.lines;
        self.st.day = 0;
        self.refuse(10);
    }

    fn load(&mut self) {
        let st = &*self.st;
        let (at, meter) = (st.last_line, st.meter);
        let d = self.index.days as usize;
        if (meter as usize) < self.index.meters && (st.window_day as usize) < d && st.channel < 2 {
            let n = (meter as usize * 2 + st.channel as usize) * d + st.window_day as usize;
            let cell = &mut self.table[n * CELL_WORDS..(n + 1) * CELL_WORDS];
            let new = (st.cell[DATE], st.cell[CLOCK]);
            if cell[COUNT] == 0 || new > (cell[DATE], cell[CLOCK]) {
                cell.copy_from_slice(&st.cell);
            }
        }
        self.emit(0, at, meter.wrapping_add(1));
        self.st.mode = Mode::None;
    }

    /// All rows are in: 30 to 35, or the unit waits.
    fn registry_checks(&mut self) {
        let st = &mut *self.st;
        let at = st.lines;
        let Some(m) = self.index.find(self.registry, &st.esi, self.hint) else {
            return self.refuse(30);
        };
        self.hint = m;
        let flags = self.index.flags(self.registry, m);
        let day = st.day_number.wrapping_sub(self.index.first);
        let verdict = if self.index.owner(self.registry, m) != st.sender {
            31
        } else if flags & 1 != 0 {
            32
        } else if flags & 2 == 0 {
            33
        } else if flags & 4 == 0 {
            34
        } else if day >= self.index.days {
            35
        } else {
            st.meter = m as u32;
            st.window_day = day;
            st.last_line = at;
            st.mode = Mode::Waits;
            return;
        };
        self.emit(verdict, at, m as u32 + 1);
        self.st.mode = Mode::Skips;
    }

    /// One row of the unit that takes rows; `line` has its CR dropped.
    fn row<const DIRECT: bool>(&mut self, line: &[u8], long: bool) {
        if long {
            return self.refuse(11);
        }
        let st = &mut *self.st;
        let read = match st.headers {
            0 => st.row_one::<DIRECT>(line),
            1 if DIRECT && two_direct(line) => Ok(()),
            1 => two_exact(line),
            2 if DIRECT && three_direct(line) => Ok(()),
            2 => three_exact(line),
            3 => st.row_four::<DIRECT>(line),
            4 => st.row_thirty::<DIRECT>(line),
            _ => st.row_detail(line),
        };
        if let Err(verdict) = read {
            return self.refuse(verdict);
        }
        if st.headers < HEADERS {
            st.headers += 1;
        } else if st.details >= st.need {
            self.registry_checks();
        }
    }

    /// Ends the unit before an opener, and begins a new one.
    #[inline]
    fn open(&mut self) {
        match self.st.mode {
            Mode::Rows => self.refuse(12),
            Mode::Waits => self.load(),
            _ => {}
        }
        let st = &mut *self.st;
        st.mode = Mode::Rows;
        st.headers = 0;
        st.details = 0;
        st.first_line = st.lines;
        st.day = 0;
    }

    /// One line as it stands in the file, without its LF.
    fn line<const DIRECT: bool>(&mut self, raw: &[u8], ended: bool) {
        self.st.lines += 1;
        let long = raw.len() > MAX_LINE;
        let line = match raw.split_last() {
            Some((13, head)) if ended => head,
            _ => raw,
        };
        if line.is_empty() {
            return;
        }
        if line.starts_with(b"00000001") {
            self.open();
            return self.row::<DIRECT>(line, long);
        }
        match self.st.mode {
            Mode::Rows => self.row::<DIRECT>(line, long),
            Mode::Skips => {}
            Mode::None => self.stray(),
            Mode::Waits => {
                if line.starts_with(b"100000") {
                    let (at, meter) = (self.st.lines, self.st.meter.wrapping_add(1));
                    self.emit(22, at, meter);
                    self.st.mode = Mode::Skips;
                } else {
                    self.load();
                    self.stray();
                }
            }
        }
    }

    /// Well formed detail lines from `p` on, up to the record's last; the next place.
    #[inline]
    fn details(&mut self, piece: &[u8], mut p: usize) -> usize {
        let st = &mut *self.st;
        let need = (st.need as usize).min(MAX_DETAILS);
        let mut k = st.details as usize;
        let from = k;
        while k < need {
            let mut v = [0u32; 4];
            let mut marks = 0;
            let Some(w) = piece.get(p..).and_then(|s| s.first_chunk::<WINDOW>()) else { break };
            let n = detail_direct(w, CODES[k], &mut v, &mut marks);
            if n == 0 {
                break;
            }
            st.put_detail(k, &v, marks);
            p += n;
            k += 1;
        }
        st.details = k as u32;
        st.lines += (k - from) as u32;
        if k > from && k >= need {
            self.registry_checks();
        }
        p
    }

    /// The line that was begun in an earlier piece; the place behind it, or none where it has not
    /// ended.
    #[inline]
    fn kept_line<const DIRECT: bool>(&mut self, piece: &[u8]) -> Option<usize> {
        let kept = self.st.kept_len;
        let lf = find_lf(piece, 0);
        let n = lf.min(MAX_KEPT - kept);
        self.st.kept[kept..kept + n].copy_from_slice(&piece[..n]);
        self.st.kept_len = kept + n;
        if lf == piece.len() {
            return None;
        }
        let held = self.st.kept;
        self.st.kept_len = 0;
        self.line::<DIRECT>(&held[..kept + n], true);
        Some(lf + 1)
    }

    fn piece<const DIRECT: bool>(&mut self, piece: &[u8]) {
        let mut p = 0;
        if self.st.kept_len > 0 {
            match self.kept_line::<DIRECT>(piece) {
                Some(next) => p = next,
                None => return,
            }
        }
        while p < piece.len() {
            if DIRECT && self.st.mode == Mode::Rows && self.st.headers == HEADERS {
                let q = self.details(piece, p);
                if q > p {
                    p = q;
                    continue;
                }
            }
            let lf = find_lf(piece, p);
            if lf == piece.len() {
                let tail = &piece[p..];
                let n = tail.len().min(MAX_KEPT);
                self.st.kept[..n].copy_from_slice(&tail[..n]);
                self.st.kept_len = n;
                return;
            }
            self.line::<DIRECT>(&piece[p..lf], true);
            p = lf + 1;
        }
    }
}

/// Refusals 1 to 4, in order; 0 where the call may go on.
fn tests(
    st: &State,
    index: &mut Index,
    registry: &[u8],
    table: &[u32],
    room: usize,
    want: usize,
) -> u32 {
    if st.kept_len > MAX_KEPT
        || st.taken > MAX_TAKEN
        || st.details as usize > MAX_DETAILS
        || st.lines as usize > st.taken
    {
        1
    } else if !index.read(registry) {
        2
    } else if table.len() < index.cells() * CELL_WORDS {
        3
    } else if room < want {
        4
    } else {
        0
    }
}

fn feed_as<const DIRECT: bool>(
    st: &mut State,
    piece: &[u8],
    registry: &[u8],
    table: &mut [u32],
    report: &mut [Entry],
) -> (u32, usize) {
    let mut index = Index::EMPTY;
    let n = tests(st, &mut index, registry, table, report.len(), 2 + piece.len() / 2);
    if n != 0 {
        return (n, 0);
    }
    if piece.len() > MAX_TAKEN - st.taken {
        return (5, 0);
    }
    st.taken += piece.len();
    let hint = st.meter as usize;
    let mut run = Run { st, registry, index: &index, table, report, count: 0, hint };
    run.piece::<DIRECT>(piece);
    (0, run.count)
}

/// Returned number and entry count; a refusal changes nothing.
pub fn feed(
    st: &mut State,
    piece: &[u8],
    registry: &[u8],
    table: &mut [u32],
    report: &mut [Entry],
) -> (u32, usize) {
    feed_as::<true>(st, piece, registry, table, report)
}

/// The same without the direct readers: find LF, cut at commas, check fields.
pub fn feed_ordinary(
    st: &mut State,
    piece: &[u8],
    registry: &[u8],
    table: &mut [u32],
    report: &mut [Entry],
) -> (u32, usize) {
    feed_as::<false>(st, piece, registry, table, report)
}

/// Ends the file; the state is then fresh.
pub fn finish(
    st: &mut State,
    registry: &[u8],
    table: &mut [u32],
    report: &mut [Entry],
) -> (u32, usize) {
    let mut index = Index::EMPTY;
    let n = tests(st, &mut index, registry, table, report.len(), 2);
    if n != 0 {
        return (n, 0);
    }
    let mut run = Run { st, registry, index: &index, table, report, count: 0, hint: 0 };
    let kept = run.st.kept_len;
    if kept > 0 {
        let held = run.st.kept;
        run.line::<true>(&held[..kept], false);
    }
    match run.st.mode {
        Mode::Rows => {
            let at = run.st.lines.wrapping_add(1);
            run.emit(12, at, 0);
        }
        Mode::Waits => run.load(),
        _ => {}
    }
    let count = run.count;
    *st = fresh();
    (0, count)
}
