//! A plain, unverified program that does what `credtrace run` does: std alone, no proof, no journal
//! kept. It is the yardstick of `bench/run.sh`, and a second reading of the manual pages to compare
//! reports with. No part of the product or of the checks.
//!
//! Build it with `rustc --edition 2021 -O bench/plain.rs`.
use std::collections::HashMap;
use std::io::{Read, Write};

const NO_ID: u32 = u32::MAX;
const FULL: u64 = (1 << 41) - 1;
const SLOTS: usize = 256;

const SETGID: u64 = 1 << 6;
const SETUID: u64 = 1 << 7;
const SETPCAP: u64 = 1 << 8;
const DAC_OVERRIDE: u64 = 1 << 1;
const DAC_READ_SEARCH: u64 = 1 << 2;
const FILE_CAPS: u64 = 0x1_0800_021f;

const NO_SETUID_FIXUP: u32 = 1 << 2;
const KEEP_CAPS: u32 = 1 << 4;
const KEEP_CAPS_LOCKED: u32 = 1 << 5;
const NO_AMBIENT_RAISE: u32 = 1 << 6;

const CAP_NAMES: [&str; 41] = [
    "CHOWN", "DAC_OVERRIDE", "DAC_READ_SEARCH", "FOWNER", "FSETID", "KILL", "SETGID", "SETUID",
    "SETPCAP", "LINUX_IMMUTABLE", "NET_BIND_SERVICE", "NET_BROADCAST", "NET_ADMIN", "NET_RAW",
    "IPC_LOCK", "IPC_OWNER", "SYS_MODULE", "SYS_RAWIO", "SYS_CHROOT", "SYS_PTRACE", "SYS_PACCT",
    "SYS_ADMIN", "SYS_BOOT", "SYS_NICE", "SYS_RESOURCE", "SYS_TIME", "SYS_TTY_CONFIG", "MKNOD",
    "LEASE", "AUDIT_WRITE", "AUDIT_CONTROL", "SETFCAP", "MAC_OVERRIDE", "MAC_ADMIN", "SYSLOG",
    "WAKE_ALARM", "BLOCK_SUSPEND", "AUDIT_READ", "PERFMON", "BPF", "CHECKPOINT_RESTORE",
];

/// Real, effective, saved, filesystem.
#[derive(Clone, Copy)]
struct Ids {
    r: u32,
    e: u32,
    s: u32,
    fs: u32,
}

#[derive(Clone)]
struct Cred {
    uid: Ids,
    gid: Ids,
    groups: Vec<u32>,
    perm: u64,
    inh: u64,
    eff: u64,
    bound: u64,
    amb: u64,
    bits: u32,
    nnp: bool,
}

#[derive(Clone, Copy, PartialEq)]
enum Why {
    Byte,
    Word,
    Count,
    Order,
    Name,
}

#[derive(Clone)]
enum IdCall {
    Set(bool, u32),
    SetE(bool, u32),
    SetRe(bool, u32, u32),
    SetRes(bool, u32, u32, u32),
    Groups(Vec<u32>),
}

#[derive(Clone, Copy)]
enum Change {
    FsUid(u32),
    FsGid(u32),
    Capset(u64, u64, u64),
    Drop(u32),
    Raise(u32),
    Lower(u32),
    Clear,
    Bits(u32),
    Keep(u32),
    Nnp(u32),
}

#[derive(Clone, Copy)]
enum Query {
    Ids,
    Caps,
    Groups,
    Bits,
    Capable(u32),
    Bset(u32),
    AmbIs(u32),
    Check(u32, u8),
}

enum Line {
    Nothing,
    Init(u32, u32, u32, u32),
    Take(u32, u32, bool),
    Release(u32),
    Ask(u32, Query),
    Prepare(u32, u32, u32),
    Alter(u32, Change),
    Commit(u32),
    Abort(u32),
    Begin(u32, IdCall),
    Sweep,
    Call(u32, IdCall),
    Question(u32, Query),
    Changes(u32, Change),
}

struct File<'a> {
    name: &'a [u8],
    dir: bool,
    owner: u32,
    group: u32,
    mode: u32,
}

// ---- reading

fn num(w: &[u8]) -> Option<u32> {
    if w.is_empty() || w.len() > 10 || (w[0] == b'0' && w.len() > 1) {
        return None;
    }
    let mut n: u64 = 0;
    for &b in w {
        let d = b.wrapping_sub(b'0');
        if d > 9 {
            return None;
        }
        n = n * 10 + d as u64;
    }
    u32::try_from(n).ok()
}

fn id(w: &[u8]) -> Option<u32> {
    num(w).filter(|n| *n != NO_ID)
}

fn arg(w: &[u8]) -> Option<u32> {
    if w == b"-1" { Some(NO_ID) } else { id(w) }
}

fn named(letter: u8, w: &[u8]) -> Option<u32> {
    match w {
        [first, rest @ ..] if *first == letter => num(rest).filter(|n| (1..=99_999).contains(n)),
        _ => None,
    }
}

fn cap(w: &[u8]) -> Option<u32> {
    if let Some(n) = num(w) {
        return Some(n);
    }
    let name = w.strip_prefix(b"CAP_")?;
    CAP_NAMES.iter().position(|n| n.as_bytes() == name).map(|n| n as u32)
}

fn set(w: &[u8]) -> Option<u64> {
    if w.is_empty() || w.len() > 16 {
        return None;
    }
    let mut n: u64 = 0;
    for b in w {
        n = n << 4 | (*b as char).to_digit(16)? as u64;
    }
    (n <= FULL).then_some(n)
}

fn want(w: &[u8]) -> Option<u8> {
    Some(match w {
        b"r" => 4,
        b"w" => 2,
        b"x" => 1,
        b"rw" => 6,
        b"rx" => 5,
        b"wx" => 3,
        b"rwx" => 7,
        _ => return None,
    })
}

fn file_name(w: &[u8]) -> bool {
    !w.is_empty()
        && w.len() <= 32
        && w[0].is_ascii_alphabetic()
        && w.iter().all(|b| b.is_ascii_alphanumeric() || b"_.-".contains(b))
}

fn is_id_call(w: &[u8]) -> bool {
    matches!(
        w,
        b"setuid" | b"seteuid" | b"setgid" | b"setegid" | b"setreuid" | b"setregid" | b"setresuid"
            | b"setresgid" | b"setgroups"
    )
}

fn is_change(w: &[u8]) -> bool {
    matches!(
        w,
        b"setfsuid" | b"setfsgid" | b"capset" | b"capdrop" | b"ambraise" | b"amblower" | b"ambclear"
            | b"securebits" | b"keepcaps" | b"nonewprivs"
    )
}

fn is_query(w: &[u8]) -> bool {
    matches!(
        w,
        b"ids" | b"caps" | b"groups" | b"bits" | b"capable" | b"bset" | b"ambis" | b"check"
    )
}

fn counted(words: &[&[u8]], n: usize) -> Result<(), Why> {
    if words.len() == n { Ok(()) } else { Err(Why::Count) }
}

fn id_call(name: &[u8], w: &[&[u8]]) -> Result<IdCall, Why> {
    let one = |w: &[u8]| arg(w).ok_or(Why::Word);
    let user = name.ends_with(b"uid");
    match name {
        b"setuid" | b"setgid" => {
            counted(w, 1)?;
            Ok(IdCall::Set(user, one(w[0])?))
        }
        b"seteuid" | b"setegid" => {
            counted(w, 1)?;
            Ok(IdCall::SetE(user, one(w[0])?))
        }
        b"setreuid" | b"setregid" => {
            counted(w, 2)?;
            Ok(IdCall::SetRe(user, one(w[0])?, one(w[1])?))
        }
        b"setresuid" | b"setresgid" => {
            counted(w, 3)?;
            Ok(IdCall::SetRes(user, one(w[0])?, one(w[1])?, one(w[2])?))
        }
        _ => w
            .iter()
            .map(|w| id(w).ok_or(Why::Word))
            .collect::<Result<_, _>>()
            .map(IdCall::Groups),
    }
}

fn change(name: &[u8], w: &[&[u8]]) -> Result<Change, Why> {
    let number = |w: &[u8]| num(w).ok_or(Why::Word);
    let capability = |w: &[u8]| cap(w).ok_or(Why::Word);
    let bits = |w: &[u8]| set(w).ok_or(Why::Word);
    counted(w, match name {
        b"capset" => 3,
        b"ambclear" => 0,
        _ => 1,
    })?;
    Ok(match name {
        b"setfsuid" => Change::FsUid(arg(w[0]).ok_or(Why::Word)?),
        b"setfsgid" => Change::FsGid(arg(w[0]).ok_or(Why::Word)?),
        b"capset" => Change::Capset(bits(w[0])?, bits(w[1])?, bits(w[2])?),
        b"capdrop" => Change::Drop(capability(w[0])?),
        b"ambraise" => Change::Raise(capability(w[0])?),
        b"amblower" => Change::Lower(capability(w[0])?),
        b"ambclear" => Change::Clear,
        b"securebits" => Change::Bits(number(w[0])?),
        b"keepcaps" => Change::Keep(number(w[0])?),
        _ => Change::Nnp(number(w[0])?),
    })
}

struct Reader<'a> {
    files: Vec<File<'a>>,
    places: HashMap<&'a [u8], u32>,
    init: bool,
    later: bool,
}

impl<'a> Reader<'a> {
    fn query(&self, name: &[u8], w: &[&[u8]]) -> Result<Query, Why> {
        let capability = |w: &[u8]| cap(w).ok_or(Why::Word);
        counted(w, match name {
            b"capable" | b"bset" | b"ambis" => 1,
            b"check" => 2,
            _ => 0,
        })?;
        Ok(match name {
            b"ids" => Query::Ids,
            b"caps" => Query::Caps,
            b"groups" => Query::Groups,
            b"bits" => Query::Bits,
            b"capable" => Query::Capable(capability(w[0])?),
            b"bset" => Query::Bset(capability(w[0])?),
            b"ambis" => Query::AmbIs(capability(w[0])?),
            _ => {
                if !file_name(w[0]) {
                    return Err(Why::Word);
                }
                let want = want(w[1]).ok_or(Why::Word)?;
                Query::Check(self.places.get(w[0]).copied().unwrap_or(NO_ID), want)
            }
        })
    }

    fn checked(&self, query: Query) -> Result<Query, Why> {
        match query {
            Query::Check(NO_ID, _) => Err(Why::Name),
            query => Ok(query),
        }
    }

    fn file(&mut self, w: &[&'a [u8]]) -> Result<Line, Why> {
        if !(5..=8).contains(&w.len()) || self.files.len() >= 256 {
            return Err(Why::Count);
        }
        let mode = |w: &[u8]| {
            (w.len() == 4 && w.iter().all(|b| (b'0'..=b'7').contains(b)))
                .then(|| w.iter().fold(0, |n, b| n * 8 + (b - b'0') as u32))
        };
        let dir = match w[1] {
            b"reg" => false,
            b"dir" => true,
            _ => return Err(Why::Word),
        };
        let owner = id(w[2]).ok_or(Why::Word)?;
        let group = id(w[3]).ok_or(Why::Word)?;
        let mode = mode(w[4]).ok_or(Why::Word)?;
        let bytes = match &w[5..] {
            [] => None,
            [b"nosuid"] => None,
            [b"caps", bytes] | [b"nosuid", b"caps", bytes] => Some(*bytes),
            _ => return Err(Why::Word),
        };
        if let Some(bytes) = bytes {
            let digits = bytes.strip_prefix(b"0x").unwrap_or(bytes);
            let fits = (2..=128).contains(&digits.len()) && digits.len() % 2 == 0;
            if !fits || !digits.iter().all(|b| b.is_ascii_hexdigit()) {
                return Err(Why::Word);
            }
        }
        if !file_name(w[0]) {
            return Err(Why::Word);
        }
        if self.later {
            return Err(Why::Order);
        }
        if self.places.insert(w[0], self.files.len() as u32).is_some() {
            return Err(Why::Name);
        }
        self.files.push(File { name: w[0], dir, owner, group, mode });
        Ok(Line::Nothing)
    }

    fn task_line(&self, t: u32, name: &[u8], w: &[&[u8]]) -> Result<Line, Why> {
        if is_id_call(name) {
            Ok(Line::Call(t, id_call(name, w)?))
        } else if is_change(name) {
            Ok(Line::Changes(t, change(name, w)?))
        } else if is_query(name) {
            Ok(Line::Question(t, self.query(name, w)?))
        } else {
            Err(Why::Word)
        }
    }

    fn event_line(&self, w: &[&[u8]]) -> Result<Line, Why> {
        let label = |w: &[u8]| named(b'h', w).ok_or(Why::Word);
        let task = |w: &[u8]| named(b't', w).ok_or(Why::Word);
        let rest = &w[1..];
        match w[0] {
            b"take" | b"takereal" => {
                counted(rest, 2)?;
                Ok(Line::Take(label(rest[0])?, task(rest[1])?, w[0] == b"take"))
            }
            b"drop" | b"commit" | b"abort" => {
                counted(rest, 1)?;
                let h = label(rest[0])?;
                Ok(match w[0] {
                    b"drop" => Line::Release(h),
                    b"commit" => Line::Commit(h),
                    _ => Line::Abort(h),
                })
            }
            b"prepare" => {
                counted(rest, 3)?;
                Ok(Line::Prepare(label(rest[0])?, task(rest[1])?, label(rest[2])?))
            }
            b"sweep" => {
                counted(rest, 0)?;
                Ok(Line::Sweep)
            }
            b"ask" | b"change" | b"begin" => {
                let known = match w[0] {
                    b"ask" => is_query,
                    b"change" => is_change,
                    _ => is_id_call,
                };
                let name = *rest.get(1).ok_or(Why::Count)?;
                if !known(name) {
                    return Err(Why::Word);
                }
                match w[0] {
                    b"ask" => {
                        let query = self.query(name, &rest[2..])?;
                        Ok(Line::Ask(label(rest[0])?, query))
                    }
                    b"change" => {
                        let change = change(name, &rest[2..])?;
                        Ok(Line::Alter(label(rest[0])?, change))
                    }
                    _ => {
                        let call = id_call(name, &rest[2..])?;
                        Ok(Line::Begin(task(rest[0])?, call))
                    }
                }
            }
            _ => Err(Why::Word),
        }
    }

    fn line(&mut self, text: &'a [u8], words: &mut Vec<&'a [u8]>) -> Result<Line, Why> {
        if text.iter().any(|b| !(0x20..=0x7e).contains(b)) {
            return Err(Why::Byte);
        }
        words.clear();
        words.extend(text.split(|b| *b == b' ').filter(|w| !w.is_empty()));
        let Some(first) = words.first() else {
            return Ok(Line::Nothing);
        };
        if first[0] == b'#' {
            return Ok(Line::Nothing);
        }
        if *first == b"file" {
            return self.file(&words[1..]);
        }
        if *first == b"init" {
            if self.init {
                return Err(Why::Word);
            }
            let w = &words[1..];
            counted(w, 5)?;
            let t = named(b't', w[0]).ok_or(Why::Word)?;
            let p = named(b'p', w[1]).ok_or(Why::Word)?;
            let user = id(w[2]).ok_or(Why::Word)?;
            let group = id(w[3]).ok_or(Why::Word)?;
            let ns = match w[4] {
                [b'n', rest @ ..] => num(rest).filter(|n| *n <= 15).ok_or(Why::Word)?,
                _ => return Err(Why::Word),
            };
            if self.later {
                return Err(Why::Order);
            }
            if ns != 0 {
                return Err(Why::Name);
            }
            self.init = true;
            return Ok(Line::Init(t, p, user, group));
        }
        let line = match named(b't', first) {
            Some(t) => self.task_line(t, words.get(1).ok_or(Why::Word)?, &words[2..])?,
            None => self.event_line(words)?,
        };
        match &line {
            Line::Question(_, query) | Line::Ask(_, query) => {
                self.checked(*query)?;
            }
            _ => {}
        }
        self.later = true;
        Ok(line)
    }
}

// ---- rules

fn has(c: &Cred, caps: u64) -> bool {
    c.eff & caps != 0
}

fn fix(old: &Cred, new: &mut Cred) {
    if old.bits & NO_SETUID_FIXUP != 0 {
        return;
    }
    let (o, n) = (old.uid, new.uid);
    let lost = (o.r == 0 || o.e == 0 || o.s == 0) && n.r != 0 && n.e != 0 && n.s != 0;
    let keep = old.bits & KEEP_CAPS != 0;
    if lost {
        new.amb = 0;
        if !keep {
            new.perm = 0;
        }
    }
    if (lost && !keep) || (o.e == 0 && n.e != 0) {
        new.eff = 0;
    } else if o.e != 0 && n.e == 0 {
        new.eff = new.perm;
    }
}

fn apply_id(c: &Cred, call: &IdCall) -> Result<Cred, &'static str> {
    let mut new;
    let (user, r, e, s) = match call {
        IdCall::Groups(list) => {
            if !has(c, SETGID) {
                return Err("eperm");
            }
            if list.len() > 1024 {
                return Err("einval");
            }
            new = c.clone();
            new.groups = list.clone();
            new.groups.sort();
            return Ok(new);
        }
        IdCall::Set(user, a) | IdCall::SetE(user, a) if *a == NO_ID => {
            let _ = user;
            return Err("einval");
        }
        IdCall::Set(user, a) => {
            let ids = if *user { c.uid } else { c.gid };
            if has(c, if *user { SETUID } else { SETGID }) {
                (*user, *a, *a, *a)
            } else if *a == ids.r || *a == ids.s {
                (*user, ids.r, *a, ids.s)
            } else {
                return Err("eperm");
            }
        }
        IdCall::SetRe(user, a, b) => {
            let ids = if *user { c.uid } else { c.gid };
            let able = has(c, if *user { SETUID } else { SETGID });
            let r_ok = *a == NO_ID || *a == ids.r || *a == ids.e;
            let e_ok = *b == NO_ID || *b == ids.r || *b == ids.e || *b == ids.s;
            if !able && !(r_ok && e_ok) {
                return Err("eperm");
            }
            let r = if *a == NO_ID { ids.r } else { *a };
            let e = if *b == NO_ID { ids.e } else { *b };
            let moved = *a != NO_ID || (*b != NO_ID && *b != ids.r);
            (*user, r, e, if moved { e } else { ids.s })
        }
        IdCall::SetRes(..) | IdCall::SetE(..) => {
            let (user, a, b, d) = match call {
                IdCall::SetRes(user, a, b, d) => (*user, *a, *b, *d),
                IdCall::SetE(user, b) => (*user, NO_ID, *b, NO_ID),
                _ => unreachable!(),
            };
            let ids = if user { c.uid } else { c.gid };
            let own = |x: u32| x == NO_ID || x == ids.r || x == ids.e || x == ids.s;
            if !has(c, if user { SETUID } else { SETGID }) && !(own(a) && own(b) && own(d)) {
                return Err("eperm");
            }
            let or = |x: u32, old: u32| if x == NO_ID { old } else { x };
            (user, or(a, ids.r), or(b, ids.e), or(d, ids.s))
        }
    };
    new = c.clone();
    let ids = Ids { r, e, s, fs: e };
    if user {
        new.uid = ids;
        fix(c, &mut new);
    } else {
        new.gid = ids;
    }
    Ok(new)
}

enum Made {
    Was(u32),
    Done,
}

fn set_fs(c: &Cred, user: bool, a: u32) -> (Cred, u32) {
    let ids = if user { c.uid } else { c.gid };
    let able = has(c, if user { SETUID } else { SETGID });
    let mut new = c.clone();
    if a != NO_ID && (able || a == ids.r || a == ids.e || a == ids.s || a == ids.fs) {
        if user {
            new.uid.fs = a;
            if c.bits & NO_SETUID_FIXUP == 0 {
                if ids.fs == 0 && a != 0 {
                    new.eff &= !FILE_CAPS;
                } else if ids.fs != 0 && a == 0 {
                    new.eff |= FILE_CAPS & c.perm;
                }
            }
        } else {
            new.gid.fs = a;
        }
    }
    (new, ids.fs)
}

fn apply_change(c: &Cred, change: Change) -> Result<(Made, Cred), &'static str> {
    let mut new = c.clone();
    match change {
        Change::FsUid(a) => {
            let (new, was) = set_fs(c, true, a);
            return Ok((Made::Was(was), new));
        }
        Change::FsGid(a) => {
            let (new, was) = set_fs(c, false, a);
            return Ok((Made::Was(was), new));
        }
        Change::Capset(p, i, e) => {
            let inh_ok = i & !(c.inh | c.bound) == 0
                && (has(c, SETPCAP) || i & !(c.inh | c.perm) == 0);
            if !(inh_ok && p & !c.perm == 0 && e & !p == 0) {
                return Err("eperm");
            }
            (new.perm, new.inh, new.eff, new.amb) = (p, i, e, c.amb & p & i);
        }
        Change::Drop(n) => {
            if !has(c, SETPCAP) {
                return Err("eperm");
            }
            if n > 40 {
                return Err("einval");
            }
            new.bound &= !(1 << n);
        }
        Change::Raise(n) => {
            if n > 40 {
                return Err("einval");
            }
            if c.perm & c.inh & 1 << n == 0 || c.bits & NO_AMBIENT_RAISE != 0 {
                return Err("eperm");
            }
            new.amb |= 1 << n;
        }
        Change::Lower(n) => {
            if n > 40 {
                return Err("einval");
            }
            new.amb &= !(1 << n);
        }
        Change::Clear => new.amb = 0,
        Change::Bits(n) => {
            let locks = c.bits & 0xaa;
            let locked = locks >> 1;
            let bad = n > 255 || n & locks != locks || (n ^ c.bits) & locked != 0;
            if !has(c, SETPCAP) || bad {
                return Err("eperm");
            }
            new.bits = n;
        }
        Change::Keep(n) => {
            if n > 1 {
                return Err("einval");
            }
            if c.bits & KEEP_CAPS_LOCKED != 0 {
                return Err("eperm");
            }
            new.bits = c.bits & !KEEP_CAPS | if n == 1 { KEEP_CAPS } else { 0 };
        }
        Change::Nnp(n) => {
            if n != 1 {
                return Err("einval");
            }
            new.nnp = true;
        }
    }
    Ok((Made::Done, new))
}

fn may(c: &Cred, f: &File, want: u8) -> bool {
    let class = if c.uid.fs == f.owner {
        f.mode >> 6
    } else if c.gid.fs == f.group || c.groups.contains(&f.group) {
        f.mode >> 3
    } else {
        f.mode
    };
    let want = want as u32;
    class & 7 & want == want
        || (has(c, DAC_OVERRIDE) && (f.dir || want & 1 == 0 || f.mode & 0o111 != 0))
        || (has(c, DAC_READ_SEARCH) && (want == 4 || (f.dir && want & 2 == 0)))
}

// ---- printing

/// 00 to 99.
const PAIRS: [u8; 200] = {
    let mut pairs = [0; 200];
    let mut n = 0;
    while n < 100 {
        pairs[2 * n] = b'0' + (n / 10) as u8;
        pairs[2 * n + 1] = b'0' + (n % 10) as u8;
        n += 1;
    }
    pairs
};

struct Out<W: Write> {
    to: W,
    buf: Vec<u8>,
}

impl<W: Write> Out<W> {
    fn s(&mut self, text: &str) -> &mut Self {
        self.buf.extend_from_slice(text.as_bytes());
        self
    }

    fn n(&mut self, mut n: u64) -> &mut Self {
        if n < 10 {
            self.buf.push(b'0' + n as u8);
            return self;
        }
        let mut digits = [0u8; 20];
        let mut at = 20;
        while n >= 100 {
            at -= 2;
            let two = (n % 100) as usize * 2;
            digits[at..at + 2].copy_from_slice(&PAIRS[two..two + 2]);
            n /= 100;
        }
        if n >= 10 {
            at -= 2;
            let two = n as usize * 2;
            digits[at..at + 2].copy_from_slice(&PAIRS[two..two + 2]);
        } else {
            at -= 1;
            digits[at] = b'0' + n as u8;
        }
        self.buf.extend_from_slice(&digits[at..]);
        self
    }

    fn sn(&mut self, text: &str, n: u64) -> &mut Self {
        self.s(text).n(n)
    }

    fn x(&mut self, n: u64) -> &mut Self {
        if n == 0 {
            return self.s(" 0");
        }
        self.buf.push(b' ');
        let mut shift = (63 - n.leading_zeros()) / 4 * 4;
        loop {
            self.buf.push(b"0123456789abcdef"[(n >> shift & 15) as usize]);
            if shift == 0 {
                return self;
            }
            shift -= 4;
        }
    }

    fn a(&mut self, n: u32) -> &mut Self {
        if n == NO_ID { self.s(" -1") } else { self.sn(" ", n as u64) }
    }

    fn end(&mut self) {
        self.buf.push(b'\n');
        if self.buf.len() >= 60 * 1024 {
            self.to.write_all(&self.buf).unwrap();
            self.buf.clear();
        }
    }

    fn call(&mut self, call: &IdCall) {
        let kind = |user: bool| if user { "uid" } else { "gid" };
        match call {
            IdCall::Set(u, a) => self.s(" set").s(kind(*u)).a(*a),
            IdCall::SetE(u, a) => self.s(" sete").s(kind(*u)).a(*a),
            IdCall::SetRe(u, a, b) => self.s(" setre").s(kind(*u)).a(*a).a(*b),
            IdCall::SetRes(u, a, b, d) => self.s(" setres").s(kind(*u)).a(*a).a(*b).a(*d),
            IdCall::Groups(list) => {
                self.s(" setgroups");
                for g in list {
                    self.a(*g);
                }
                self
            }
        };
    }

    fn change(&mut self, change: Change) {
        match change {
            Change::FsUid(a) => self.s(" setfsuid").a(a),
            Change::FsGid(a) => self.s(" setfsgid").a(a),
            Change::Capset(p, i, e) => self.s(" capset").x(p).x(i).x(e),
            Change::Drop(n) => self.sn(" capdrop ", n as u64),
            Change::Raise(n) => self.sn(" ambraise ", n as u64),
            Change::Lower(n) => self.sn(" amblower ", n as u64),
            Change::Clear => self.s(" ambclear"),
            Change::Bits(n) => self.sn(" securebits ", n as u64),
            Change::Keep(n) => self.sn(" keepcaps ", n as u64),
            Change::Nnp(n) => self.sn(" nonewprivs ", n as u64),
        };
    }

    fn query(&mut self, query: Query, files: &[File]) {
        match query {
            Query::Ids => self.s(" ids"),
            Query::Caps => self.s(" caps"),
            Query::Groups => self.s(" groups"),
            Query::Bits => self.s(" bits"),
            Query::Capable(n) => self.sn(" capable ", n as u64),
            Query::Bset(n) => self.sn(" bset ", n as u64),
            Query::AmbIs(n) => self.sn(" ambis ", n as u64),
            Query::Check(place, want) => {
                self.s(" check ");
                self.buf.extend_from_slice(files[place as usize].name);
                self.buf.push(b' ');
                for (bit, letter) in [(4, b'r'), (2, b'w'), (1, b'x')] {
                    if want & bit != 0 {
                        self.buf.push(letter);
                    }
                }
                self
            }
        };
    }
}

// ---- the state

struct Prepared {
    task: u32,
    base: u64,
    slot: usize,
    changed: Option<Cred>,
}

/// Labels go up to 100,000 + 10 * 20,000 + 2.
const LABELS: usize = 300_003;

/// What each label stands for: the number that it holds, or a place among the prepared ones.
struct Labels {
    holds: Vec<u32>,
    held: usize,
    places: Vec<u8>,
    prepared: Vec<Option<Prepared>>,
    preparing: usize,
}

impl Labels {
    fn new() -> Labels {
        Labels {
            holds: vec![0; LABELS],
            held: 0,
            places: vec![0; LABELS],
            prepared: (0..64).map(|_| None).collect(),
            preparing: 0,
        }
    }

    fn hold(&self, label: u32) -> Option<u64> {
        (self.holds[label as usize] as u64).checked_sub(1)
    }

    fn prepared(&mut self, label: u32) -> Option<&mut Prepared> {
        let place = (self.places[label as usize] as usize).checked_sub(1)?;
        self.prepared[place].as_mut()
    }

    fn in_use(&self, label: u32) -> bool {
        self.holds[label as usize] != 0 || self.places[label as usize] != 0
    }

    fn take(&mut self, label: u32, number: u64) {
        self.holds[label as usize] = number as u32 + 1;
        self.held += 1;
    }

    fn release(&mut self, label: u32) -> Option<u64> {
        let number = self.hold(label)?;
        self.holds[label as usize] = 0;
        self.held -= 1;
        Some(number)
    }

    fn prepare(&mut self, label: u32, p: Prepared) {
        let place = self.prepared.iter().position(Option::is_none).unwrap();
        self.prepared[place] = Some(p);
        self.places[label as usize] = place as u8 + 1;
        self.preparing += 1;
    }

    fn end(&mut self, label: u32) -> Option<Prepared> {
        let place = (self.places[label as usize] as usize).checked_sub(1)?;
        self.places[label as usize] = 0;
        self.preparing -= 1;
        self.prepared[place].take()
    }
}

struct Kernel<'a, W: Write> {
    files: &'a [File<'a>],
    tasks: Vec<(u32, u64)>,
    labels: Labels,
    deferred: Vec<u64>,
    slot_of: Vec<u8>,
    creds: Vec<Option<Cred>>,
    refs: [u64; SLOTS],
    kept: [bool; SLOTS],
    live: [u64; 4],
    out: Out<W>,
}

impl<'a, W: Write> Kernel<'a, W> {
    fn mark(&mut self, slot: usize) {
        let bit = 1 << (slot % 64);
        if self.refs[slot] > 0 || self.kept[slot] {
            self.live[slot / 64] |= bit;
        } else {
            self.live[slot / 64] &= !bit;
        }
    }

    fn refer(&mut self, number: u64) {
        let slot = self.slot_of[number as usize] as usize;
        self.refs[slot] += 1;
        self.mark(slot);
    }

    fn sweep(&mut self) {
        for number in std::mem::take(&mut self.deferred) {
            let slot = self.slot_of[number as usize] as usize;
            self.refs[slot] -= 1;
            self.mark(slot);
        }
    }

    fn least(&self) -> Option<usize> {
        (0..4)
            .find(|w| self.live[*w] != u64::MAX)
            .map(|w| w * 64 + self.live[w].trailing_ones() as usize)
    }

    fn free(&mut self) -> Option<usize> {
        if self.least().is_none() {
            self.sweep();
        }
        self.least()
    }

    fn current(&self, task: u32) -> Option<u64> {
        self.tasks.iter().find(|t| t.0 == task).map(|t| t.1)
    }

    fn set_current(&mut self, task: u32, number: u64) {
        for t in &mut self.tasks {
            if t.0 == task {
                t.1 = number;
            }
        }
    }

    fn cred(&self, number: u64) -> &Cred {
        self.creds[self.slot_of[number as usize] as usize].as_ref().unwrap()
    }

    fn seal(&mut self, cred: Cred, slot: usize) -> u64 {
        let number = self.slot_of.len() as u64;
        self.slot_of.push(slot as u8);
        self.creds[slot] = Some(cred);
        self.refs[slot] += 1;
        self.mark(slot);
        number
    }

    fn init(&mut self, task: u32, user: u32, group: u32) {
        let all = |n: u32| Ids { r: n, e: n, s: n, fs: n };
        let caps = if user == 0 { FULL } else { 0 };
        if self.current(task).is_some() {
            self.out.sn("exists t", task as u64);
            return;
        }
        if self.tasks.len() >= 64 {
            self.out.s("too many tasks");
            return;
        }
        let Some(slot) = self.free() else {
            self.out.s("table full");
            return;
        };
        let cred = Cred {
            uid: all(user),
            gid: all(group),
            groups: Vec::new(),
            perm: caps,
            inh: 0,
            eff: caps,
            bound: FULL,
            amb: 0,
            bits: 0,
            nnp: false,
        };
        let number = self.seal(cred, slot);
        self.tasks.push((task, number));
        self.out.sn("ok c", number).sn(" s", slot as u64);
    }

    fn take(&mut self, label: u32, task: u32) -> bool {
        let Some(number) = self.current(task) else {
            self.out.sn("no task t", task as u64);
            return false;
        };
        if self.labels.in_use(label) {
            self.out.sn("exists h", label as u64);
            return false;
        }
        if self.labels.held >= 512 {
            self.out.s("too many holds");
            return false;
        }
        self.labels.take(label, number);
        self.refer(number);
        let slot = self.slot_of[number as usize] as u64;
        self.out.sn("ok c", number).sn(" s", slot);
        true
    }

    fn release(&mut self, label: u32) {
        match self.labels.release(label) {
            Some(number) => {
                self.deferred.push(number);
                self.out.s("ok");
            }
            None => {
                self.out.sn("no hold h", label as u64);
            }
        }
    }

    fn ask(&mut self, label: u32, query: Query) {
        let Some(number) = self.labels.hold(label) else {
            self.out.sn("no hold h", label as u64);
            return;
        };
        let slot = self.slot_of[number as usize] as usize;
        let c = self.creds[slot].as_ref().unwrap();
        let out = &mut self.out;
        let mut flag = |n: u32, caps: u64| {
            if n > 40 {
                out.s("einval");
            } else {
                out.sn("ok ", caps >> n & 1);
            }
        };
        match query {
            Query::Capable(n) => flag(n, c.eff),
            Query::Bset(n) => flag(n, c.bound),
            Query::AmbIs(n) => flag(n, c.amb),
            Query::Ids => {
                out.s("ok");
                for ids in [c.uid, c.gid] {
                    out.a(ids.r).a(ids.e).a(ids.s).a(ids.fs);
                }
            }
            Query::Caps => {
                out.s("ok").x(c.perm).x(c.inh).x(c.eff).x(c.bound).x(c.amb);
            }
            Query::Groups => {
                out.s("ok");
                for g in &c.groups {
                    out.a(*g);
                }
            }
            Query::Bits => {
                out.sn("ok ", c.bits as u64).sn(" ", c.nnp as u64);
            }
            Query::Check(place, want) => {
                let passes = may(c, &self.files[place as usize], want);
                out.s(if passes { "ok" } else { "eacces" });
            }
        }
    }

    fn prepare(&mut self, label: u32, task: u32, hold: u32) -> bool {
        if self.current(task).is_none() {
            self.out.sn("no task t", task as u64);
            return false;
        }
        let Some(base) = self.labels.hold(hold) else {
            self.out.sn("no hold h", hold as u64);
            return false;
        };
        if self.labels.in_use(label) {
            self.out.sn("exists h", label as u64);
            return false;
        }
        if self.labels.preparing >= 64 {
            self.out.s("too many prepared");
            return false;
        }
        let Some(slot) = self.free() else {
            self.out.s("table full");
            return false;
        };
        self.kept[slot] = true;
        self.mark(slot);
        self.refer(base);
        self.labels.prepare(label, Prepared { task, base, slot, changed: None });
        self.out.sn("ok s", slot as u64);
        true
    }

    fn alter(&mut self, label: u32, change: Change) -> bool {
        let Some(base) = self.labels.prepared(label).map(|p| p.base) else {
            self.out.sn("no prepared h", label as u64);
            return false;
        };
        match apply_change(self.cred(base), change) {
            Err(refusal) => {
                self.out.s(refusal);
                false
            }
            Ok((made, cred)) => {
                self.labels.prepared(label).unwrap().changed = Some(cred);
                match made {
                    Made::Was(id) => self.out.sn("ok was ", id as u64),
                    Made::Done => self.out.s("ok"),
                };
                true
            }
        }
    }

    fn give_up(&mut self, p: Prepared) {
        self.kept[p.slot] = false;
        self.mark(p.slot);
        self.deferred.push(p.base);
    }

    /// Sealed, stale, or refused.
    fn commit(&mut self, label: u32) -> Option<bool> {
        let Some(task) = self.labels.prepared(label).filter(|p| p.changed.is_some()).map(|p| p.task)
        else {
            self.out.sn("no prepared h", label as u64);
            return None;
        };
        let Some(now) = self.current(task) else {
            self.out.sn("no task t", task as u64);
            return None;
        };
        let mut p = self.labels.end(label).unwrap();
        if now != p.base {
            self.out.sn("stale c", p.base).sn(" c", now);
            self.give_up(p);
            return Some(false);
        }
        let cred = p.changed.take().unwrap();
        self.kept[p.slot] = false;
        let number = self.seal(cred, p.slot);
        self.set_current(task, number);
        self.deferred.push(now);
        self.deferred.push(p.base);
        self.out.sn("ok c", number).sn(" s", p.slot as u64);
        Some(true)
    }

    fn abort(&mut self, label: u32) {
        match self.labels.end(label) {
            Some(p) => {
                self.give_up(p);
                self.out.s("ok");
            }
            None => {
                self.out.sn("no prepared h", label as u64);
            }
        }
    }

    fn begin(&mut self, task: u32, call: &IdCall) {
        let Some(old) = self.current(task) else {
            self.out.sn("no task t", task as u64);
            return;
        };
        let cred = match apply_id(self.cred(old), call) {
            Ok(cred) => cred,
            Err(refusal) => {
                self.out.s(refusal);
                return;
            }
        };
        let Some(slot) = self.free() else {
            self.out.s("table full");
            return;
        };
        let number = self.seal(cred, slot);
        self.set_current(task, number);
        self.deferred.push(old);
        self.out.sn("ok c", number).sn(" s", slot as u64).s(" left 0");
    }

    // ---- events with their texts, and courses

    fn head(&mut self, line: u64, text: &str, n: u32) -> &mut Out<W> {
        self.out.n(line).s(text).n(n as u64)
    }

    fn take_event(&mut self, line: u64, label: u32, task: u32, real: bool) -> bool {
        self.head(line, if real { " takereal h" } else { " take h" }, label)
            .sn(" t", task as u64)
            .s(" -> ");
        let taken = self.take(label, task);
        self.out.end();
        taken
    }

    fn release_event(&mut self, line: u64, label: u32) {
        self.head(line, " drop h", label).s(" -> ");
        self.release(label);
        self.out.end();
    }

    fn ask_event(&mut self, line: u64, label: u32, query: Query) {
        self.head(line, " ask h", label);
        self.out.query(query, self.files);
        self.out.s(" -> ");
        self.ask(label, query);
        self.out.end();
    }

    fn prepare_event(&mut self, line: u64, label: u32, task: u32, hold: u32) -> bool {
        self.head(line, " prepare h", label)
            .sn(" t", task as u64)
            .sn(" h", hold as u64)
            .s(" -> ");
        let prepared = self.prepare(label, task, hold);
        self.out.end();
        prepared
    }

    fn alter_event(&mut self, line: u64, label: u32, change: Change) -> bool {
        self.head(line, " change h", label);
        self.out.change(change);
        self.out.s(" -> ");
        let changed = self.alter(label, change);
        self.out.end();
        changed
    }

    fn commit_event(&mut self, line: u64, label: u32) -> Option<bool> {
        self.head(line, " commit h", label).s(" -> ");
        let committed = self.commit(label);
        self.out.end();
        committed
    }

    fn abort_event(&mut self, line: u64, label: u32) {
        self.head(line, " abort h", label).s(" -> ");
        self.abort(label);
        self.out.end();
    }

    fn begin_event(&mut self, line: u64, task: u32, call: &IdCall) {
        self.head(line, " begin t", task);
        self.out.call(call);
        self.out.s(" -> ");
        self.begin(task, call);
        self.out.end();
    }

    fn change_line(&mut self, line: u64, task: u32, change: Change) {
        let hold = 100_000 + 10 * line as u32;
        for _ in 0..8 {
            if !self.take_event(line, hold, task, false) {
                return;
            }
            let mut stale = false;
            if self.prepare_event(line, hold + 1, task, hold) {
                if self.alter_event(line, hold + 1, change) {
                    match self.commit_event(line, hold + 1) {
                        Some(true) => {}
                        Some(false) => stale = true,
                        None => self.abort_event(line, hold + 1),
                    }
                } else {
                    self.abort_event(line, hold + 1);
                }
            }
            self.release_event(line, hold);
            if !stale {
                return;
            }
        }
    }

    fn run(&mut self, number: u64, line: &Line) {
        match line {
            Line::Nothing => {}
            Line::Init(t, p, user, group) => {
                self.head(number, " init t", *t)
                    .sn(" p", *p as u64)
                    .sn(" ", *user as u64)
                    .sn(" ", *group as u64)
                    .s(" n0 -> ");
                self.init(*t, *user, *group);
                self.out.end();
            }
            Line::Take(h, t, subjective) => {
                self.take_event(number, *h, *t, !*subjective);
            }
            Line::Release(h) => self.release_event(number, *h),
            Line::Ask(h, query) => self.ask_event(number, *h, *query),
            Line::Prepare(h, t, hold) => {
                self.prepare_event(number, *h, *t, *hold);
            }
            Line::Alter(h, change) => {
                self.alter_event(number, *h, *change);
            }
            Line::Commit(h) => {
                self.commit_event(number, *h);
            }
            Line::Abort(h) => self.abort_event(number, *h),
            Line::Begin(t, call) | Line::Call(t, call) => self.begin_event(number, *t, call),
            Line::Sweep => {
                self.out.n(number).s(" sweep -> ok");
                self.sweep();
                self.out.end();
            }
            Line::Question(t, query) => {
                let label = 100_000 + 10 * number as u32;
                if self.take_event(number, label, *t, false) {
                    self.ask_event(number, label, *query);
                    self.release_event(number, label);
                }
            }
            Line::Changes(t, change) => self.change_line(number, *t, *change),
        }
    }
}

fn read(input: &[u8]) -> Result<(Vec<Line>, Vec<File<'_>>), (usize, Why)> {
    let mut reader = Reader { files: Vec::new(), places: HashMap::new(), init: false, later: false };
    let mut lines = Vec::new();
    let mut words = Vec::new();
    let body = input.strip_suffix(b"\n").unwrap_or(input);
    if !input.is_empty() {
        for text in body.split(|b| *b == b'\n') {
            match reader.line(text, &mut words) {
                Ok(line) => lines.push(line),
                Err(why) => return Err((lines.len() + 1, why)),
            }
        }
    }
    Ok((lines, reader.files))
}

fn main() {
    let mut input = Vec::new();
    std::io::stdin().lock().take(1_048_577).read_to_end(&mut input).unwrap();
    let count = input.iter().filter(|b| **b == b'\n').count();
    let partial = input.last().is_some_and(|b| *b != b'\n') as usize;
    if input.len() > 1_048_576 || count + partial > 20_000 {
        std::process::exit(6);
    }
    let mut out = Out { to: std::io::stdout().lock(), buf: Vec::with_capacity(64 * 1024) };
    match read(&input) {
        Err((line, why)) => {
            let reason = match why {
                Why::Byte => " byte\n",
                Why::Word => " word\n",
                Why::Count => " count\n",
                Why::Order => " order\n",
                Why::Name => " name\n",
            };
            out.sn("bad ", line as u64).s(reason);
            out.to.write_all(&out.buf).unwrap();
            std::process::exit(2);
        }
        Ok((lines, files)) => {
            let mut kernel = Kernel {
                files: &files,
                tasks: Vec::new(),
                labels: Labels::new(),
                deferred: Vec::new(),
                slot_of: Vec::new(),
                creds: vec![None; SLOTS],
                refs: [0; SLOTS],
                kept: [false; SLOTS],
                live: [0; 4],
                out,
            };
            for (place, line) in lines.iter().enumerate() {
                kernel.run(place as u64 + 1, line);
            }
            let Out { to, buf } = &mut kernel.out;
            to.write_all(buf).unwrap();
        }
    }
}
