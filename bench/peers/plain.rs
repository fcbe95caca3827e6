//! An unverified peer in plain Rust: the same calls over maps in memory, one after another, with no transactions, and
//! a history of all operations and replies.
//!
//! usage: plain PART, with PART one of small, large, largest and lock
//!
//! Each line has, with tabs between: how it was measured, the row's name, a number of calls, their nanoseconds, and 0.

use std::collections::{BTreeMap, VecDeque};
use std::sync::Mutex;
use std::time::Instant;

const MAX_PROCESSES: usize = 4096;
const DESCRIPTORS: usize = 64;
const MAX_ENTRIES: usize = 1_048_576;
const PIPE_CAPACITY: usize = 4096;
const LARGEST_FILE: usize = 1_048_576;

/// An error of a call.
#[derive(Clone, Copy, Debug)]
enum Errno {
    Again,
    BadDescriptor,
    BrokenPipe,
    Exists,
    FileTooBig,
    Invalid,
    IsDirectory,
    NotDirectory,
    NotEmpty,
    NoEntry,
    NoProcess,
    NoSeek,
    TooManyDescriptors,
    TooManyProcesses,
}

/// What a process asks.
#[allow(dead_code)] // The history keeps it all.
enum Op {
    Mkdir(Vec<u8>),
    Stat(Vec<u8>),
    Rmdir(Vec<u8>),
    List(Vec<u8>),
    Open { path: Vec<u8>, creates: bool },
    Write(usize, Vec<u8>),
    Pwrite(usize, Vec<u8>, usize),
    Read(usize, usize),
    Pread(usize, usize, usize),
    Close(usize),
    Truncate(Vec<u8>, usize),
    Rename(Vec<u8>, Vec<u8>),
    Exchange(Vec<u8>, Vec<u8>),
    Unlink(Vec<u8>),
    Symlink(Vec<u8>, Vec<u8>),
    Readlink(Vec<u8>),
    Lstat(Vec<u8>),
    Mknod(Vec<u8>),
    Chmod(Vec<u8>, u16),
    Chown(Vec<u8>, u32, u32),
    Pipe,
    Fork,
    Exit,
}

/// What it is answered.
#[allow(dead_code)] // The history keeps it all.
#[derive(Clone)]
enum Reply {
    Done,
    Descriptor(usize),
    Pair(usize, usize),
    Count(usize),
    Bytes(Vec<u8>),
    Stat { number: usize, size: usize, links: usize, rights: Rights },
    Names(Vec<Vec<u8>>),
    Child(usize),
    Errno(Errno),
}

/// An entry of the history.
#[allow(dead_code)] // It is only kept.
struct Entry {
    process: usize,
    op: Op,
    reply: Reply,
}

type Names = BTreeMap<Vec<u8>, usize>;

enum Inode {
    Directory(Names),
    File { bytes: Vec<u8>, links: usize, openings: usize },
    Pipe { bytes: VecDeque<u8>, readers: usize, writers: usize },
    /// A symbolic link with its target, or a FIFO without one.
    Fixed { target: Option<Vec<u8>>, links: usize },
    Gone,
}

/// Who may do what with an inode, and whose it is.
#[derive(Clone, Copy)]
#[allow(dead_code)] // Replies keep it all.
struct Rights {
    permissions: u16,
    user: u32,
    group: u32,
}

/// Those of a new inode.
fn first_rights(inode: &Inode) -> Rights {
    let permissions = match inode {
        Inode::Directory(_) => 0o755,
        Inode::Fixed { target: Some(_), .. } => 0o777,
        _ => 0o644,
    };
    Rights { permissions, user: 0, group: 0 }
}

/// What a descriptor stands for. Children share it.
struct Description {
    inode: usize,
    offset: usize,
    writes: bool,
    holders: usize,
}

type Table = [Option<usize>; DESCRIPTORS];

type Answer = Result<Reply, Errno>;

/// The plain kernel.
struct Kernel {
    inodes: Vec<Inode>,
    /// The rights of each inode.
    rights: Vec<Rights>,
    free: Vec<usize>,
    descriptions: Vec<Description>,
    free_descriptions: Vec<usize>,
    /// The table of each process that lives, from process 1 on.
    processes: Vec<Option<Box<Table>>>,
    history: Vec<Entry>,
}

/// The first name of a path's rest, and what comes behind it.
fn first_name(rest: &[u8]) -> (&[u8], Option<&[u8]>) {
    match rest.iter().position(|byte| *byte == b'/') {
        Some(end) => (&rest[..end], Some(&rest[end + 1..])),
        None => (rest, None),
    }
}

/// Lays bytes into a file's, from an offset on, and gives the offset behind them.
fn lay(bytes: &mut Vec<u8>, offset: usize, added: &[u8]) -> Result<usize, Errno> {
    let end = offset + added.len();
    if end > LARGEST_FILE {
        return Err(Errno::FileTooBig);
    }
    if bytes.len() < end {
        bytes.resize(end, 0);
    }
    bytes[offset..end].copy_from_slice(added);
    Ok(end)
}

/// Whether a path leads below another.
fn is_below(path: &[u8], above: &[u8]) -> bool {
    path.starts_with(above) && path.get(above.len()) == Some(&b'/')
}

/// So many of a file's bytes from an offset on, or as many as there are.
fn part(bytes: &[u8], offset: usize, count: usize) -> &[u8] {
    let start = offset.min(bytes.len());
    &bytes[start..(start + count).min(bytes.len())]
}

impl Kernel {
    fn new() -> Kernel {
        let root = Inode::Directory(Names::new());
        Kernel {
            rights: vec![first_rights(&root)],
            inodes: vec![root],
            free: Vec::new(),
            descriptions: Vec::new(),
            free_descriptions: Vec::new(),
            processes: vec![Some(Box::new([None; DESCRIPTORS]))],
            history: Vec::with_capacity(MAX_ENTRIES),
        }
    }

    /// One operation of one process, which goes into the history with its reply.
    fn step(&mut self, process: usize, op: Op) -> Reply {
        let reply = self.reply_to(process, &op).unwrap_or_else(Reply::Errno);
        let kept = reply.clone();
        self.history.push(Entry { process, op, reply: kept });
        reply
    }

    fn reply_to(&mut self, process: usize, op: &Op) -> Answer {
        if !matches!(self.processes.get(process - 1), Some(Some(_))) {
            return Err(Errno::NoProcess);
        }
        match op {
            Op::Mkdir(path) => self.mkdir(path),
            Op::Stat(path) => self.stat(path),
            Op::Rmdir(path) => self.rmdir(path),
            Op::List(path) => self.list(path),
            Op::Open { path, creates } => self.open(process, path, *creates),
            Op::Write(descriptor, bytes) => self.write(process, *descriptor, bytes),
            Op::Pwrite(descriptor, bytes, offset) => {
                self.pwrite(process, *descriptor, bytes, *offset)
            }
            Op::Read(descriptor, count) => self.read(process, *descriptor, *count),
            Op::Pread(descriptor, count, offset) => {
                self.pread(process, *descriptor, *count, *offset)
            }
            Op::Close(descriptor) => self.close(process, *descriptor),
            Op::Truncate(path, length) => self.truncate(path, *length),
            Op::Rename(old, new) => self.rename(old, new),
            Op::Exchange(old, new) => self.exchange(old, new),
            Op::Unlink(path) => self.unlink(path),
            Op::Symlink(target, path) => self.symlink(target, path),
            Op::Readlink(path) => self.readlink(path),
            Op::Lstat(path) => self.lstat(path),
            Op::Mknod(path) => self.mknod(path),
            Op::Chmod(path, permissions) => self.chmod(path, *permissions),
            Op::Chown(path, user, group) => self.chown(path, *user, *group),
            Op::Pipe => self.pipe(process),
            Op::Fork => self.fork(process),
            Op::Exit => self.exit(process),
        }
    }

    fn names(&self, inode: usize) -> Result<&Names, Errno> {
        match &self.inodes[inode] {
            Inode::Directory(names) => Ok(names),
            _ => Err(Errno::NotDirectory),
        }
    }

    fn names_mut(&mut self, inode: usize) -> Result<&mut Names, Errno> {
        match &mut self.inodes[inode] {
            Inode::Directory(names) => Ok(names),
            _ => Err(Errno::NotDirectory),
        }
    }

    /// The directory of a path's last name, and this name.
    fn parent<'p>(&self, path: &'p [u8]) -> Result<(usize, &'p [u8]), Errno> {
        if path.len() < 2 || path[0] != b'/' {
            return Err(Errno::Invalid);
        }
        let mut at = 0;
        let mut rest = &path[1..];
        loop {
            match first_name(rest) {
                (name, None) => return Ok((at, name)),
                (name, Some(behind)) => {
                    at = *self.names(at)?.get(name).ok_or(Errno::NoEntry)?;
                    rest = behind;
                }
            }
        }
    }

    fn look(&self, directory: usize, name: &[u8]) -> Result<usize, Errno> {
        self.names(directory)?.get(name).copied().ok_or(Errno::NoEntry)
    }

    fn find(&self, path: &[u8]) -> Result<usize, Errno> {
        if path == b"/" {
            return Ok(0);
        }
        let (directory, name) = self.parent(path)?;
        self.look(directory, name)
    }

    fn add_inode(&mut self, inode: Inode) -> usize {
        let rights = first_rights(&inode);
        match self.free.pop() {
            Some(number) => {
                self.inodes[number] = inode;
                self.rights[number] = rights;
                number
            }
            None => {
                self.inodes.push(inode);
                self.rights.push(rights);
                self.inodes.len() - 1
            }
        }
    }

    fn remove_inode(&mut self, number: usize) {
        self.inodes[number] = Inode::Gone;
        self.free.push(number);
    }

    /// A new object under a name that must be new.
    fn create(&mut self, directory: usize, name: &[u8], inode: Inode) -> Result<usize, Errno> {
        if self.names(directory)?.contains_key(name) {
            return Err(Errno::Exists);
        }
        let number = self.add_inode(inode);
        self.names_mut(directory)?.insert(name.to_vec(), number);
        Ok(number)
    }

    fn mkdir(&mut self, path: &[u8]) -> Answer {
        let (directory, name) = self.parent(path)?;
        self.create(directory, name, Inode::Directory(Names::new()))?;
        Ok(Reply::Done)
    }

    fn stat(&self, path: &[u8]) -> Answer {
        let number = self.find(path)?;
        let (size, links) = match &self.inodes[number] {
            Inode::File { bytes, links, .. } => (bytes.len(), *links),
            _ => (0, 1),
        };
        Ok(Reply::Stat { number, size, links, rights: self.rights[number] })
    }

    /// A walk goes on by no symbolic link, so this is `stat` where it does not end at one.
    fn lstat(&self, path: &[u8]) -> Answer {
        let number = self.find(path)?;
        match &self.inodes[number] {
            Inode::Fixed { target, links } => {
                let size = target.as_ref().map_or(0, Vec::len);
                Ok(Reply::Stat { number, size, links: *links, rights: self.rights[number] })
            }
            _ => self.stat(path),
        }
    }

    fn symlink(&mut self, target: &[u8], path: &[u8]) -> Answer {
        let (directory, name) = self.parent(path)?;
        let target = Some(target.to_vec());
        self.create(directory, name, Inode::Fixed { target, links: 1 })?;
        Ok(Reply::Done)
    }

    fn readlink(&self, path: &[u8]) -> Answer {
        match &self.inodes[self.find(path)?] {
            Inode::Fixed { target: Some(target), .. } => Ok(Reply::Bytes(target.clone())),
            _ => Err(Errno::Invalid),
        }
    }

    fn mknod(&mut self, path: &[u8]) -> Answer {
        let (directory, name) = self.parent(path)?;
        self.create(directory, name, Inode::Fixed { target: None, links: 1 })?;
        Ok(Reply::Done)
    }

    fn chmod(&mut self, path: &[u8], permissions: u16) -> Answer {
        let number = self.find(path)?;
        self.rights[number].permissions = permissions;
        Ok(Reply::Done)
    }

    fn chown(&mut self, path: &[u8], user: u32, group: u32) -> Answer {
        let number = self.find(path)?;
        let Rights { permissions, .. } = self.rights[number];
        let permissions = match &self.inodes[number] {
            Inode::Directory(_) => permissions,
            _ if permissions & 0o10 != 0 => permissions & 0o1777,
            _ => permissions & 0o3777,
        };
        self.rights[number] = Rights { permissions, user, group };
        Ok(Reply::Done)
    }

    fn rmdir(&mut self, path: &[u8]) -> Answer {
        let (directory, name) = self.parent(path)?;
        let number = self.look(directory, name)?;
        if !self.names(number)?.is_empty() {
            return Err(Errno::NotEmpty);
        }
        self.names_mut(directory)?.remove(name);
        self.remove_inode(number);
        Ok(Reply::Done)
    }

    fn list(&self, path: &[u8]) -> Answer {
        let number = self.find(path)?;
        Ok(Reply::Names(self.names(number)?.keys().cloned().collect()))
    }

    fn table(&mut self, process: usize) -> Result<&mut Table, Errno> {
        match self.processes.get_mut(process - 1) {
            Some(Some(table)) => Ok(table),
            _ => Err(Errno::NoProcess),
        }
    }

    fn description(&mut self, process: usize, descriptor: usize) -> Result<usize, Errno> {
        let found = self.table(process)?.get(descriptor).copied().flatten();
        found.ok_or(Errno::BadDescriptor)
    }

    fn free_descriptor(&mut self, process: usize) -> Result<usize, Errno> {
        let free = self.table(process)?.iter().position(Option::is_none);
        free.ok_or(Errno::TooManyDescriptors)
    }

    fn add_description(&mut self, inode: usize, writes: bool) -> usize {
        let description = Description { inode, offset: 0, writes, holders: 1 };
        match self.free_descriptions.pop() {
            Some(number) => {
                self.descriptions[number] = description;
                number
            }
            None => {
                self.descriptions.push(description);
                self.descriptions.len() - 1
            }
        }
    }

    fn open(&mut self, process: usize, path: &[u8], creates: bool) -> Answer {
        let descriptor = self.free_descriptor(process)?;
        let (directory, name) = self.parent(path)?;
        let inode = match self.look(directory, name) {
            Err(Errno::NoEntry) if creates => {
                let file = Inode::File { bytes: Vec::new(), links: 1, openings: 0 };
                self.create(directory, name, file)?
            }
            found => found?,
        };
        match &mut self.inodes[inode] {
            Inode::File { openings, .. } => *openings += 1,
            _ => return Err(Errno::IsDirectory),
        }
        let description = self.add_description(inode, creates);
        self.table(process)?[descriptor] = Some(description);
        Ok(Reply::Descriptor(descriptor))
    }

    fn write(&mut self, process: usize, descriptor: usize, added: &[u8]) -> Answer {
        let number = self.description(process, descriptor)?;
        let description = &mut self.descriptions[number];
        if !description.writes {
            return Err(Errno::BadDescriptor);
        }
        match &mut self.inodes[description.inode] {
            Inode::File { bytes, .. } => {
                description.offset = lay(bytes, description.offset, added)?;
            }
            Inode::Pipe { bytes, readers, .. } => {
                if *readers == 0 {
                    return Err(Errno::BrokenPipe);
                }
                if bytes.len() + added.len() > PIPE_CAPACITY {
                    return Err(Errno::Again);
                }
                bytes.extend(added);
            }
            _ => return Err(Errno::BadDescriptor),
        }
        Ok(Reply::Count(added.len()))
    }

    fn pwrite(&mut self, process: usize, descriptor: usize, added: &[u8], offset: usize) -> Answer {
        let number = self.description(process, descriptor)?;
        let description = &self.descriptions[number];
        if !description.writes {
            return Err(Errno::BadDescriptor);
        }
        match &mut self.inodes[description.inode] {
            Inode::File { bytes, .. } => {
                lay(bytes, offset, added)?;
                Ok(Reply::Count(added.len()))
            }
            Inode::Pipe { .. } => Err(Errno::NoSeek),
            _ => Err(Errno::BadDescriptor),
        }
    }

    fn read(&mut self, process: usize, descriptor: usize, count: usize) -> Answer {
        let number = self.description(process, descriptor)?;
        let description = &mut self.descriptions[number];
        match &mut self.inodes[description.inode] {
            Inode::File { bytes, .. } => {
                let found = part(bytes, description.offset, count);
                description.offset += found.len();
                Ok(Reply::Bytes(found.to_vec()))
            }
            Inode::Pipe { bytes, writers, .. } => {
                if bytes.is_empty() && *writers > 0 {
                    return Err(Errno::Again);
                }
                let taken = count.min(bytes.len());
                Ok(Reply::Bytes(bytes.drain(..taken).collect()))
            }
            _ => Err(Errno::BadDescriptor),
        }
    }

    fn pread(&mut self, process: usize, descriptor: usize, count: usize, offset: usize) -> Answer {
        let number = self.description(process, descriptor)?;
        match &self.inodes[self.descriptions[number].inode] {
            Inode::File { bytes, .. } => Ok(Reply::Bytes(part(bytes, offset, count).to_vec())),
            Inode::Pipe { .. } => Err(Errno::NoSeek),
            _ => Err(Errno::BadDescriptor),
        }
    }

    fn truncate(&mut self, path: &[u8], length: usize) -> Answer {
        let number = self.find(path)?;
        let Inode::File { bytes, .. } = &mut self.inodes[number] else {
            return Err(Errno::IsDirectory);
        };
        if length > LARGEST_FILE {
            return Err(Errno::FileTooBig);
        }
        bytes.resize(length, 0);
        Ok(Reply::Done)
    }

    /// One descriptor less stands for the description.
    fn let_go(&mut self, number: usize) {
        let description = &mut self.descriptions[number];
        description.holders -= 1;
        if description.holders > 0 {
            return;
        }
        let (inode, is_writer) = (description.inode, description.writes);
        self.free_descriptions.push(number);
        let gone = match &mut self.inodes[inode] {
            Inode::File { openings, links, .. } => {
                *openings -= 1;
                *openings + *links == 0
            }
            Inode::Pipe { readers, writers, .. } => {
                if is_writer {
                    *writers -= 1;
                } else {
                    *readers -= 1;
                }
                *readers + *writers == 0
            }
            _ => false,
        };
        if gone {
            self.remove_inode(inode);
        }
    }

    fn close(&mut self, process: usize, descriptor: usize) -> Answer {
        let number = self.description(process, descriptor)?;
        self.table(process)?[descriptor] = None;
        self.let_go(number);
        Ok(Reply::Done)
    }

    /// One name less gives the file.
    fn drop_link(&mut self, number: usize) {
        let left = match &mut self.inodes[number] {
            Inode::File { links, openings, .. } => {
                *links -= 1;
                *links + *openings
            }
            Inode::Fixed { links, .. } => {
                *links -= 1;
                *links
            }
            _ => return,
        };
        if left == 0 {
            self.remove_inode(number);
        }
    }

    /// Whether names can be taken from it one by one: it is no directory.
    fn has_links(&self, number: usize) -> bool {
        matches!(&self.inodes[number], Inode::File { .. } | Inode::Fixed { .. })
    }

    fn unlink(&mut self, path: &[u8]) -> Answer {
        let (directory, name) = self.parent(path)?;
        let number = self.look(directory, name)?;
        if !self.has_links(number) {
            return Err(Errno::IsDirectory);
        }
        self.names_mut(directory)?.remove(name);
        self.drop_link(number);
        Ok(Reply::Done)
    }

    /// Moves a file, over another too, or a directory, to a new name alone.
    fn rename(&mut self, old: &[u8], new: &[u8]) -> Answer {
        let (from, old_name) = self.parent(old)?;
        let (to, new_name) = self.parent(new)?;
        let moved = self.look(from, old_name)?;
        let is_file = self.has_links(moved);
        if !is_file && is_below(new, old) {
            return Err(Errno::Invalid);
        }
        let replaced = self.names(to)?.get(new_name).copied();
        if replaced.is_some_and(|number| !is_file || !self.has_links(number)) {
            return Err(Errno::Exists);
        }
        if replaced == Some(moved) {
            return Ok(Reply::Done);
        }
        self.names_mut(from)?.remove(old_name);
        self.names_mut(to)?.insert(new_name.to_vec(), moved);
        if let Some(number) = replaced {
            self.drop_link(number);
        }
        Ok(Reply::Done)
    }

    /// Exchanges what two names give, of which neither is below the other.
    fn exchange(&mut self, old: &[u8], new: &[u8]) -> Answer {
        let (from, old_name) = self.parent(old)?;
        let (to, new_name) = self.parent(new)?;
        let first = self.look(from, old_name)?;
        let second = self.look(to, new_name)?;
        if is_below(old, new) || is_below(new, old) {
            return Err(Errno::Invalid);
        }
        self.names_mut(from)?.insert(old_name.to_vec(), second);
        self.names_mut(to)?.insert(new_name.to_vec(), first);
        Ok(Reply::Done)
    }

    fn pipe(&mut self, process: usize) -> Answer {
        let reader = self.free_descriptor(process)?;
        let table = self.table(process)?;
        let behind = table[reader + 1..].iter().position(Option::is_none);
        let writer = reader + 1 + behind.ok_or(Errno::TooManyDescriptors)?;
        let bytes = VecDeque::with_capacity(PIPE_CAPACITY);
        let inode = self.add_inode(Inode::Pipe { bytes, readers: 1, writers: 1 });
        let first = self.add_description(inode, false);
        let second = self.add_description(inode, true);
        let table = self.table(process)?;
        table[reader] = Some(first);
        table[writer] = Some(second);
        Ok(Reply::Pair(reader, writer))
    }

    fn fork(&mut self, process: usize) -> Answer {
        if self.processes.len() >= MAX_PROCESSES {
            return Err(Errno::TooManyProcesses);
        }
        let table = Box::new(*self.table(process)?);
        for number in table.iter().flatten() {
            self.descriptions[*number].holders += 1;
        }
        self.processes.push(Some(table));
        Ok(Reply::Child(self.processes.len()))
    }

    fn exit(&mut self, process: usize) -> Answer {
        let table = self.processes[process - 1].take().ok_or(Errno::NoProcess)?;
        for number in table.iter().flatten() {
            self.let_go(*number);
        }
        Ok(Reply::Done)
    }
}

const DEEP: &[u8] = b"/p/p/p/p/p/p/p/p";

const TARGET: &[u8] = b"../some/where";

/// The number of the i-th new name: as in crates/bench/src/paths.rt.
fn scattered(i: u64) -> u64 {
    i * 648_055 % 1_048_576
}

/// The i-th of so many in another order.
fn shuffled(i: u64, count: u64) -> u64 {
    (i * 7919 + 13) % count
}

/// "/d/", a letter, and the number in seven digits.
fn path(letter: u8, mut number: u64) -> Vec<u8> {
    let mut name = *b"/.0000000";
    name[1] = letter;
    for index in (2..9).rev() {
        name[index] = b'0' + (number % 10) as u8;
        number /= 10;
    }
    let mut bytes = Vec::with_capacity(11);
    bytes.extend_from_slice(b"/d");
    bytes.extend_from_slice(&name);
    bytes
}

/// Does one step, which is to be answered.
fn step(kernel: &mut Kernel, process: usize, op: Op) -> Reply {
    match kernel.step(process, op) {
        Reply::Errno(errno) => panic!("a step was not done: {errno:?}"),
        reply => reply,
    }
}

fn mkdir(kernel: &mut Kernel, number: u64) {
    step(kernel, 1, Op::Mkdir(path(b'n', number)));
}

fn refuse(kernel: &mut Kernel) {
    match kernel.step(1, Op::Rmdir(b"/d".to_vec())) {
        Reply::Errno(_) => {}
        _ => panic!("a step was not refused"),
    }
}

fn create(kernel: &mut Kernel, number: u64) {
    step(kernel, 1, Op::Open { path: path(b'f', number), creates: true });
    step(kernel, 1, Op::Write(2, vec![b'x'; 64]));
    step(kernel, 1, Op::Close(2));
}

fn read(kernel: &mut Kernel, number: u64) {
    step(kernel, 1, Op::Open { path: path(b'f', number), creates: false });
    step(kernel, 1, Op::Read(2, 64));
    step(kernel, 1, Op::Close(2));
}

/// Where the call of this number begins in the open file of 64 KiB.
fn offset_of(number: u64) -> usize {
    number as usize % 1024 * 64
}

fn pass(kernel: &mut Kernel) {
    step(kernel, 1, Op::Write(1, vec![b'x'; 64]));
    step(kernel, 1, Op::Read(0, 64));
}

fn fork(kernel: &mut Kernel) {
    if let Reply::Child(child) = step(kernel, 1, Op::Fork) {
        step(kernel, child, Op::Exit);
    }
}

fn print_row(way: &str, row: &str, count: u64, start: Instant) {
    println!("{way}\t{row}\t{count}\t{}\t0", start.elapsed().as_nanos());
}

/// New names come in no order.
fn new_names(kernel: &mut Kernel, row: &str, count: u64, each: impl Fn(&mut Kernel, u64)) {
    let start = Instant::now();
    for i in 0..count {
        each(kernel, scattered(i));
    }
    print_row("peer", row, count, start);
}

/// Old names are met in another order.
fn old_names(kernel: &mut Kernel, row: &str, count: u64, each: impl Fn(&mut Kernel, u64)) {
    let start = Instant::now();
    for i in 0..count {
        each(kernel, scattered(shuffled(i, count)));
    }
    print_row("peer", row, count, start);
}

/// A kernel with a pipe on the descriptors 0 and 1, the directory `/d`, and one of eight names.
fn prepared() -> Kernel {
    let mut kernel = Kernel::new();
    step(&mut kernel, 1, Op::Pipe);
    step(&mut kernel, 1, Op::Mkdir(b"/d".to_vec()));
    for depth in 1..=8 {
        step(&mut kernel, 1, Op::Mkdir(DEEP[..2 * depth].to_vec()));
    }
    kernel
}

/// The rows of one open file, which has 64 KiB.
fn print_opened(kernel: &mut Kernel) {
    step(kernel, 1, Op::Open { path: b"/o".to_vec(), creates: true });
    step(kernel, 1, Op::Write(2, vec![b'x'; 65_536]));
    old_names(kernel, "pwrite 64 bytes anywhere", 1000, |kernel, number| {
        step(kernel, 1, Op::Pwrite(2, vec![b'x'; 64], offset_of(number)));
    });
    old_names(kernel, "pread 64 bytes anywhere", 1000, |kernel, number| {
        step(kernel, 1, Op::Pread(2, 64, offset_of(number)));
    });
    step(kernel, 1, Op::Close(2));
    step(kernel, 1, Op::Unlink(b"/o".to_vec()));
}

/// The rows of symbolic links and of FIFOs.
fn print_fixed(kernel: &mut Kernel) {
    new_names(kernel, "symlink of 1000 names", 1000, |kernel, number| {
        step(kernel, 1, Op::Symlink(TARGET.to_vec(), path(b'l', number)));
    });
    old_names(kernel, "readlink", 1000, |kernel, number| {
        step(kernel, 1, Op::Readlink(path(b'l', number)));
    });
    old_names(kernel, "lstat of a symbolic link", 1000, |kernel, number| {
        step(kernel, 1, Op::Lstat(path(b'l', number)));
    });
    old_names(kernel, "unlink of a symbolic link", 1000, |kernel, number| {
        step(kernel, 1, Op::Unlink(path(b'l', number)));
    });
    new_names(kernel, "mknod of 1000 FIFOs", 1000, |kernel, number| {
        step(kernel, 1, Op::Mknod(path(b'l', number)));
    });
    old_names(kernel, "unlink of a FIFO", 1000, |kernel, number| {
        step(kernel, 1, Op::Unlink(path(b'l', number)));
    });
}

fn print_small() {
    let kernel = &mut prepared();
    for _ in 0..8 {
        new_names(kernel, "mkdir of 1000 names", 1000, mkdir);
        old_names(kernel, "stat of one name of 1000", 1000, |kernel, number| {
            step(kernel, 1, Op::Stat(path(b'n', number)));
        });
        old_names(kernel, "stat along 8 names", 1000, |kernel, _| {
            step(kernel, 1, Op::Stat(DEEP.to_vec()));
        });
        old_names(kernel, "list of 1000 names", 10, |kernel, _| {
            step(kernel, 1, Op::List(b"/d".to_vec()));
        });
        old_names(kernel, "rmdir of 1000 names", 1000, |kernel, number| {
            step(kernel, 1, Op::Rmdir(path(b'n', number)));
        });
        new_names(kernel, "create, write 64 bytes, close", 1000, create);
        old_names(kernel, "open, read 64 bytes, close", 1000, read);
        old_names(kernel, "truncate of one file of 1000", 1000, |kernel, number| {
            step(kernel, 1, Op::Truncate(path(b'f', number), 32));
        });
        old_names(kernel, "chmod of one file of 1000", 1000, |kernel, number| {
            step(kernel, 1, Op::Chmod(path(b'f', number), 0o755));
        });
        old_names(kernel, "chown of one file of 1000", 1000, |kernel, number| {
            step(kernel, 1, Op::Chown(path(b'f', number), 1, 2));
        });
        old_names(kernel, "exchange of two names of 1000", 1000, |kernel, number| {
            step(kernel, 1, Op::Exchange(path(b'f', number), path(b'f', scattered(0))));
        });
        old_names(kernel, "rename", 1000, |kernel, number| {
            step(kernel, 1, Op::Rename(path(b'f', number), path(b'g', number)));
        });
        old_names(kernel, "unlink", 1000, |kernel, number| {
            step(kernel, 1, Op::Unlink(path(b'g', number)));
        });
        print_fixed(kernel);
        old_names(kernel, "pipe, write and read 64 bytes", 1000, |kernel, _| pass(kernel));
        old_names(kernel, "fork and exit", 400, |kernel, _| fork(kernel));
        print_opened(kernel);
    }
}

fn print_large() {
    let kernel = &mut prepared();
    new_names(kernel, "mkdir of 100000 names", 100_000, mkdir);
    old_names(kernel, "rmdir refused, 100000 names", 10, |kernel, _| refuse(kernel));
    old_names(kernel, "rmdir of 100000 names", 100_000, |kernel, number| {
        step(kernel, 1, Op::Rmdir(path(b'n', number)));
    });
}

fn print_largest() {
    let kernel = &mut prepared();
    let start = Instant::now();
    for i in 0..500_000 {
        mkdir(kernel, scattered(i));
    }
    print_row("peer", "mkdir of 500000 names", 500_000, start);
    for i in 500_000..1_000_000 {
        mkdir(kernel, scattered(i));
    }
    print_row("peer", "mkdir of 1000000 names", 1_000_000, start);
}

/// How many looks each thread takes.
const LOOKS: u64 = 100_000;

fn look(i: u64) -> Op {
    Op::Stat(path(b'n', scattered(shuffled(i, 1000))))
}

fn kernel_with_names() -> Kernel {
    let mut kernel = prepared();
    for i in 0..1000 {
        mkdir(&mut kernel, scattered(i));
    }
    kernel
}

/// The looks of so many threads at once.
fn look_by(threads: u64) {
    let kernel = Mutex::new(kernel_with_names());
    let start = Instant::now();
    std::thread::scope(|scope| {
        for _ in 0..threads {
            scope.spawn(|| {
                for i in 0..LOOKS {
                    let op = look(i);
                    step(&mut kernel.lock().unwrap(), 1, op);
                }
            });
        }
    });
    let row = if threads == 1 { "1 thread" } else { &format!("{threads} threads") };
    print_row("mutex", row, LOOKS * threads, start);
}

fn print_lock() {
    for _ in 0..3 {
        let mut kernel = kernel_with_names();
        let start = Instant::now();
        for i in 0..LOOKS {
            step(&mut kernel, 1, look(i));
        }
        print_row("peer", "1 thread", LOOKS, start);
        for threads in [1, 2, 4] {
            look_by(threads);
        }
    }
}

fn main() {
    match std::env::args().nth(1).as_deref() {
        Some("small") => print_small(),
        Some("large") => print_large(),
        Some("largest") => print_largest(),
        Some("lock") => print_lock(),
        _ => println!("usage: plain small | large | largest | lock"),
    }
}
