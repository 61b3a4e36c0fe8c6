//! SQLite in process and in memory, through a few functions of its C interface.

use crate::drawings::Drawing;
use crate::frame::Frame;
use crate::turns::{Matcher, Rows};
use std::ffi::{c_char, c_int, c_void, CStr, CString};
use std::marker::PhantomData;
use std::ptr::{null, null_mut};

#[link(name = "sqlite3")]
extern "C" {
    fn sqlite3_libversion() -> *const c_char;
    fn sqlite3_open_v2(name: *const c_char, database: *mut *mut c_void, flags: c_int, system: *const c_char) -> c_int;
    fn sqlite3_close(database: *mut c_void) -> c_int;
    fn sqlite3_errmsg(database: *mut c_void) -> *const c_char;
    fn sqlite3_exec(
        database: *mut c_void,
        text: *const c_char,
        each: *const c_void,
        argument: *mut c_void,
        message: *mut *mut c_char,
    ) -> c_int;
    fn sqlite3_prepare_v2(
        database: *mut c_void,
        text: *const c_char,
        bytes: c_int,
        statement: *mut *mut c_void,
        tail: *mut *const c_char,
    ) -> c_int;
    fn sqlite3_step(statement: *mut c_void) -> c_int;
    fn sqlite3_column_int(statement: *mut c_void, column: c_int) -> c_int;
    fn sqlite3_reset(statement: *mut c_void) -> c_int;
    fn sqlite3_finalize(statement: *mut c_void) -> c_int;
}

const OK: c_int = 0;
const ROW: c_int = 100;
const DONE: c_int = 101;
/// For reading and writing, made where it is not there, used by one thread: without locks.
const FLAGS: c_int = 0x2 | 0x4 | 0x8000;

fn text(pointer: *const c_char) -> String {
    unsafe { CStr::from_ptr(pointer) }.to_string_lossy().into_owned()
}

fn c_text(text: &str) -> CString {
    CString::new(text).expect("text without a zero byte")
}

pub fn version() -> String {
    text(unsafe { sqlite3_libversion() })
}

/// A frame's tables, indexed both ways.
pub struct Database(*mut c_void);

impl Database {
    /// With or without statistics, by which SQLite orders its search.
    pub fn new(frame: &Frame, statistics: bool) -> Self {
        let mut database = null_mut();
        let code = unsafe { sqlite3_open_v2(c_text(":memory:").as_ptr(), &mut database, FLAGS, null()) };
        assert_eq!(code, OK, "SQLite opens no database");
        let database = Database(database);
        database.execute("BEGIN");
        for (i, class) in frame.classes.iter().enumerate() {
            database.execute(&format!("CREATE TABLE c{i}(o INTEGER PRIMARY KEY)"));
            database.insert(&format!("c{i}"), class.iter().map(|o| format!("({o})")).collect());
        }
        for (i, label) in frame.labels.iter().enumerate() {
            database.execute(&format!("CREATE TABLE l{i}(s INTEGER, t INTEGER, PRIMARY KEY(s, t)) WITHOUT ROWID"));
            database.execute(&format!("CREATE INDEX b{i} ON l{i}(t, s)"));
            database.insert(&format!("l{i}"), label.iter().map(|(s, t)| format!("({s}, {t})")).collect());
        }
        database.execute("COMMIT");
        if statistics {
            database.execute("ANALYZE");
        }
        database
    }

    fn insert(&self, table: &str, values: Vec<String>) {
        if !values.is_empty() {
            self.execute(&format!("INSERT INTO {table} VALUES {}", values.join(", ")));
        }
    }

    fn execute(&self, command: &str) {
        let code = unsafe { sqlite3_exec(self.0, c_text(command).as_ptr(), null(), null_mut(), null_mut()) };
        assert_eq!(code, OK, "SQLite: {}", text(unsafe { sqlite3_errmsg(self.0) }));
    }

    pub fn prepare(&self, drawing: &Drawing) -> Statement<'_> {
        let mut statement = null_mut();
        let query = c_text(&select(drawing));
        let code = unsafe { sqlite3_prepare_v2(self.0, query.as_ptr(), -1, &mut statement, null_mut()) };
        assert_eq!(code, OK, "SQLite: {}", text(unsafe { sqlite3_errmsg(self.0) }));
        Statement { statement, columns: drawing.picks().len() as c_int, rows: Vec::new(), database: PhantomData }
    }
}

impl Drop for Database {
    fn drop(&mut self) {
        unsafe { sqlite3_close(self.0) };
    }
}

/// The drawing as a query: a table for each node and each edge.
fn select(drawing: &Drawing) -> String {
    let picks: Vec<String> = drawing.picks().iter().map(|i| format!("n{i}.o")).collect();
    let mut tables: Vec<String> = drawing.nodes.iter().enumerate().map(|(i, node)| format!("c{} AS n{i}", node.class)).collect();
    tables.extend(drawing.edges.iter().enumerate().map(|(i, edge)| format!("l{} AS e{i}", edge.0)));
    let ends = |(i, &(_, s, t)): (usize, &(usize, usize, usize))| format!("e{i}.s = n{s}.o AND e{i}.t = n{t}.o");
    let mut conditions: Vec<String> = drawing.edges.iter().enumerate().map(ends).collect();
    conditions.extend(drawing.nodes.iter().enumerate().filter_map(|(i, node)| Some(format!("n{i}.o = {}", node.fixed?))));
    let condition = if conditions.is_empty() { String::new() } else { format!(" WHERE {}", conditions.join(" AND ")) };
    format!("SELECT DISTINCT {0} FROM {1}{condition} ORDER BY {0}", picks.join(", "), tables.join(", "))
}

/// A prepared query.
pub struct Statement<'d> {
    statement: *mut c_void,
    columns: c_int,
    rows: Vec<u32>,
    database: PhantomData<&'d Database>,
}

impl Matcher for Statement<'_> {
    fn ask(&mut self) -> Rows<'_> {
        self.rows.clear();
        let mut code = unsafe { sqlite3_step(self.statement) };
        while code == ROW {
            self.rows.extend((0..self.columns).map(|i| unsafe { sqlite3_column_int(self.statement, i) } as u32));
            code = unsafe { sqlite3_step(self.statement) };
        }
        assert_eq!(code, DONE, "SQLite does not end its rows");
        unsafe { sqlite3_reset(self.statement) };
        Ok(&self.rows)
    }
}

impl Drop for Statement<'_> {
    fn drop(&mut self) {
        unsafe { sqlite3_finalize(self.statement) };
    }
}
