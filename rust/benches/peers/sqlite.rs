//! SQLite with a database in memory: one table for each list. Only the functions used here are declared.

use crate::inputs::Tree;
use std::ffi::{c_char, c_int, CString};
use std::ptr::{null, null_mut};

mod c {
    use std::ffi::{c_char, c_int, c_void};

    #[repr(C)]
    pub struct Database {
        _opaque: [u8; 0],
    }

    #[repr(C)]
    pub struct Statement {
        _opaque: [u8; 0],
    }

    #[link(name = "sqlite3")]
    extern "C" {
        pub fn sqlite3_open(name: *const c_char, database: *mut *mut Database) -> c_int;
        pub fn sqlite3_close(database: *mut Database) -> c_int;
        pub fn sqlite3_exec(
            database: *mut Database,
            sql: *const c_char,
            each: *const c_void,
            argument: *mut c_void,
            message: *mut *mut c_char,
        ) -> c_int;
        pub fn sqlite3_prepare_v2(
            database: *mut Database,
            sql: *const c_char,
            size: c_int,
            statement: *mut *mut Statement,
            tail: *mut *const c_char,
        ) -> c_int;
        pub fn sqlite3_bind_int64(statement: *mut Statement, index: c_int, value: i64) -> c_int;
        pub fn sqlite3_step(statement: *mut Statement) -> c_int;
        pub fn sqlite3_column_int64(statement: *mut Statement, column: c_int) -> i64;
        pub fn sqlite3_reset(statement: *mut Statement) -> c_int;
        pub fn sqlite3_finalize(statement: *mut Statement) -> c_int;
    }
}

const OK: c_int = 0;
const ROW: c_int = 100;
const DONE: c_int = 101;

fn expect(wanted: c_int, code: c_int) {
    assert_eq!(code, wanted, "sqlite3 hands back {code}");
}

fn text(sql: &str) -> CString {
    CString::new(sql).expect("no SQL here holds a zero byte")
}

/// A database in memory. Statements made from it keep it borrowed, so it is closed after them.
pub struct Database(*mut c::Database);

pub struct Statement<'a> {
    raw: *mut c::Statement,
    _database: &'a Database,
}

impl Drop for Database {
    fn drop(&mut self) {
        // SAFETY: the pointer is the one that sqlite3_open handed out; no statement is left, since each borrows this.
        unsafe { c::sqlite3_close(self.0) };
    }
}

impl Drop for Statement<'_> {
    fn drop(&mut self) {
        // SAFETY: the pointer is the one that sqlite3_prepare_v2 handed out, finalized once.
        unsafe { c::sqlite3_finalize(self.raw) };
    }
}

// SAFETY of the calls in the two impls below: database and statement are alive, and every text ends in a zero byte.
impl Database {
    fn open() -> Database {
        let name = text(":memory:");
        let mut raw = null_mut();
        expect(OK, unsafe { c::sqlite3_open(name.as_ptr() as *const c_char, &mut raw) });
        Database(raw)
    }

    fn execute(&self, sql: &str) {
        let sql = text(sql);
        expect(OK, unsafe {
            c::sqlite3_exec(self.0, sql.as_ptr(), null(), null_mut(), null_mut())
        });
    }

    pub fn prepare(&self, sql: &str) -> Statement<'_> {
        let sql = text(sql);
        let mut raw = null_mut();
        expect(OK, unsafe {
            c::sqlite3_prepare_v2(self.0, sql.as_ptr(), -1, &mut raw, null_mut())
        });
        Statement { raw, _database: self }
    }
}

impl Statement<'_> {
    fn bind(&mut self, value: u32) {
        expect(OK, unsafe { c::sqlite3_bind_int64(self.raw, 1, value.into()) });
    }

    fn step(&mut self) -> c_int {
        unsafe { c::sqlite3_step(self.raw) }
    }

    fn number(&mut self) -> i64 {
        unsafe { c::sqlite3_column_int64(self.raw, 0) }
    }

    fn reset(&mut self) {
        expect(OK, unsafe { c::sqlite3_reset(self.raw) });
    }

    /// Steps through all rows of a query, into a row that is cleared first.
    pub fn members(&mut self, row: &mut Vec<u32>) {
        row.clear();
        loop {
            match self.step() {
                ROW => row.push(self.number() as u32),
                code => break expect(DONE, code),
            }
        }
        self.reset();
    }

    /// Asks a prepared question about one number.
    pub fn holds(&mut self, d: u32) -> bool {
        self.bind(d);
        expect(ROW, self.step());
        let yes = self.number() != 0;
        self.reset();
        yes
    }
}

/// A database with the lists as tables l0, l1, ..., filled in one transaction by prepared statements.
pub fn fill(lists: &[Vec<u32>]) -> Database {
    let database = Database::open();
    database.execute("BEGIN");
    for (number, list) in lists.iter().enumerate() {
        database.execute(&format!("CREATE TABLE l{number} (n INTEGER PRIMARY KEY)"));
        let mut insert = database.prepare(&format!("INSERT INTO l{number} VALUES (?1)"));
        for &x in list {
            insert.bind(x);
            expect(DONE, insert.step());
            insert.reset();
        }
    }
    database.execute("COMMIT");
    database
}

/// The query for all members, ascending. SQLite takes UNION, INTERSECT and EXCEPT from left to right, so only what is not
/// first needs a query of its own.
pub fn query(tree: &Tree) -> String {
    format!("{} ORDER BY 1", compound(tree))
}

fn compound(tree: &Tree) -> String {
    let (operator, nodes): (&str, &[Tree]) = match tree {
        Tree::List(number) => return format!("SELECT n FROM l{number}"),
        Tree::Difference(pair) => (" EXCEPT ", &pair[..]),
        Tree::Union(nodes) => (" UNION ", nodes),
        Tree::Intersection(nodes) => (" INTERSECT ", nodes),
    };
    let part = |(i, node): (usize, &Tree)| match node {
        Tree::List(_) => compound(node),
        _ if i == 0 => compound(node),
        _ => format!("SELECT n FROM ({})", compound(node)),
    };
    nodes.iter().enumerate().map(part).collect::<Vec<_>>().join(operator)
}

/// The question whether one number is a member, by looking it up in the tables of the leaves.
pub fn question(tree: &Tree) -> String {
    format!("SELECT {}", condition(tree))
}

fn condition(tree: &Tree) -> String {
    let (operator, nodes) = match tree {
        Tree::List(number) => return format!("EXISTS (SELECT 1 FROM l{number} WHERE n = ?1)"),
        Tree::Difference(pair) => return format!("({} AND NOT {})", condition(&pair[0]), condition(&pair[1])),
        Tree::Union(nodes) => (" OR ", nodes),
        Tree::Intersection(nodes) => (" AND ", nodes),
    };
    format!("({})", nodes.iter().map(condition).collect::<Vec<_>>().join(operator))
}
