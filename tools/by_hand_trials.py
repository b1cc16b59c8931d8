"""Trials of tools/by_hand.py: code that makes a failure by hand, each in another way, and code that makes none."""
import by_hand

# How one is made, and code that does.
MADE = [
    ("by its name", "fn f() -> Result<(), RegFault> { Err(RegFault::Store) }"),
    ("by a path", "fn f() -> Result<(), RegFault> { Err(crate::faults::RegFault::Memory) }"),
    ("over lines", "fn f() -> Result<(), Refusal> {\n    return Err(\n        Refusal::Store,\n    );\n}"),
    ("by its own type", "impl Fault { fn f() -> Fault { Self::Store } }"),
    ("by its own type, of memory", "impl Fault { fn f() -> Fault { Self::Memory } }"),
    ("by a type in brackets", "fn f() -> RegFault { <RegFault>::Store }"),
    ("by a raw name", "fn f() -> RegFault { RegFault::r#Store }"),
    ("in place of nothing", "fn f(x: Option<u8>) -> Result<u8, AllocError> { x.ok_or(AllocError) }"),
    ("in place of nothing, by a closure", "fn f(x: Option<u8>) -> Result<u8, RegFault> { x.ok_or_else(|| RegFault::Memory) }"),
    ("in place of another", "fn f(x: Result<u8, MarcFault>) -> Result<u8, RegFault> { x.map_err(|_| RegFault::Store) }"),
    ("in place of a memory's", "fn f(x: Result<u8, AllocError>) -> Result<u8, RegFault> { x.map_err(|AllocError| RegFault::Store) }"),
    ("by a name", "fn f() -> Result<(), Refusal> { let refusal = Refusal::Store; Err(refusal) }"),
    ("by a name that changes", "fn f() -> Result<(), Refusal> { let mut it = Refusal::Damaged; it = Refusal::Memory; Err(it) }"),
    ("by a reference", "fn f() { refuse(&Refusal::Store); }"),
    ("by a closure", "fn f() { let make = || RegFault::Memory; refuse(make()); }"),
    ("by a closure with another's pattern", "fn f() { let make = |Marc::Memory| RegFault::Store; }"),
    ("by an arm of another", "fn f(x: R) -> R { match x { Err(RegFault::Damaged) => Err(RegFault::Store), it => it } }"),
    ("by an arm of the other one", "fn f(x: R) -> R { match x { Err(RegFault::Memory) => Err(RegFault::Store), it => it } }"),
    ("by an arm of one or another", "fn f(x: R) -> R { match x { Err(RegFault::Damaged | RegFault::Store) => Err(RegFault::Store), it => it } }"),
    ("by an arm of whatever comes", "fn f(x: R) -> R { match x { Err(_) => return Err(Refusal::Memory), it => it } }"),
    ("by an arm that only looks like one's", "fn f(x: R) -> R { match x { Memory => Err(Refusal::Memory) } }"),
    ("by an arm with a guard", "fn f(x: R) -> R { match x { it if it.is_odd() => Err(Refusal::Store), it => it } }"),
    ("behind an arm", "fn f(x: R) -> R { match x { Err(RegFault::Store) => { seen(); Err(RegFault::Store) }, it => it } }"),
    ("by a constant", "const GONE: RegFault = RegFault::Store;"),
    ("by a constant, as it is used", "const GONE: Fault = Fault {\n    line: 0,\n    kind: Kind::Memory,\n};\nfn f() -> Result<(), Fault> { Err(GONE) }"),
    ("by a constant of a type", "impl Fault {\n    const GONE: Fault = Fault::Memory;\n    fn f() -> Fault { Fault::GONE }\n}"),
    ("by a static", "static GONE: [Refusal; 1] = [Refusal::Store; 1];"),
    ("by an import", "use crate::RegFault::Store;\nfn f() -> RegFault { Store }"),
    ("by an import of all", "use crate::RegFault::*;\nfn f() -> RegFault { Store }"),
    ("by an import under another name", "use crate::RegFault::Store as Gone;\nfn f() -> RegFault { Gone }"),
    ("by an import inside", "fn f() -> RegFault { use RegFault::{Memory as Gone}; Gone }"),
    ("by a value under another name", "use std::alloc::{AllocError as Gone, Global};\nfn f() -> Result<(), Gone> { Err(Gone) }"),
    ("by a type under another name", "type Gone = AllocError;\nfn f() -> Result<(), Gone> { Err(Gone {}) }"),
    ("by its type under another name", "use crate::RegFault as Directive;\nfn f() -> Directive { Directive::Store }"),
    ("by a conversion of another", "impl From<MarcFault> for Refusal {\n    fn from(_: MarcFault) -> Refusal {\n        Refusal::Store\n    }\n}"),
    ("by a conversion into the other one", "impl From<AllocError> for Refusal {\n    fn from(_: AllocError) -> Refusal {\n        Refusal::Store\n    }\n}"),
    ("by an arm of a conversion", "impl From<RegFault> for Refusal {\n    fn from(it: RegFault) -> Refusal {\n        match it {\n            RegFault::Damaged => Refusal::Store,\n        }\n    }\n}"),
    ("by what a conversion takes", "fn f() -> Result<(), RegFault> { Err(sqlite::Error::InvalidQuery)? }"),
    ("by what a conversion takes, at once", "fn f() -> RegFault { RegFault::from(AllocError) }"),
    ("by what a growth fails with", "fn f() -> Result<(), RegFault> { Err(AllocFailed { value: 1 })? }"),
    ("by what a growth fails with, and its type", "fn f() -> Result<(), RegFault> { Err(AllocFailed::<u8> { value: 1 })? }"),
    ("by what an open fails with", "fn f() -> Result<(), OpenFailed> { Err(OpenFailed) }"),
    ("by what a read fails with", "fn f() -> Result<usize, ReadFailed> { Err(ReadFailed) }"),
    ("by a macro", "macro_rules! gone { ($fault:ident, $kind:ident) => { Err($fault::$kind) } }"),
    ("by a derived conversion", "enum Fault { Memory(#[from] Gone) }"),
    ("by a default", "#[derive(Default)]\nenum Fault { #[default] Memory, Other }"),
    ("by asking for too much", "fn f(alloc: Global) -> Result<(), RegFault> { Vec::<u8>::with_capacity(alloc, usize::MAX)?; Ok(()) }"),
    ("by asking for a shifted number", "fn f(alloc: Global) -> Result<(), RegFault> { Vec::<u8>::with_capacity(alloc, 1 << 62)?; Ok(()) }"),
    ("by asking for a great number", "fn f(list: &mut Vec<u8>) -> Result<(), RegFault> { list.reserve(9_000_000_000_000)?; Ok(()) }"),
    ("by asking for a constant", "const MOST: usize = 1 << 62;\nfn f(list: &mut Vec<u8>) -> Result<(), RegFault> { list.reserve(MOST)?; Ok(()) }"),
    ("by a list that is too long", "fn f(alloc: Global) -> Result<(), RegFault> { vec![in alloc; 0u8; usize::MAX]?; Ok(()) }"),
    ("by asking for a number of base sixteen", "fn f(list: &mut Vec<u8>) -> Result<(), RegFault> { list.reserve(0x7fff_ffff_ffff_ffff)?; Ok(()) }"),
    ("by asking for all bits", "fn f(list: &mut Vec<u8>) -> Result<(), RegFault> { list.reserve(!0)?; Ok(()) }"),
    ("by asking for a power", "fn f(list: &mut Vec<u8>) -> Result<(), RegFault> { list.reserve(2usize.pow(62))?; Ok(()) }"),
    ("by asking for what has a name", "fn f(list: &mut Vec<u8>) -> Result<(), RegFault> { let most = usize::MAX; list.reserve(most)?; Ok(()) }"),
    ("by asking for what a function says", "fn f(list: &mut Vec<u8>) -> Result<(), RegFault> { list.try_reserve_exact(most())?; Ok(()) }"),
    ("by asking for more than a length", "fn f(list: &mut Vec<u8>) -> Result<(), RegFault> { list.reserve(list.len() * 99_999)?; Ok(()) }"),
    ("by asking for one that is too great", "fn f(alloc: Global) -> Result<(), RegFault> { Vec::<[u8; 99_999_999_999]>::with_capacity(alloc, 1)?; Ok(()) }"),
    ("by the program's status", "fn f() -> Result<Status, AllocError> { if late() { return Ok(Status::Failed); } Ok(Status::Answered) }"),
    ("in what isn't read", "mod tests;"),
    ("behind a clause that has it", "fn f() -> R\n    ensures kept { result ≡ Err RegFault.Store }\n{\n    Err(RegFault::Store)\n}"),
    ("beside a pattern", "fn f(x: &R) -> R { if matches!(x, Err(RegFault::Store)) { return Err(RegFault::Store); } Ok(()) }"),
    ("as it is compared", "fn f(x: RegFault) -> R { if x == RegFault::Store { return Err(RegFault::Store); } Ok(()) }"),
]

# What makes none, and such code.
PLAIN = [
    ("a call that fails", "fn f(alloc: Global) -> Result<(), RegFault> { Vec::with_capacity(alloc, 9)?; Ok(()) }"),
    ("a clause", "fn f() -> R\n    requires whole { Refusal::Store }\n    ensures memory { IfErr result (λ it. it ≡ Refusal::Memory) }\n{\n    Ok(())\n}"),
    ("a member that proofs see", "impl From<AllocError> for Usage {\n    ghost use A.B.Usage.TheVariants.{Memory};\n    ghost from_gives = { λ _ it. it ≡ Usage::Memory };\n}"),
    ("a conversion of memory's", "impl From<AllocError> for Usage {\n    fn from(_error: AllocError) -> Usage {\n        Usage::Memory\n    }\n}"),
    ("a conversion of a growth's", "impl<T: Drop> From<AllocFailed<T>> for Usage {\n    fn from(_: AllocFailed<T>) -> Usage {\n        Usage::Memory\n    }\n}"),
    ("a conversion of sqlite's", "impl From<sqlite::Error> for Refusal {\n    fn from(_: sqlite::Error) -> Refusal {\n        Refusal::Store\n    }\n}"),
    ("arms that pass on", "impl From<RegFault> for Refusal {\n    fn from(it: RegFault) -> Refusal {\n        match it {\n            RegFault::Damaged => Refusal::Damaged,\n            RegFault::Store => Refusal::Store,\n            RegFault::Memory => Refusal::Memory,\n        }\n    }\n}"),
    ("an arm that passes on and returns", "fn f(x: R) -> R { match x { Ok(it) => it, Err(IdentFault::Memory) => return Err(AllocError), it => it } }"),
    ("an arm of sqlite's", "fn f(x: R) -> R { match x { Err(Error::SqliteFailure(ErrorCode::OutOfMemory)) => Err(RegFault::Memory), it => it } }"),
    ("patterns", "fn f(x: R) -> u8 { match x { Refusal::ReadFault { .. } | Refusal::Store | Refusal::Memory => 3, _ => 0 } }"),
    ("a pattern with a guard", "fn f(x: R) -> u8 { match x { Err(RegFault::Store) if odd() => 3, _ => 0 } }"),
    ("a pattern of a condition", "fn f(x: R) -> u8 { if let Err(RegFault::Memory) = x { return 1; } let Err(RegFault::Store) = x else { return 2; }; 3 }"),
    ("a pattern that is asked for", "fn f(x: R) -> bool { matches!(x, Err(RegFault::Memory | RegFault::Store)) }"),
    ("a pattern of a growth's", "fn f(x: u8) -> u8 { let Err(AllocFailed { value }) = v.push(x) else { return 0; }; value }"),
    ("a comparison", "fn f(x: ErrorKind) -> bool { x == ErrorKind::OutOfMemory || x != ErrorKind::OutOfMemory }"),
    ("types", "fn f<P: Place>(x: Result<u8, AllocError>) -> Result<(Session<P::Store, Blocks>, u8), Connection<Self::Store>> { x.g() }"),
    ("a type of a parameter", "trait Paths {\n    fn close(&self, store: Self::Store) -> Closed;\n}"),
    ("types over lines", "fn f() -> Result<\n    u8,\n    AllocError,\n> {\n    g()\n}"),
    ("another type of the name", "use sqlite_disk::Memory;\nfn f(alloc: Global) -> FileStore<Memory> { FileStore { log: Memory::new(alloc) } }"),
    ("a line of a profile", "fn f(x: Path) -> Directive { Directive::Store(x) }"),
    ("what an enum has", "enum Fault {\n    Store,\n    Memory,\n}\npub struct OpenFailed;"),
    ("an import", "use std::alloc::{AllocError, Global};\nuse zeb_engine::DbName as Name;"),
    ("tests", "#[cfg(test)]\nmod tests;"),
]

# What changes in a function that may make one, and the function before and after.
ALLOWED = "fn f(n: u64) -> Result<(), AllocError> {\n    for _ in 0..u64::MAX {\n        if n == u64::MAX {\n            return Err(AllocError);\n        }\n    }\n    Ok(())\n}"
CHANGED = [
    ("what it asks before", ALLOWED, ALLOWED.replace("n == u64::MAX", "n >= 1_000")),
    ("how often it asks", ALLOWED, ALLOWED.replace("0..u64::MAX", "0..1_000")),
    ("its constant", "const LATE: [Refusal; 1] = [Refusal::Store; 1];", "const LATE: [Refusal; 2] = [Refusal::Store; 2];"),
]
SAME = [
    ("its layout", ALLOWED, ALLOWED.replace("\n", "\n    ")),
    ("a clause", ALLOWED, ALLOWED.replace(" {\n    for", "\n    ensures few { IfErr result Late }\n{\n    for")),
    ("what stands beside it", ALLOWED, ALLOWED + "\nfn g() -> u8 { 3 }"),
]
# The program's status of a failure as a number, and other numbers.
STATUSES = [("fn f() -> u8 { finish(3, output) }", 1), ("const FAILED: u8 = 3;\nfn f(x: [u8; 33]) -> u8 { x[30] + 2 }", 0)]
NUMBER = len(MADE) + len(PLAIN) + len(CHANGED) + len(SAME) + len(STATUSES)


def made(code, is_program=False):
    """The places where the code makes failures by hand, each with what its text adds up to."""
    run = by_hand.run_of(code)
    return [place for place, _ in by_hand.Reader(by_hand.Reader().constants_in(run)).made_in(run, is_program)]


def failed():
    """The trials that come out wrong."""
    yield from [f"not found: a failure that is made {how}" for how, code in MADE if not made(code)]
    yield from [f"found where none is made: {what}" for what, code in PLAIN if made(code)]
    yield from [f"not seen: a change of {what}" for what, before, after in CHANGED if made(before) == made(after)]
    yield from [f"seen as a change: {what}" for what, before, after in SAME if made(before) != made(after)]
    yield from [f"{len(made(code, True))} statuses of a failure, not {number}, in {code}" for code, number in STATUSES if len(made(code, True)) != number]
