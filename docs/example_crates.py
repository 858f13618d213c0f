"""The crates of tests for which `docs/examples.py` writes the examples: what they import, and what the examples begin with."""


class Given:
    """A value that examples begin with: how a test makes it, its type, how it is filled, and how a test ends it.

    Examples with `hash_named` stand in a function that is generic over the hasher, if `generic` names its parameter and
    the type: then the prover finds that an insert gets the hash of its key."""

    def __init__(self, make, kind=None, fill=None, end="", generic=None):
        self.make, self.kind, self.fill, self.end, self.generic = make, kind, fill, end, generic


class Crate:
    """The libraries whose examples a crate of tests contains, and the imports that the examples may need.

    If `pairs` holds, the tests call `is_pair` and `is_value`. If `splits` holds, the examples that begin with a given value
    have a file of their own."""

    def __init__(self, libraries, head, given=None, pairs=False, splits=False):
        self.libraries, self.head, self.given = libraries, head, given or {}
        self.pairs, self.splits = pairs, splits


CRATES = {
    "group_table": Crate(["group_table"], """
        use group_table::Table;
        use group_table::group::{match_empty, match_free, match_tag};
        use std::test::Fail;
        use test_helpers::{all, check};"""),
    "lru_limits": Crate(["lru_limits"], """
        use lru_limits::{
            Admission, Both, Budgeted, ByBytes, ByCost, ByLength, ByMemoryUsage, ByWeight, Costed, Insertion, KeyHasher,
            Limiter, LookupKey, OwnedBytes, RandomState, Storing, Summing, Unlimited, UnlimitedCompact,
        };
        use std::hash::{BuildHasher, Hash, Hasher};
        use std::test::Fail;
        use test_helpers::{all, check};""",
        {"key": Given('let key = String::from_str(alloc, "a")?;'),
         "state": Given("let state = RandomState::with_seeds([5, 6, 7, 8]);")}),
    "schnellru": Crate(["schnellru", "lru_model", "ordered_table"], """
        use ordered_table::OrderedTable;
        use schnellru::{
            ByLength, ByMemoryUsage, GetOrInsertError, KeyHasher, LruMap, MoveReport, RandomState, ReserveError,
            Unlimited, UnlimitedCompact, Updated,
        };
        use std::alloc::AllocError;
        use std::hash::BuildHasher;
        use std::test::Fail;
        use test_helpers::{all, check};
        use test_maps::{fill, is_pair, is_value};""",
        {"map": Given("let mut map: LruMap<u64, u64> = LruMap::with_limiter(alloc, ByLength::new(3));",
                      "LruMap<u64, u64>", "fill",
                      generic=("S: KeyHasher<u64>", "LruMap<u64, u64, ByLength, S>"))}, pairs=True, splits=True),
    "lru_replay": Crate(["lru_replay"], """
        use lru_replay::{Answer, Call, ReplayEnd, ReplayError, replay, run_calls, run_summing, status};
        use schnellru::{ByCost, ByLength, LruMap};
        use std::test::Fail;
        use test_helpers::{all, check};"""),
    "lru_tenants": Crate(["lru_tenants"], """
        use crate::numbers::{Bytes, Counted, Numbers, Shared, recount, refill, reopen, restock};
        use lru_tenants::{
            ByCost, ByWeight, ByteTenants, Counting, Counts, TenantAnswer, TenantCache, TenantCall, TenantError,
            TenantPool, run_tenants,
        };
        use schnellru::RandomState;
        use std::test::Fail;
        use test_helpers::{all, check};""",
        {"cache": Given("let mut cache: Numbers = TenantCache::new(alloc, [1, 2, 3, 4]);", "Numbers", "refill"),
         "counted": Given("let mut counted: Counted = TenantCache::with_hasher(alloc, RandomState::with_seeds([1, 2, 3, 4]));",
                          "Counted", "recount"),
         "pool": Given("let mut pool: Shared = TenantPool::new(alloc, [1, 2, 3, 4], 5);", "Shared", "restock"),
         "bytes": Given("let mut bytes: Bytes = ByteTenants::new(alloc, [1, 2, 3, 4], 4000);", "Bytes", "reopen")}),
    "lru_caches": Crate(["lru_caches"], """
        ghost use Rattle.std.specs.Prelude.{◌≡◌, ◌*◌};

        use crate::beginnings::{Cache, Counted, Map, recount, refill, rewrite};
        use crate::disk::{Disk, DiskError};
        use lru_caches::{
            BlockDevice, CountedMap, Counts, Durable, FileDevice, FileError, HashedFileDevice, Loader, Memo, MemoTable, OrderedMap,
            PageCache, PageError, Question, Unclosed,
        };
        use schnellru::{ByLength, LruMap, RandomState};
        use std::alloc::AllocError;
        use std::cell::Cell;
        use std::io::Cursor;
        use std::test::Fail;
        use test_helpers::{all, check};
        use test_maps::{is_pair, is_value};""",
        {"map": Given("let mut map: Map = OrderedMap::new(alloc);", "Map", "refill"),
         "counted": Given("let mut counted: Counted = CountedMap::new(LruMap::with_limiter(alloc, ByLength::new(3)));",
                          "Counted", "recount"),
         "calls_left": Given("let calls_left = Cell::new(100);"),
         "disk": Given("let disk = Disk::new([10, 11, 12, 13], [false; 4], &calls_left);"),
         "cache": Given("let mut cache = PageCache::new(alloc, disk, 2);", "Cache<'_>", "rewrite", "cache.discard();")},
        pairs=True, splits=True),
    "lru_trace": Crate(["lru_trace"], """
        use lru_trace::{ByteCurve, Curve, DeleteCurve};
        use std::test::Fail;
        use test_helpers::{all, check};"""),
}
