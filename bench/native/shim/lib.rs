//! Stand-ins for the types of std that take an allocator, for measuring alone: no memory is ever refused.
use std::ops::{Deref, DerefMut};
#[derive(Clone, Copy, Debug, PartialEq, Eq)]
pub struct AllocError;
#[derive(Clone, Copy, Debug)]
pub struct AllocFailed<T>(pub std::marker::PhantomData<T>);
impl<T> From<AllocFailed<T>> for AllocError {
    fn from(_: AllocFailed<T>) -> Self {
        AllocError
    }
}
impl<T> From<AllocError> for AllocFailed<T> {
    fn from(_: AllocError) -> Self {
        AllocFailed(std::marker::PhantomData)
    }
}
#[derive(Clone, Copy, Debug)]
pub struct Global;
#[derive(Debug, PartialEq, Eq, Hash, PartialOrd, Ord)]
pub struct Vec<T>(pub std::vec::Vec<T>);
impl<T> Vec<T> {
    pub fn new(_: Global) -> Self {
        Vec(std::vec::Vec::new())
    }
    pub fn with_capacity(_: Global, n: usize) -> Result<Self, AllocError> {
        Ok(Vec(std::vec::Vec::with_capacity(n)))
    }
    #[inline(always)]
    pub fn push(&mut self, x: T) -> Result<(), AllocFailed<T>> {
        self.0.push(x);
        Ok(())
    }
    #[inline(always)]
    pub fn pop(&mut self) -> Option<T> {
        self.0.pop()
    }
    #[inline(always)]
    pub fn len(&self) -> usize {
        self.0.len()
    }
    #[inline(always)]
    pub fn truncate(&mut self, n: usize) {
        self.0.truncate(n)
    }
    #[inline(always)]
    pub fn as_slice(&self) -> &[T] {
        &self.0
    }
    #[inline(always)]
    pub fn as_mut_slice(&mut self) -> &mut [T] {
        &mut self.0
    }
    pub fn retain<F: FnMut(&T) -> bool>(&mut self, f: F) {
        self.0.retain(f)
    }
    pub fn allocator(&self) -> &Global {
        &Global
    }
    pub fn sort(&mut self) -> Result<(), AllocError>
    where
        T: Ord,
    {
        self.0.sort();
        Ok(())
    }
    pub fn sort_by_key<K: Ord, F: FnMut(&T) -> K>(&mut self, key: F) -> Result<(), AllocError> {
        self.0.sort_by_key(key);
        Ok(())
    }
    pub fn shrink_to_fit(&mut self) -> Result<(), AllocError> {
        self.0.shrink_to_fit();
        Ok(())
    }
    pub fn swap_remove(&mut self, i: usize) -> T {
        self.0.swap_remove(i)
    }
    pub fn clear(&mut self) {
        self.0.clear()
    }
    pub fn capacity(&self) -> usize {
        self.0.capacity()
    }
}
impl<T: Clone> Vec<T> {
    pub fn clone(&self) -> Result<Self, AllocError> {
        Ok(Vec(self.0.clone()))
    }
    pub fn extend_from_slice(&mut self, s: &[T]) -> Result<(), AllocError> {
        self.0.extend_from_slice(s);
        Ok(())
    }
    pub fn from_slice(_: Global, s: &[T]) -> Result<Self, AllocError> {
        Ok(Vec(s.to_vec()))
    }
    pub fn extend_from_within(&mut self, range: std::ops::Range<usize>) -> Result<(), AllocError> {
        self.0.extend_from_within(range);
        Ok(())
    }
    pub fn resize(&mut self, n: usize, x: T) -> Result<(), AllocError> {
        self.0.resize(n, x);
        Ok(())
    }
}
impl<T> Deref for Vec<T> {
    type Target = [T];
    #[inline(always)]
    fn deref(&self) -> &[T] {
        &self.0
    }
}
impl<T> DerefMut for Vec<T> {
    #[inline(always)]
    fn deref_mut(&mut self) -> &mut [T] {
        &mut self.0
    }
}
impl<'a, T> IntoIterator for &'a Vec<T> {
    type Item = &'a T;
    type IntoIter = std::slice::Iter<'a, T>;
    fn into_iter(self) -> Self::IntoIter {
        self.0.iter()
    }
}
impl<T> IntoIterator for Vec<T> {
    type Item = T;
    type IntoIter = std::vec::IntoIter<T>;
    fn into_iter(self) -> Self::IntoIter {
        self.0.into_iter()
    }
}
#[macro_export]
macro_rules! vec_in {
    [in $a:expr; $x:expr; $n:expr] => { { let _ = $a; Ok::<_, $crate::AllocError>($crate::Vec(vec![$x; $n])) } };
    [in $a:expr; $($x:expr),*] => { { let _ = $a; Ok::<_, $crate::AllocError>($crate::Vec(vec![$($x),*])) } };
}
/// As the hasher of the proved library's maps: it multiplies 16 bytes at a time to 128 bits, and joins the halves by xor.
#[derive(Clone, Copy)]
pub struct FoldHasher(u64);
impl Default for FoldHasher {
    fn default() -> Self {
        FoldHasher(0x243f_6a88_85a3_08d3)
    }
}
const MULTIPLIER: u64 = 0x9e37_79b9_7f4a_7c15;
fn folded_multiply(a: u64, b: u64) -> u64 {
    let product = u128::from(a) * u128::from(b);
    product as u64 ^ (product >> 64) as u64
}
fn read_u32(bytes: &[u8], at: usize) -> u64 {
    u64::from(u32::from_le_bytes([bytes[at], bytes[at + 1], bytes[at + 2], bytes[at + 3]]))
}
fn read_u64(bytes: &[u8], at: usize) -> u64 {
    read_u32(bytes, at) | read_u32(bytes, at + 4) << 32
}
fn read_short(bytes: &[u8]) -> u64 {
    let len = bytes.len();
    if len >= 4 {
        read_u32(bytes, 0) | read_u32(bytes, len - 4) << 32
    } else if len > 0 {
        u64::from(bytes[0]) | u64::from(bytes[len / 2]) << 8 | u64::from(bytes[len - 1]) << 16
    } else {
        0
    }
}
impl std::hash::Hasher for FoldHasher {
    fn finish(&self) -> u64 {
        self.0
    }
    fn write(&mut self, bytes: &[u8]) {
        let len = bytes.len();
        if len <= 8 {
            self.0 = folded_multiply(self.0 ^ read_short(bytes), MULTIPLIER ^ (2 * len as u64));
            return;
        }
        let mut state = self.0.wrapping_add(len as u64);
        let mut at = 0;
        while len - at > 16 {
            state = folded_multiply(read_u64(bytes, at) ^ state, read_u64(bytes, at + 8) ^ MULTIPLIER);
            at += 16;
        }
        self.0 = folded_multiply(
            read_u64(bytes, len.saturating_sub(16)) ^ state,
            read_u64(bytes, len - 8) ^ MULTIPLIER,
        );
    }
}
type Fold = std::hash::BuildHasherDefault<FoldHasher>;
pub struct HashMap<K, V>(std::collections::HashMap<K, V, Fold>);
impl<K: std::hash::Hash + Eq, V> HashMap<K, V> {
    pub fn new(_: Global) -> Self {
        HashMap(std::collections::HashMap::default())
    }
    pub fn get(&self, k: &K) -> Option<&V> {
        self.0.get(k)
    }
    pub fn insert(&mut self, k: K, v: V) -> Result<Option<V>, AllocFailed<(K, V)>> {
        Ok(self.0.insert(k, v))
    }
}
pub struct BinaryHeap<T>(std::collections::BinaryHeap<T>);
impl<T: Ord> BinaryHeap<T> {
    pub fn new(_: Global) -> Self {
        BinaryHeap(std::collections::BinaryHeap::new())
    }
    pub fn push(&mut self, x: T) -> Result<(), AllocError> {
        self.0.push(x);
        Ok(())
    }
    pub fn pop(&mut self) -> Option<T> {
        self.0.pop()
    }
    pub fn clear(&mut self) {
        self.0.clear()
    }
    pub fn peek(&self) -> Option<&T> {
        self.0.peek()
    }
    pub fn len(&self) -> usize {
        self.0.len()
    }
    pub fn is_empty(&self) -> bool {
        self.0.is_empty()
    }
}
pub fn box_in<T>(_: Global, x: T) -> Result<Box<T>, AllocError> {
    Ok(Box::new(x))
}

pub struct Arc<T>(std::sync::Arc<T>);
impl<T> Arc<T> {
    pub fn new(_: Global, x: T) -> Result<Self, AllocError> {
        Ok(Arc(std::sync::Arc::new(x)))
    }
    pub fn try_clone(a: &Arc<T>) -> Result<Self, AllocError> {
        Ok(Arc(a.0.clone()))
    }
    pub fn try_unwrap(a: Arc<T>) -> Result<T, Arc<T>> {
        std::sync::Arc::try_unwrap(a.0).map_err(Arc)
    }
}
impl<T> Deref for Arc<T> {
    type Target = T;
    fn deref(&self) -> &T {
        &self.0
    }
}
pub trait CollectIn: Iterator + Sized {
    fn collect_in(self, _: Global) -> Result<Vec<Self::Item>, AllocError> {
        Ok(Vec(Iterator::collect(self)))
    }
}
impl<I: Iterator> CollectIn for I {}
impl<T> Vec<T> {
    pub fn split_off(&mut self, n: usize) -> Result<Vec<T>, AllocError> {
        Ok(Vec(self.0.split_off(n)))
    }
}
/// Twelve lanes of a table, as the proved library has them: a tag of the hash and the place of an entry in each, and which tags went on to the next group.
#[derive(Clone, Copy)]
struct Group {
    tags: [u8; 16],
    places: [u32; 12],
}
const LOAD: usize = 9;
fn tag(hash: u32) -> u8 {
    ((hash >> 24) as u8).max(1)
}
impl Group {
    const EMPTY: Group = Group { tags: [0; 16], places: [0; 12] };
    #[inline(always)]
    fn lanes(&self, tag: u8) -> u32 {
        use std::arch::x86_64::{__m128i, _mm_cmpeq_epi8, _mm_loadu_si128, _mm_movemask_epi8, _mm_set1_epi8};
        // SAFETY: every x86-64 has SSE2, and sixteen bytes are read.
        let lanes = unsafe {
            let tags = _mm_loadu_si128(self.tags.as_ptr().cast::<__m128i>());
            _mm_movemask_epi8(_mm_cmpeq_epi8(tags, _mm_set1_epi8(tag as i8)))
        };
        lanes as u32 & 0xFFF
    }
    fn overflow(&self) -> u32 {
        u32::from_le_bytes([self.tags[12], self.tags[13], self.tags[14], self.tags[15]])
    }
    fn is_overflowed(&self, hash: u32) -> bool {
        self.overflow() >> (tag(hash) & 31) & 1 != 0
    }
    fn mark_overflow(&mut self, hash: u32) {
        let marked = self.overflow() | 1 << (tag(hash) & 31);
        self.tags[12..].copy_from_slice(&marked.to_le_bytes());
    }
}
#[derive(Clone, Copy)]
struct Bucket {
    hash: u32,
    slot: u32,
}
/// Keys in order, each once, found by hash in a table of places; a removed key leaves its place to the last one.
pub struct IndexMap<K, V> {
    keys: std::vec::Vec<K>,
    values: std::vec::Vec<V>,
    groups: std::vec::Vec<Group>,
    buckets: std::vec::Vec<Bucket>,
    growth_left: usize,
}
#[inline(always)]
fn hash_of<Q: std::hash::Hash + ?Sized>(k: &Q) -> u32 {
    let mut state = FoldHasher::default();
    k.hash(&mut state);
    let hash = std::hash::Hasher::finish(&state);
    (hash ^ hash >> 32) as u32
}
impl<K: std::hash::Hash + Eq, V> IndexMap<K, V> {
    pub fn new(_: Global) -> Self {
        IndexMap {
            keys: vec![],
            values: vec![],
            groups: vec![],
            buckets: vec![],
            growth_left: 0,
        }
    }
    #[inline(always)]
    fn find<Q: std::hash::Hash + Eq + ?Sized>(&self, k: &Q, hash: u32) -> Option<usize>
    where
        K: std::borrow::Borrow<Q>,
    {
        let count = self.groups.len();
        if count == 0 {
            return None;
        }
        let start = hash as usize & (count - 1);
        let mut at = start;
        loop {
            let group = &self.groups[at];
            let mut lanes = group.lanes(tag(hash));
            while lanes != 0 {
                let place = group.places[lanes.trailing_zeros() as usize] as usize;
                if self.keys[place].borrow() == k {
                    return Some(place);
                }
                lanes &= lanes - 1;
            }
            if !group.is_overflowed(hash) {
                return None;
            }
            at = (at + 1) & (count - 1);
            if at == start {
                return None;
            }
        }
    }
    fn hook(groups: &mut [Group], hash: u32, place: usize) -> Bucket {
        let count = groups.len();
        let mut at = hash as usize & (count - 1);
        loop {
            let group = &mut groups[at];
            let empty = group.lanes(0);
            if empty != 0 {
                let lane = empty.trailing_zeros() as usize;
                group.tags[lane] = tag(hash);
                group.places[lane] = place as u32;
                return Bucket { hash, slot: (16 * at + lane) as u32 };
            }
            group.mark_overflow(hash);
            at = (at + 1) & (count - 1);
        }
    }
    #[inline(never)]
    fn grow(&mut self) {
        let len = self.keys.len();
        let mut count = 1;
        while LOAD * count < (len + 1).max(LOAD * self.groups.len() + 1) {
            count *= 2;
        }
        if len < LOAD * self.groups.len() / 2 {
            count = self.groups.len();
        }
        self.groups.clear();
        self.groups.resize(count, Group::EMPTY);
        for (place, bucket) in self.buckets.iter_mut().enumerate() {
            *bucket = Self::hook(&mut self.groups, bucket.hash, place);
        }
        self.growth_left = LOAD * count - len;
        self.buckets.reserve_exact(self.growth_left);
        self.keys.reserve_exact(self.growth_left);
        self.values.reserve_exact(self.growth_left);
    }
    /// Empties a lane, and gives the last entry its place.
    fn unhook(&mut self, place: usize) {
        let last = self.buckets[self.buckets.len() - 1].slot as usize;
        self.groups[last / 16].places[last % 16] = place as u32;
        let slot = self.buckets.swap_remove(place).slot as usize;
        let group = &mut self.groups[slot / 16];
        group.tags[slot % 16] = 0;
        self.growth_left += usize::from(group.overflow() == 0);
    }
    #[inline(always)]
    pub fn get_index_of<Q: std::hash::Hash + Eq + ?Sized>(&self, k: &Q) -> Option<usize>
    where
        K: std::borrow::Borrow<Q>,
    {
        self.find(k, hash_of(k))
    }
    pub fn get<Q: std::hash::Hash + Eq + ?Sized>(&self, k: &Q) -> Option<&V>
    where
        K: std::borrow::Borrow<Q>,
    {
        self.get_index_of(k).map(|i| &self.values[i])
    }
    pub fn get_mut<Q: std::hash::Hash + Eq + ?Sized>(&mut self, k: &Q) -> Option<&mut V>
    where
        K: std::borrow::Borrow<Q>,
    {
        let place = self.get_index_of(k)?;
        self.values.get_mut(place)
    }
    #[inline(always)]
    pub fn insert_full(&mut self, k: K, v: V) -> Result<(usize, Option<V>), AllocError> {
        let hash = hash_of(&k);
        if let Some(place) = self.find(&k, hash) {
            return Ok((place, Some(std::mem::replace(&mut self.values[place], v))));
        }
        if self.growth_left == 0 {
            self.grow();
        }
        let place = self.keys.len();
        let bucket = Self::hook(&mut self.groups, hash, place);
        self.growth_left -= 1;
        self.buckets.push(bucket);
        self.keys.push(k);
        self.values.push(v);
        Ok((place, None))
    }
    pub fn insert(&mut self, k: K, v: V) -> Result<Option<V>, AllocError> {
        self.insert_full(k, v).map(|r| r.1)
    }
    pub fn swap_remove<Q: std::hash::Hash + Eq + ?Sized>(&mut self, k: &Q) -> Option<V>
    where
        K: std::borrow::Borrow<Q>,
    {
        let place = self.get_index_of(k)?;
        self.unhook(place);
        self.keys.swap_remove(place);
        Some(self.values.swap_remove(place))
    }
    pub fn truncate(&mut self, n: usize) {
        while self.keys.len() > n {
            self.unhook(self.keys.len() - 1);
            self.keys.pop();
            self.values.pop();
        }
    }
    pub fn clear(&mut self) {
        self.truncate(0)
    }
    pub fn len(&self) -> usize {
        self.keys.len()
    }
    pub fn is_empty(&self) -> bool {
        self.keys.is_empty()
    }
}
impl<T> std::borrow::Borrow<[T]> for Vec<T> {
    fn borrow(&self) -> &[T] {
        &self.0
    }
}
pub struct IndexSet<T>(IndexMap<T, ()>);
impl<T: std::hash::Hash + Eq> IndexSet<T> {
    pub fn new(a: Global) -> Self {
        IndexSet(IndexMap::new(a))
    }
    #[inline(always)]
    pub fn get_index_of<Q: std::hash::Hash + Eq + ?Sized>(&self, k: &Q) -> Option<usize>
    where
        T: std::borrow::Borrow<Q>,
    {
        self.0.get_index_of(k)
    }
    pub fn contains<Q: std::hash::Hash + Eq + ?Sized>(&self, k: &Q) -> bool
    where
        T: std::borrow::Borrow<Q>,
    {
        self.0.get_index_of(k).is_some()
    }
    pub fn get_index(&self, i: usize) -> Option<&T> {
        self.0.keys.get(i)
    }
    pub fn insert_full(&mut self, k: T) -> Result<(usize, bool), AllocError> {
        self.0.insert_full(k, ()).map(|(i, old)| (i, old.is_none()))
    }
    pub fn insert(&mut self, k: T) -> Result<bool, AllocError> {
        self.insert_full(k).map(|r| r.1)
    }
    pub fn truncate(&mut self, n: usize) {
        self.0.truncate(n)
    }
    pub fn clear(&mut self) {
        self.0.truncate(0)
    }
    pub fn len(&self) -> usize {
        self.0.keys.len()
    }
    pub fn is_empty(&self) -> bool {
        self.0.keys.is_empty()
    }
    pub fn as_slice(&self) -> &[T] {
        &self.0.keys
    }
    pub fn iter(&self) -> std::slice::Iter<'_, T> {
        self.0.keys.iter()
    }
}
impl<T> Vec<T> {
    pub fn drain<R: std::ops::RangeBounds<usize>>(&mut self, r: R) {
        self.0.drain(r);
    }
}
impl<T: Ord> BinaryHeap<T> {
    pub fn as_slice(&self) -> &[T] {
        self.0.as_slice()
    }
}
#[derive(Clone, Copy)]
pub struct Host;
impl Host {
    pub fn alloc(&self) -> Global {
        Global
    }
}
pub fn read_all(v: &mut Vec<u8>) {
    use std::io::Read;
    std::io::stdin().read_to_end(&mut v.0).unwrap();
}

#[derive(Clone, Debug, PartialEq, Eq, PartialOrd, Ord, Hash)]
pub struct String(pub std::string::String);
impl Deref for String {
    type Target = str;
    fn deref(&self) -> &str {
        &self.0
    }
}
pub trait ToStringIn {
    fn to_string_in(&self, a: Global) -> Result<String, AllocError>;
}
impl<T: std::fmt::Display + ?Sized> ToStringIn for T {
    fn to_string_in(&self, _: Global) -> Result<String, AllocError> {
        Ok(String(std::format!("{self}")))
    }
}
#[macro_export]
macro_rules! format_in {
    (in $a:expr; $($rest:tt)*) => { { let _ = $a; Ok::<_, $crate::AllocError>($crate::String(std::format!($($rest)*))) } };
}
pub mod sync {
    pub trait Wait {
        fn forever(&self) -> std::iter::Repeat<()> {
            std::iter::repeat(())
        }
    }
    impl Wait for crate::Host {}
}
pub mod thread {
    pub use std::thread::yield_now;
    pub trait Threads {}
    impl Threads for crate::Host {}
    /// A thread of a scope.
    pub struct Builder(std::thread::Builder);
    impl Builder {
        pub fn new() -> Self {
            Builder(std::thread::Builder::new())
        }
        pub fn stack_size(self, bytes: usize) -> Self {
            Builder(self.0.stack_size(bytes))
        }
        pub fn spawn_scoped<'s, T: Send + 's, F: FnOnce() -> T + Send + 's>(
            self,
            scope: &'s std::thread::Scope<'s, '_>,
            f: F,
        ) -> std::io::Result<Joining<'s, T>> {
            Ok(Joining(self.0.spawn_scoped(scope, f)?))
        }
    }
    pub struct Joining<'s, T>(std::thread::ScopedJoinHandle<'s, T>);
    impl<T> Joining<'_, T> {
        pub fn join<R>(self, _: &R) -> T {
            self.0.join().unwrap()
        }
    }
    pub fn scope_env() {}
    pub fn scope<'e, R, T, F: for<'s> FnOnce(&'s std::thread::Scope<'s, 'e>) -> T>(_: (), _: &R, f: F) -> T {
        std::thread::scope(f)
    }
    /// The items in so many parts, each by a thread of its own.
    pub fn for_each_mut<R, T: Send, F: Fn(usize, &mut T) + Sync>(_: &R, s: &mut [T], threads: usize, f: &F) {
        let length = s.len().div_ceil(threads.max(1)).max(1);
        std::thread::scope(|scope| {
            for (part, items) in s.chunks_mut(length).enumerate() {
                scope.spawn(move || {
                    for (k, item) in items.iter_mut().enumerate() {
                        f(part * length + k, item);
                    }
                });
            }
        });
    }
}
pub mod snapshot {
    /// The value at a time, of which code has nothing.
    pub struct Snapshot<T>(std::marker::PhantomData<T>);
    impl<T> Snapshot<T> {
        pub fn of(_: &T) -> Self {
            Snapshot(std::marker::PhantomData)
        }
    }
    unsafe impl<T> Send for Snapshot<T> {}
    unsafe impl<T> Sync for Snapshot<T> {}
}
pub mod atomic_table {
    use crate::{AllocError, Vec};
    use std::cell::UnsafeCell;
    use std::marker::PhantomData;
    use std::sync::atomic::{AtomicU64, Ordering::SeqCst};
    pub trait TableRule<S, V, K> {}
    pub trait Play<S, V> {}
    pub trait Split<V> {}
    pub trait Join<V> {}
    pub struct Seat<S, V>(PhantomData<(S, V)>);
    unsafe impl<S, V> Send for Seat<S, V> {}
    unsafe impl<S, V> Sync for Seat<S, V> {}
    pub struct Shared<S, V, K, P> {
        words: std::vec::Vec<AtomicU64>,
        slots: std::vec::Vec<UnsafeCell<S>>,
        marker: PhantomData<(V, K, P)>,
    }
    unsafe impl<S: Send, V, K, P> Sync for Shared<S, V, K, P> {}
    unsafe impl<S: Send, V, K, P> Send for Shared<S, V, K, P> {}
    pub struct Table<S, V, K, P, A> {
        pub shared: Shared<S, V, K, P>,
        marker: PhantomData<A>,
    }
    pub struct Closed<S, A> {
        words: std::vec::Vec<u64>,
        slots: std::vec::Vec<Option<S>>,
        marker: PhantomData<A>,
    }
    impl<S, V, K, P, A> Table<S, V, K, P, A> {
        pub fn new(_: A, words: &[u64], slots: Vec<S>, _: &K) -> Result<(Self, Seat<S, V>), AllocError> {
            let shared = Shared {
                words: words.iter().map(|word| AtomicU64::new(*word)).collect(),
                slots: slots.0.into_iter().map(UnsafeCell::new).collect(),
                marker: PhantomData,
            };
            Ok((Table { shared, marker: PhantomData }, Seat(PhantomData)))
        }
        pub fn close(self) -> Closed<S, A> {
            Closed {
                words: self.shared.words.into_iter().map(AtomicU64::into_inner).collect(),
                slots: self.shared.slots.into_iter().map(|slot| Some(slot.into_inner())).collect(),
                marker: PhantomData,
            }
        }
        pub fn close_with(self, _: Seat<S, V>) -> Closed<S, A> {
            self.close()
        }
    }
    impl<S, A> Closed<S, A> {
        pub fn word(&self, i: usize) -> u64 {
            self.words[i]
        }
        pub fn take(&mut self, i: usize) -> S {
            self.slots[i].take().unwrap()
        }
        pub fn free(self) {}
    }
    impl<S, V, K, P> Shared<S, V, K, P> {
        pub fn compare_exchange<Y>(&self, _: &mut Seat<S, V>, word: usize, old: u64, new: u64) -> u64 {
            self.words[word].compare_exchange(old, new, SeqCst, SeqCst).unwrap_or_else(|found| found)
        }
        pub fn store<Y>(&self, _: &mut Seat<S, V>, word: usize, new: u64) {
            self.words[word].store(new, SeqCst)
        }
        pub fn load<Y>(&self, _: &mut Seat<S, V>, word: usize) -> u64 {
            self.words[word].load(SeqCst)
        }
        pub fn peek(&self, word: usize) -> u64 {
            self.words[word].load(SeqCst)
        }
        /// The rule of the caller says that it alone has the slot.
        pub fn exchange(&self, _: &mut Seat<S, V>, slot: usize, value: S) -> S {
            unsafe { std::mem::replace(&mut *self.slots[slot].get(), value) }
        }
        pub fn split_seat<Y>(&self, _: &mut Seat<S, V>) -> Seat<S, V> {
            Seat(PhantomData)
        }
        pub fn join_seat<Y>(&self, _: &mut Seat<S, V>, _: Seat<S, V>) {}
        /// Sleeps so long where the word is this one; nobody ends it earlier.
        pub fn park_timeout<R>(&self, _: &R, word: usize, seen: u32, time: std::time::Duration) {
            if self.words[word].load(SeqCst) as u32 == seen {
                std::thread::sleep(time);
            }
        }
    }
}
pub mod crossbeam_deque {
    use crate::AllocError;
    use std::collections::VecDeque;
    use std::marker::PhantomData;
    use std::sync::{Arc, Mutex};
    pub mod protocol {
        pub trait Protocol<T, V> {}
        pub trait Outcome<T, V> {}
        pub trait Lesson<T, V> {}
        pub trait Split<V> {}
        pub trait Join<V> {}
    }
    pub struct Pass<T, V>(PhantomData<(T, V)>);
    unsafe impl<T, V> Send for Pass<T, V> {}
    unsafe impl<T, V> Sync for Pass<T, V> {}
    pub struct Worker<T, A, V, P>(Arc<Mutex<VecDeque<T>>>, PhantomData<(A, V, P)>);
    pub struct Stealer<T, A, V, P>(Arc<Mutex<VecDeque<T>>>, PhantomData<(A, V, P)>);
    unsafe impl<T: Send, A, V, P> Send for Worker<T, A, V, P> {}
    unsafe impl<T: Send, A, V, P> Sync for Worker<T, A, V, P> {}
    unsafe impl<T: Send, A, V, P> Send for Stealer<T, A, V, P> {}
    unsafe impl<T: Send, A, V, P> Sync for Stealer<T, A, V, P> {}
    pub enum Steal<T> {
        Success(T),
        Empty,
        Retry,
    }
    impl<T, A, V, P> Worker<T, A, V, P> {
        pub fn fifo_as(_: A, _: usize) -> Result<Self, AllocError> {
            Ok(Worker(Default::default(), PhantomData))
        }
        pub fn push_as<Y>(&mut self, x: T) -> Result<(), T> {
            self.0.lock().unwrap().push_back(x);
            Ok(())
        }
        pub fn pop_as<Y>(&mut self) -> Option<T> {
            self.0.lock().unwrap().pop_front()
        }
        pub fn len_as<Y>(&mut self) -> usize {
            self.0.lock().unwrap().len()
        }
        pub fn another<Y>(&mut self) -> Pass<T, V> {
            Pass(PhantomData)
        }
        pub fn absorb<Y>(&mut self, _: Pass<T, V>) {}
        pub fn stealer(&self) -> Result<Stealer<T, A, V, P>, AllocError> {
            Ok(Stealer(self.0.clone(), PhantomData))
        }
    }
    impl<T, A, V, P> Stealer<T, A, V, P> {
        pub fn steal_as<Y>(&self, _: &mut Pass<T, V>) -> Steal<T> {
            self.0.lock().unwrap().pop_front().map_or(Steal::Empty, Steal::Success)
        }
    }
}
pub mod bstr {
    use crate::{AllocError, Vec};
    pub trait ByteVec {
        fn push_byte(&mut self, byte: u8) -> Result<(), AllocError>;
        fn push_str<B: AsRef<[u8]>>(&mut self, bytes: B) -> Result<(), AllocError>;
    }
    pub trait ByteSlice {
        fn contains_str(&self, needle: &[u8]) -> bool;
        fn rfind(&self, needle: &[u8]) -> Option<usize>;
    }
    impl ByteSlice for [u8] {
        fn contains_str(&self, needle: &[u8]) -> bool {
            self.windows(needle.len()).any(|w| w == needle)
        }
        fn rfind(&self, needle: &[u8]) -> Option<usize> {
            self.windows(needle.len()).rposition(|w| w == needle)
        }
    }
    impl ByteVec for Vec<u8> {
        fn push_byte(&mut self, byte: u8) -> Result<(), AllocError> {
            Ok(self.push(byte)?)
        }
        fn push_str<B: AsRef<[u8]>>(&mut self, bytes: B) -> Result<(), AllocError> {
            self.extend_from_slice(bytes.as_ref())
        }
    }
}
pub mod itoa {
    /// Digits in a buffer on the stack, as the crate has it: four at a time up to 64 bits.
    pub struct Buffer([u8; 40]);
    pub trait Integer {
        fn parts(self) -> (bool, u128);
    }
    macro_rules! integers {
        ($($unsigned:ty, $signed:ty;)*) => {$(
            impl Integer for $unsigned {
                #[inline(always)]
                fn parts(self) -> (bool, u128) {
                    (false, self as u128)
                }
            }
            impl Integer for $signed {
                #[inline(always)]
                fn parts(self) -> (bool, u128) {
                    (self < 0, self.unsigned_abs() as u128)
                }
            }
        )*};
    }
    integers! { u8, i8; u16, i16; u32, i32; u64, i64; u128, i128; usize, isize; }
    static PAIRS: &[u8; 200] = b"00010203040506070809101112131415161718192021222324252627282930313233343536373839404142434445464748495051525354555657585960616263646566676869707172737475767778798081828384858687888990919293949596979899";
    #[inline]
    pub fn write_digits(n: u64, buf: &mut [u8], end: usize) -> usize {
        let mut left = n;
        let mut at = end;
        while left >= 10_000 {
            let four = left % 10_000;
            left /= 10_000;
            write_pair(four % 100, buf, at - 2);
            write_pair(four / 100, buf, at - 4);
            at -= 4;
        }
        if left >= 100 {
            write_pair(left % 100, buf, at - 2);
            left /= 100;
            at -= 2;
        }
        if left < 10 {
            buf[at - 1] = b'0' + left as u8;
            return at - 1;
        }
        write_pair(left, buf, at - 2);
        at - 2
    }
    #[inline(always)]
    fn write_pair(pair: u64, buf: &mut [u8], at: usize) {
        let from = pair as usize * 2;
        let (tens, ones) = (PAIRS[from], PAIRS[from + 1]);
        buf[at] = tens;
        buf[at + 1] = ones;
    }
    impl Buffer {
        #[inline(always)]
        pub fn new() -> Self {
            Buffer([0; 40])
        }
        #[inline]
        pub fn format<I: Integer>(&mut self, i: I) -> &str {
            let (negative, mut wide) = i.parts();
            let mut at = 40;
            while wide > u64::MAX as u128 {
                at -= 1;
                self.0[at] = b'0' + (wide % 10) as u8;
                wide /= 10;
            }
            let mut left = wide as u64;
            while left >= 100 {
                let pair = (left % 100) as usize * 2;
                left /= 100;
                at -= 2;
                self.0[at..at + 2].copy_from_slice(&PAIRS[pair..pair + 2]);
            }
            if left >= 10 {
                let pair = left as usize * 2;
                at -= 2;
                self.0[at..at + 2].copy_from_slice(&PAIRS[pair..pair + 2]);
            } else {
                at -= 1;
                self.0[at] = b'0' + left as u8;
            }
            if negative {
                at -= 1;
                self.0[at] = b'-';
            }
            unsafe { std::str::from_utf8_unchecked(&self.0[at..]) }
        }
    }
}
impl<T> Vec<T> {
    pub fn reserve(&mut self, n: usize) -> Result<(), AllocError> {
        self.0.reserve(n);
        Ok(())
    }
    #[inline(always)]
    pub fn push_reserved(&mut self, x: T) {
        self.0.push(x)
    }
}
impl<T> Vec<T> {
    pub fn append(&mut self, other: &mut Vec<T>) -> Result<(), AllocError> {
        self.0.append(&mut other.0);
        Ok(())
    }
    pub fn insert(&mut self, i: usize, x: T) -> Result<(), AllocError> {
        self.0.insert(i, x);
        Ok(())
    }
    pub fn remove(&mut self, i: usize) -> T {
        self.0.remove(i)
    }
}
impl String {
    pub fn into_bytes(self) -> Vec<u8> {
        Vec(self.0.into_bytes())
    }
}
pub fn args() -> Result<impl Iterator<Item = String>, AllocError> {
    Ok(std::env::args().map(String))
}
/// Up to so many items in the value itself, and more in a `Vec`; as the proved library's, an enum of the two, so that it has room for both
/// lengths.
pub enum SmallVec<T, const N: usize> {
    Inline([T; N], usize),
    Heap(Vec<T>),
}
impl<T: Default + Copy, const N: usize> SmallVec<T, N> {
    pub fn new(_: Global) -> Self {
        SmallVec::Inline([T::default(); N], 0)
    }
    fn inline_of(s: &[T]) -> Self {
        let mut items = [T::default(); N];
        items[..s.len()].copy_from_slice(s);
        SmallVec::Inline(items, s.len())
    }
    /// Keeps the `Vec` where it has room for more.
    pub fn from_vec(v: Vec<T>) -> Self {
        if v.capacity() <= N { Self::inline_of(&v) } else { SmallVec::Heap(v) }
    }
    pub fn from_slice(_: Global, s: &[T]) -> Result<Self, AllocError> {
        Ok(if s.len() <= N { Self::inline_of(s) } else { SmallVec::Heap(Vec(s.to_vec())) })
    }
    pub fn allocator(&self) -> &Global {
        &Global
    }
    #[inline(always)]
    pub fn as_slice(&self) -> &[T] {
        match self {
            SmallVec::Inline(items, length) => &items[..*length],
            SmallVec::Heap(v) => v,
        }
    }
}
