// ---- Appended by rust/oracle/build.rs. Everything above this line is the original, but for the
// one line that says that it was inserted. ----

/// Where the static is that stands inside `reserve_default_arena_on_miss`.
static REACHED_RESERVE: AtomicPtr<AtomicUsize> = AtomicPtr::new(ptr::null_mut());

fn reach_reserve(reserve: &'static AtomicUsize) {
    REACHED_RESERVE.store(ptr::from_ref(reserve).cast_mut(), Ordering::Relaxed);
}

/// 0 idle, 1 reserving, 2 given up. Wants the option 23 to be 0 when it is called first.
fn reserve_latch() -> &'static AtomicUsize {
    if REACHED_RESERVE.load(Ordering::Relaxed).is_null() {
        let reserved = reserve_default_arena_on_miss();
        assert!(!reserved, "a reserve of 0 bytes reserves nothing");
    }
    // SAFETY: the address of a static, stored by the call above.
    unsafe { &*REACHED_RESERVE.load(Ordering::Relaxed) }
}

/// The plain content of an arena's descriptor.
#[derive(Clone, Copy, Debug, PartialEq, Eq)]
pub struct Record {
    pub base: u64,
    pub chunks: usize,
    pub exclusive: bool,
    pub owned: bool,
    pub node: i32,
    pub deadline: u32,
    pub used: [u32; 32],
    pub dirty: [u32; 32],
    pub committed: [u32; 32],
    pub pending: [u32; 32],
}

/// The empty layer: no arena, no give-up mark.
pub fn reset() {
    reserve_latch().store(0, Ordering::Relaxed);
    MULTI_LOCK.store(false, Ordering::Relaxed);
    ARENA_COUNT.store(0, Ordering::Relaxed);
    for arena in &ARENAS {
        arena.store(ptr::null_mut(), Ordering::Relaxed);
    }
}

pub fn count() -> usize {
    ARENA_COUNT.load(Ordering::Relaxed)
}

/// Whether default reserves are given up.
pub fn mark() -> bool {
    reserve_latch().load(Ordering::Relaxed) == 2
}

pub fn set_mark(mark: bool) {
    reserve_latch().store(if mark { 2 } else { 0 }, Ordering::Relaxed);
}

/// A layer's statics: its arenas in their order, and the latch of its default reserves.
#[derive(Default)]
pub struct Statics {
    arenas: Vec<*mut Arena>,
    latch: usize,
}

/// Takes the layer out of the statics and leaves the empty one there.
pub fn take() -> Statics {
    let standing = ARENAS.iter().take(count());
    let taken = Statics {
        arenas: standing.map(|a| a.load(Ordering::Relaxed)).collect(),
        latch: reserve_latch().load(Ordering::Relaxed),
    };
    reset();
    taken
}

/// Puts a layer that was taken out where the empty one stands.
pub fn put(layer: Statics) {
    reserve_latch().store(layer.latch, Ordering::Relaxed);
    append(layer.arenas);
}

/// Appends the arenas of a layer that was taken out, as they are, under the next ids. Default reserves
/// stay given up only if they are in both.
pub fn join(second: Statics) {
    set_mark(mark() && second.latch == 2);
    append(second.arenas);
}

fn append(arenas: Vec<*mut Arena>) {
    let count = count();
    for (place, arena) in ARENAS[count..].iter().zip(&arenas) {
        place.store(*arena, Ordering::Relaxed);
    }
    ARENA_COUNT.store(count + arenas.len(), Ordering::Relaxed);
}

/// The arena with this id, which must stand.
pub fn record(id: usize) -> Record {
    let a = live(id);
    let map =
        |words: &[AtomicBitWord; 32]| core::array::from_fn(|w| words[w].load(Ordering::Relaxed));
    Record {
        base: a.base.addr() as u64,
        chunks: a.chunks_live.load(Ordering::Relaxed),
        exclusive: a.exclusive,
        owned: a.owned,
        node: a.numa_node,
        deadline: a.purge_due_ms.load(Ordering::Relaxed),
        used: map(&a.used),
        dirty: map(&a.dirty),
        committed: map(&a.committed),
        pending: map(&a.purge_pending),
    }
}

/// Lets `look` at the stamps of the arena with this id, which must stand; it must not call the layer.
pub fn with_stamps<T>(id: usize, look: impl FnOnce(&[u32; MAX_CHUNKS]) -> T) -> T {
    let stamps = ptr::from_ref(&live(id).freed_ms).cast();
    // SAFETY: an `AtomicU32` has the layout of its number, and nothing writes it meanwhile.
    look(unsafe { &*stamps })
}

/// One arena more, with this content.
pub fn push(record: &Record, stamps: &[u32]) {
    let registered = arena_register(
        ptr::without_provenance_mut(record.base as usize),
        record.chunks * SEGMENT_SIZE,
        record.exclusive,
        record.owned,
        record.node,
        false,
    );
    let id = registered.expect("a sound record");
    let a = live(id as usize);
    a.purge_due_ms.store(record.deadline, Ordering::Relaxed);
    let maps = [
        (&a.used, &record.used),
        (&a.dirty, &record.dirty),
        (&a.committed, &record.committed),
        (&a.purge_pending, &record.pending),
    ];
    let stamped = a.freed_ms.iter().zip(stamps);
    let words = maps.into_iter().flat_map(|(to, from)| to.iter().zip(from));
    for (to, from) in words.chain(stamped) {
        to.store(*from, Ordering::Relaxed);
    }
}

fn live(id: usize) -> &'static Arena {
    // SAFETY: descriptors stay as long as their pointers stand in the table.
    unsafe { ARENAS[id].load(Ordering::Relaxed).as_ref() }.expect("an arena that stands")
}

pub fn now() -> u32 {
    now_ms()
}

pub fn delay() -> u32 {
    delay_ms()
}

/// The deadline that `arm` leaves where `deadline` stood.
pub fn armed(deadline: u32, due: u32) -> u32 {
    // SAFETY: all zeros are a descriptor, as in `arena_register`.
    let arena: Arena = unsafe { core::mem::zeroed() };
    arena.purge_due_ms.store(deadline, Ordering::Relaxed);
    arm(&arena, due);
    arena.purge_due_ms.into_inner()
}

/// `adopt_os_block`, which the original keeps inside its crate.
pub fn adopt(ptr: *mut u8, size: usize) -> Option<i32> {
    adopt_os_block(ptr, size)
}
