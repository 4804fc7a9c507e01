#!/bin/sh
# Times the heap calls of mutators beside a vector of atomic words without a journal, and beside a locked vector with a pushed journal entry,
# outside the merge gate: load, store and cas by 1, 2 and 4 threads, each on an object of its own, and all on one object.
# Makes a scratch repository of the crates and a small program, proves and builds the program (LLVM), and prints for each row the calls a second
# of the three, by the best of 5 passes, and the ratios of the times.
# Run it at any place of the repository:  sh bench/barrier.sh
# With the name of an older state, sh bench/barrier.sh REVISION takes st_rule, st_gate and st_barrier as they were then.
. "$(dirname "$0")/scratch.sh"

take st_barrier
if [ $# -gt 0 ]; then
    for crate in st_rule st_gate st_barrier; do
        rm -rf "$scratch/crates/$crate/src" "$scratch/crates/$crate/specs" "$scratch/crates/$crate/proofs"
        git -C "$top" archive "$1" "crates/$crate/src" "crates/$crate/specs" "crates/$crate/proofs" | tar -x -C "$scratch"
    done
fi
echo 'barrierbench may_wait=12: st_events st_rule st_gate st_barrier' >> "$scratch/crates.txt"
printf 'Handles allowed: Threads, Wait.\n' > "$scratch/HANDLES"
program=$scratch/crates/barrierbench
mkdir -p "$program/src" "$program/specs" "$program/proofs"

cat > "$program/src/acts.rt" <<'END_'
//! What is timed, and the errors of the program.

use st_events::{Event, NoMemory};
use std::alloc::{AllocError, AllocFailed};
use std::rt::Clock;
use std::time::Instant;

/// How many calls each thread makes in a pass.
pub const CALLS: u32 = 50_000;

/// A call of the heap.
#[derive(Clone, Copy, Debug, PartialEq, Eq)]
pub enum Act {
    Load,
    Store,
    /// From 0 to 0, so that each is done.
    Cas,
}

/// The event of a call, as it is pushed under the lock.
pub fn event_of(act: Act, m: u8, obj: u32, value: u64) -> Event {
    let field = 0;
    match act {
        Act::Load => Event::Load { m, obj, field, value },
        Act::Store => Event::Store { m, obj, field, value },
        Act::Cas => Event::Cas { m, obj, field, expect: 0, value, done: true },
    }
}

/// How long it is since then.
pub fn nanos_since<R: Clock>(rt: &R, start: Instant) -> Result<u64, Failed> {
    Ok(u64::try_from(start.elapsed(rt)?.as_nanos()).unwrap_or(u64::MAX))
}

/// Memory was refused, or the clock or the output failed.
#[derive(Clone, Copy, Debug)]
pub struct Failed;

impl From<NoMemory> for Failed {
    fn from(_no_memory: NoMemory) -> Failed {
        Failed
    }
}

impl From<AllocError> for Failed {
    fn from(_error: AllocError) -> Failed {
        Failed
    }
}

impl<T: Drop> From<AllocFailed<T>> for Failed {
    fn from(_error: AllocFailed<T>) -> Failed {
        Failed
    }
}

impl From<std::io::Error> for Failed {
    fn from(_error: std::io::Error) -> Failed {
        Failed
    }
}
END_

cat > "$program/specs/Lib.antt" <<'END_'
pub mod Using
END_
cat > "$program/specs/Using.antt" <<'END_'
-- What a thread keeps of its seat and its object between two calls.
use Rattle.std.specs.Prelude.{◌≡◌, ℕ, [], ◌∷◌, Some}
use Rattle.st_barrier.specs.Counting.{MayCount}
use Rattle.st_events.specs.declared.shapes.Kind.TheVariants.{Int}
use Rattle.st_events.specs.Heap.{class_at}
use Rattle.st_events.specs.Shape.{ShapeLists, kinds_of}
use Rattle.st_rule.specs.declared.tables.Shared.{Shared}
use Rattle.st_rule.specs.Draws.{heap_seen}
use Rattle.st_rule.specs.SeatValue.{SeatValue}

-- the object is of a class of one number
pub record IsNumber (obj : ℕ) (seat : SeatValue) : Type 0 where
  pub class : ℕ
  pub class_is : class_at (heap_seen seat.view) obj ≡ Some class
  pub kinds : kinds_of seat.view.terms.shape class ≡ Int ∷ []

-- the seat may make calls on the object
abbrev pub MayUse : {J : Type 0} → (J → ShapeLists) → Shared J → (obj : ℕ) → SeatValue → Type 0
MayUse meant shared obj seat = MayCount meant shared seat × IsNumber obj seat
END_
cat > "$program/proofs/Lib.antt" <<'END_'
pub mod UsingLemmas
END_
cat > "$program/proofs/UsingLemmas.antt" <<'END_'
-- An object of one number stays one, and takes every word.
use Rattle.std.proofs.Common.{◌≡◌, ℕ, ◌+◌, ◌≤◌, true, List, [], ◌∷◌, ◌++◌, Option, Some, None, sym, refl, ap, subst, ◌∙◌, append_assoc}
use Rattle.std.specs.Prelude.{IsSome, option_map}
use Rattle.barrierbench.specs.Using.{IsNumber, MayUse}
use Rattle.st_barrier.specs.Calls.{MayCall, HasCell, FitsCell, MakesEvent}
use Rattle.st_barrier.specs.Counting.{MayCount}
use Rattle.st_barrier.proofs.CountingLemmas.{number_cell, worked_by}
use Rattle.st_events.specs.declared.events.Event.{Event}
use Rattle.st_events.specs.declared.events.Event.TheVariants.{New}
use Rattle.st_events.specs.Heap.{Heap, Object, class_at, fresh, with_object}
use Rattle.st_events.specs.History.{heap_after}
use Rattle.st_events.specs.Legal.{IsLegal}
use Rattle.st_events.specs.Shape.{ShapeLists, kinds_of}
use Rattle.st_events.specs.Sound.{IsTypedHeap, Extends}
use Rattle.st_events.specs.World.{World}
use Rattle.st_events.proofs.ExtendsLemmas.{heap_extends}
use Rattle.st_events.proofs.SoundHeap.{object_put_here}
use Rattle.st_events.proofs.SoundLemmas.{legal_is_sound}
use Rattle.st_events.proofs.WorldLemmas.{world_after_one_more}
use Rattle.st_rule.specs.declared.tables.Shared.{Shared}
use Rattle.st_rule.specs.declared.views.Terms.{Terms}
use Rattle.st_rule.specs.Draws.{heap_seen}
use Rattle.st_rule.specs.Entries.{charge_spent}
use Rattle.st_rule.specs.Seats.{IsFair}
use Rattle.st_rule.specs.SeatValue.{SeatValue}

seen_typed : (seat : SeatValue) → IsFair seat → IsTypedHeap seat.view.terms.shape (heap_seen seat.view)
seen_typed seat fair = (legal_is_sound seat.view.terms.shape seat.view.terms.sizes fair.shape_fits seat.view.journal.seen fair.legal).typed

class_kept : (earlier later : Heap) (obj class : ℕ) → Extends earlier later → class_at earlier obj ≡ Some class → class_at later obj ≡ Some class
class_kept earlier later obj class extends is = there (earlier obj) refl is
  where
    there : (x : Option Object) → earlier obj ≡ x → option_map (λ (y : Object). y.class) x ≡ Some class → class_at later obj ≡ Some class
    there None none its = absurd cc
    there (Some x) some its = let y = extends.object obj x some in ap (option_map (λ (z : Object). z.class)) y.1 ∙ ap Some y.2 ∙ its

-- the shared object is one
pub shared_number : {J : Type 0} (meant : J → ShapeLists) (shared : Shared J) (seat : SeatValue) → MayCount meant shared seat → MayUse meant shared 1 seat
shared_number meant shared seat may = (may, record { class = 0; class_is = (seen_typed seat may.fair).shared; kinds = may.numbers.shared })

module _ {J : Type 0} (meant : J → ShapeLists) (shared : Shared J) (event : Event) (a b : SeatValue) (may : MayCount meant shared a) (made : MakesEvent event a b) (fair : IsFair b) where
  may_after : MayCount meant shared b
  may_after = (worked_by meant shared event a b may made fair).0

  rest : List Event
  rest = made.goes_on.0 ++ event ∷ []

  seen_is : a.view.journal.seen ++ rest ≡ b.view.journal.seen
  unfolding rest
  seen_is = sym (append_assoc a.view.journal.seen made.goes_on.0 (event ∷ [])) ∙ ap (λ es. es ++ event ∷ []) made.goes_on.1 ∙ sym made.seen

  extends : Extends (heap_seen a.view) (heap_seen b.view)
  extends =
      subst (λ (t : Terms). Extends (heap_after t.shape t.sizes a.view.journal.seen) (heap_seen b.view)) made.terms
      (subst (λ es. Extends (heap_after b.view.terms.shape b.view.terms.sizes a.view.journal.seen) (heap_after b.view.terms.shape b.view.terms.sizes es)) seen_is
      (heap_extends b.view.terms.shape b.view.terms.sizes fair.shape_fits a.view.journal.seen rest
      (subst (IsLegal b.view.terms.shape b.view.terms.sizes) (sym seen_is) fair.legal)))

  -- after a call
  pub used : (obj : ℕ) → IsNumber obj a → MayUse meant shared obj b
  used obj n = (may_after, record {
    class = n.class;
    class_is = class_kept (heap_seen a.view) (heap_seen b.view) obj n.class extends n.class_is;
    kinds = ap (λ (t : Terms). kinds_of t.shape n.class) made.terms ∙ n.kinds;
  })

-- an object that was just made is one
pub made_number :
    {J : Type 0} (meant : J → ShapeLists) (shared : Shared J) (m obj : ℕ) (a b : SeatValue) → MayCount meant shared a → MakesEvent (New m obj 1) a b → IsFair b
    → MayUse meant shared obj b
unfolding may_after
made_number meant shared m obj a b may made fair =
    let shape = b.view.terms.shape in
    let sizes = b.view.terms.sizes in
    let after = may_after meant shared (New m obj 1) a b may made fair in
    let heap : heap_seen b.view ≡ heap_after shape sizes (made.past ++ New m obj 1 ∷ []) = ap (heap_after shape sizes) made.seen in
    let more : heap_after shape sizes (made.past ++ New m obj 1 ∷ []) ≡ with_object (heap_after shape sizes made.past) obj (fresh shape 1) =
    ap (λ (w : World). w.heap) (world_after_one_more shape sizes made.past (New m obj 1)) in (
      after,
      record {
        class = 1;
        class_is = ap (λ (h : Heap). class_at h obj) (heap ∙ more) ∙ ap (option_map (λ (x : Object). x.class)) (object_put_here (heap_after shape sizes made.past) obj (fresh shape 1));
        kinds = after.numbers.first;
      },
    )

module _ {J : Type 0} (meant : J → ShapeLists) (shared : Shared J) (obj : ℕ) (seat : SeatValue) (may : MayUse meant shared obj seat) where
  both : HasCell seat obj 0 × ((word : ℕ) → FitsCell seat obj 0 word)
  both = number_cell seat.view.terms.shape (heap_seen seat.view) (seen_typed seat may.0.fair) obj may.1.class may.1.class_is may.1.kinds

  pub cell : HasCell seat obj 0
  cell = both.0

  pub fits : (word : ℕ) → FitsCell seat obj 0 word
  fits = both.1

  pub may_call : charge_spent seat.view + 1 ≤ seat.view.terms.sizes.events → MayCall seat
  may_call left = record { mutator = may.0.mutator; spare = left }
END_
answers() {
    mkdir -p "$program/proofs/table/$1"
    cat > "$program/proofs/table/$1/Answers.antt"
}
answers load_once <<'END_'
use Rattle.barrierbench.proofs.UsingLemmas.{cell, used, may_call}
use Rattle.st_events.specs.declared.events.Event.TheVariants.{Load}
use Rattle.barrierbench.proofs.table.load_once.Goals as goal

pub load-requires-clause-caller : goal.load-requires-clause-caller
load-requires-clause-caller g c = may_call g.J.Judge.meant c.args.shared.now c.args.obj c.args.inside.now.seat c.requires.may c.requires.spare

pub load-requires-clause-cell : goal.load-requires-clause-cell
load-requires-clause-cell g c = cell g.J.Judge.meant c.args.shared.now c.args.obj c.args.inside.now.seat c.requires.may

pub returns : goal.returns
returns g c =
    used g.J.Judge.meant c.args.shared.now (Load c.args.inside.now.seat.view.gate.number c.args.obj 0 c.load.result) c.args.inside.now.seat c.load.new.inside.seat
    c.requires.may.0 c.load.ensures.load.made c.load.ensures.fair c.args.obj c.requires.may.1
END_
answers store_once <<'END_'
use Rattle.barrierbench.proofs.UsingLemmas.{cell, fits, used, may_call}
use Rattle.st_events.specs.declared.events.Event.TheVariants.{Store}
use Rattle.barrierbench.proofs.table.store_once.Goals as goal

pub store-requires-clause-caller : goal.store-requires-clause-caller
store-requires-clause-caller g c = may_call g.J.Judge.meant c.args.shared.now c.args.obj c.args.inside.now.seat c.requires.may c.requires.spare

pub store-requires-clause-cell : goal.store-requires-clause-cell
store-requires-clause-cell g c = cell g.J.Judge.meant c.args.shared.now c.args.obj c.args.inside.now.seat c.requires.may

pub store-requires-clause-kind : goal.store-requires-clause-kind
store-requires-clause-kind g c = fits g.J.Judge.meant c.args.shared.now c.args.obj c.args.inside.now.seat c.requires.may 0

pub returns : goal.returns
returns g c =
    used g.J.Judge.meant c.args.shared.now (Store c.args.inside.now.seat.view.gate.number c.args.obj 0 0) c.args.inside.now.seat c.store.new.inside.seat
    c.requires.may.0 c.store.ensures.store c.store.ensures.fair c.args.obj c.requires.may.1
END_
answers cas_once <<'END_'
use Rattle.barrierbench.proofs.UsingLemmas.{cell, fits, used, may_call}
use Rattle.st_events.specs.declared.events.Event.TheVariants.{Cas}
use Rattle.barrierbench.proofs.table.cas_once.Goals as goal

pub cas-requires-clause-caller : goal.cas-requires-clause-caller
cas-requires-clause-caller g c = may_call g.J.Judge.meant c.args.shared.now c.args.obj c.args.inside.now.seat c.requires.may c.requires.spare

pub cas-requires-clause-cell : goal.cas-requires-clause-cell
cas-requires-clause-cell g c = cell g.J.Judge.meant c.args.shared.now c.args.obj c.args.inside.now.seat c.requires.may

pub cas-requires-clause-expected : goal.cas-requires-clause-expected
cas-requires-clause-expected g c = fits g.J.Judge.meant c.args.shared.now c.args.obj c.args.inside.now.seat c.requires.may 0

pub cas-requires-clause-kind : goal.cas-requires-clause-kind
cas-requires-clause-kind g c = fits g.J.Judge.meant c.args.shared.now c.args.obj c.args.inside.now.seat c.requires.may 0

pub returns : goal.returns
returns g c =
    used g.J.Judge.meant c.args.shared.now (Cas c.args.inside.now.seat.view.gate.number c.args.obj 0 0 0 c.cas.result) c.args.inside.now.seat c.cas.new.inside.seat
    c.requires.may.0 c.cas.ensures.cas.made c.cas.ensures.fair c.args.obj c.requires.may.1
END_
answers make_own <<'END_'
use Rattle.barrierbench.proofs.UsingLemmas.{made_number}
use Rattle.st_barrier.proofs.CountingLemmas.{first_declared}
use Rattle.barrierbench.proofs.table.make_own.Goals as goal

pub new-requires-clause-caller : goal.new-requires-clause-caller
new-requires-clause-caller g c = record { mutator = c.requires.may.mutator; spare = c.requires.spare }

pub new-requires-clause-declared : goal.new-requires-clause-declared
new-requires-clause-declared g c = first_declared c.args.inside.now.seat.view.terms.shape c.requires.may.numbers

pub returns : goal.returns
returns g c =
    made_number g.J.Judge.meant c.args.shared.now c.args.inside.now.seat.view.gate.number c.new.result c.args.inside.now.seat c.new.new.inside.seat c.requires.may
    c.new.ensures.new c.new.ensures.fair
END_
answers pick <<'END_'
use Rattle.barrierbench.proofs.UsingLemmas.{shared_number}
use Rattle.barrierbench.proofs.table.pick.Goals as goal

pub returns-else-own : goal.returns-else-own
returns-else-own g c = shared_number g.J.Judge.meant c.args.shared.now c.args.inside.now.seat c.requires
END_

mkdir -p "$program/proofs/table/act_often"
cat > "$program/proofs/table/act_often/Invariants.antt" <<'END_'
use Rattle.barrierbench.specs.Using.{MayUse}
use Rattle.barrierbench.proofs.table.act_often.Given as goal

abbrev pub invariant-loop : goal.invariant-loop
invariant-loop g l = record { may : MayUse g.J.Judge.meant l.shared l.obj l.inside.seat }
END_

cat > "$program/src/table.rt" <<'END_'
//! The calls on the shared table.
ghost use Rattle.std.specs.Prelude.{◌≡◌, ◌+◌, ◌≤◌, ◌<◌, [], IfOk};
ghost use Rattle.std.specs.Thread.{IsSync};
ghost use Rattle.barrierbench.specs.Using.{MayUse};
ghost use Rattle.st_barrier.specs.Counting.{HasNumbers, MayCount, MayWork};
ghost use Rattle.st_events.specs.Sizes.{AreWithinLimits};
ghost use Rattle.st_rule.specs.Entries.{charge_spent, objects_made};
ghost use Rattle.st_rule.specs.Rule.{first_view};
ghost use Rattle.st_rule.specs.Seats.{IsMain, IsSeatOf, sizes_of, terms_of};
ghost use Rattle.st_rule.specs.Turns.{split_one};

use crate::acts::{Act, CALLS, Failed, nanos_since};
use st_barrier::{cas, load, new, store};
use st_events::{Judge, NoMemory, SHARED_OBJECT, Sizes};
use st_gate::{Inside, enter, leave};
use st_rule::{MutSeat, Shared};
use std::alloc::Global;
use std::rt::Clock;
use std::sync::Wait;
use std::thread::{Threads, join};
use std::time::Instant;

pub fn sizes() -> Sizes
    ensures mutators { result.mutators ≡ 4 }
    ensures fits { AreWithinLimits result }
{
    Sizes {
        mutators: 4,
        lanes: 8,
        objects: 1,
        copies: 0,
        events: CALLS + 1,
        calls: 0,
    }
}

fn load_once<J: Judge, R: Wait>(rt: &R, shared: &Shared<J>, inside: &mut Inside<J>, obj: u32)
    requires may { MayUse J.meant shared.now obj inside.old.seat }
    requires spare { charge_spent inside.old.seat.view + 1 ≤ inside.old.seat.view.terms.sizes.events }
    ensures { MayUse J.meant shared.now obj inside.new.seat }
{
    load(rt, shared, inside, obj, 0);
}

fn store_once<J: Judge, R: Wait>(rt: &R, shared: &Shared<J>, inside: &mut Inside<J>, obj: u32)
    requires may { MayUse J.meant shared.now obj inside.old.seat }
    requires spare { charge_spent inside.old.seat.view + 1 ≤ inside.old.seat.view.terms.sizes.events }
    ensures { MayUse J.meant shared.now obj inside.new.seat }
{
    store(rt, shared, inside, obj, 0, 0);
}

fn cas_once<J: Judge, R: Wait>(rt: &R, shared: &Shared<J>, inside: &mut Inside<J>, obj: u32)
    requires may { MayUse J.meant shared.now obj inside.old.seat }
    requires spare { charge_spent inside.old.seat.view + 1 ≤ inside.old.seat.view.terms.sizes.events }
    ensures { MayUse J.meant shared.now obj inside.new.seat }
{
    cas(rt, shared, inside, obj, 0, 0, 0);
}

/// One call, as long as the charge lasts.
fn act_once<J: Judge, R: Wait>(
    rt: &R,
    shared: &Shared<J>,
    inside: &mut Inside<J>,
    obj: u32,
    act: Act,
)
    requires { MayUse J.meant shared.now obj inside.old.seat }
    ensures { MayUse J.meant shared.now obj inside.new.seat }
{
    if inside.seat.spare() >= 1 {
        match act {
            Act::Load => load_once(rt, shared, inside, obj),
            Act::Store => store_once(rt, shared, inside, obj),
            Act::Cas => cas_once(rt, shared, inside, obj),
        }
    }
}

fn act_often<J: Judge, R: Wait>(
    rt: &R,
    shared: &Shared<J>,
    inside: &mut Inside<J>,
    obj: u32,
    act: Act,
)
    requires { MayUse J.meant shared.now obj inside.old.seat }
    ensures { MayUse J.meant shared.now obj inside.new.seat }
{
    for _ in 0..CALLS {
        act_once(rt, shared, inside, obj, act);
    }
}

/// An object of the seat's own.
fn make_own<J: Judge>(shared: &Shared<J>, inside: &mut Inside<J>) -> u32
    requires may { MayCount J.meant shared.now inside.old.seat }
    requires spare { charge_spent inside.old.seat.view + 1 ≤ inside.old.seat.view.terms.sizes.events }
    requires room { objects_made inside.old.seat.view < inside.old.seat.view.terms.sizes.objects }
    ensures { MayUse J.meant shared.now result inside.new.seat }
{
    new(shared, inside, 1)
}

/// The object that the calls are made on.
fn pick<J: Judge>(shared: &Shared<J>, inside: &mut Inside<J>, own: bool) -> u32
    requires { MayCount J.meant shared.now inside.old.seat }
    ensures { MayUse J.meant shared.now result inside.new.seat }
{
    if own && inside.seat.spare() >= 1 && inside.seat.room() > 0 {
        make_own(shared, inside)
    } else {
        SHARED_OBJECT
    }
}

/// The calls of one thread.
fn work<J: Judge, R: Wait>(rt: &R, shared: &Shared<J>, seat: MutSeat<J>, act: Act, own: bool)
    requires { MayWork J.meant shared.now seat }
{
    let mut inside = enter(rt, shared, seat);
    let obj = pick(shared, &mut inside, own);
    act_often(rt, shared, &mut inside, obj, act);
    leave(shared, inside);
}

fn work_two<J: Judge + Sync + Send, R: Threads + Wait + Sync>(
    rt: &R,
    shared: &Shared<J>,
    one: MutSeat<J>,
    two: MutSeat<J>,
    act: Act,
    own: bool,
)
    requires one { MayWork J.meant shared.now one }
    requires two { MayWork J.meant shared.now two }
{
    join(
        rt,
        move ||
            requires { MayWork J.meant shared.now one }
        { work(rt, shared, one, act, own) },
        move ||
            requires { MayWork J.meant shared.now two }
        { work(rt, shared, two, act, own) },
    );
}

fn work_four<J: Judge + Sync + Send, R: Threads + Wait + Sync>(
    rt: &R,
    shared: &Shared<J>,
    front: (MutSeat<J>, MutSeat<J>),
    back: (MutSeat<J>, MutSeat<J>),
    act: Act,
    own: bool,
)
    requires front { MayWork J.meant shared.now front.0 × MayWork J.meant shared.now front.1 }
    requires back { MayWork J.meant shared.now back.0 × MayWork J.meant shared.now back.1 }
{
    join(
        rt,
        move ||
            requires { MayWork J.meant shared.now front.0 × MayWork J.meant shared.now front.1 × IsSync R.row }
        { work_two(rt, shared, front.0, front.1, act, own) },
        move ||
            requires { MayWork J.meant shared.now back.0 × MayWork J.meant shared.now back.1 × IsSync R.row }
        { work_two(rt, shared, back.0, back.1, act, own) },
    );
}

/// The calls of one, two or four threads, each of which makes as many.
fn work_by<J: Judge + Sync + Send, R: Threads + Wait + Sync>(
    rt: &R,
    shared: &Shared<J>,
    front: (MutSeat<J>, MutSeat<J>),
    back: (MutSeat<J>, MutSeat<J>),
    act: Act,
    own: bool,
    threads: u8,
)
    requires front { MayWork J.meant shared.now front.0 × MayWork J.meant shared.now front.1 }
    requires back { MayWork J.meant shared.now back.0 × MayWork J.meant shared.now back.1 }
{
    if threads == 1 {
        work(rt, shared, front.0, act, own);
        return;
    }
    if threads == 2 {
        work_two(rt, shared, front.0, front.1, act, own);
        return;
    }
    work_four(rt, shared, front, back, act, own);
}

/// The seats of the two mutators that come next.
fn next_two<J: Judge>(
    alloc: Global,
    shared: &Shared<J>,
    main: &mut MutSeat<J>,
    first: u8,
) -> Result<(MutSeat<J>, MutSeat<J>), NoMemory>
    requires table { IsSeatOf J.meant shared.now main.old }
    requires main { IsMain main.old }
    requires next { first ≡ main.old.view.gate.split }
    requires mutators { first + 2 ≤ main.old.view.terms.sizes.mutators }
    requires unseen { main.old.view.journal.seen ≡ [] }
    requires numbers { HasNumbers main.old.view.terms.shape }
    ensures table { IsSeatOf J.meant shared.now main.new }
    ensures main { IfOk result (λ _. main.new.view ≡ split_one (split_one main.old.view)) }
    ensures one { IfOk result (λ two. MayWork J.meant shared.now two.0) }
    ensures two { IfOk result (λ two. MayWork J.meant shared.now two.1) }
{
    let one = shared.split_mut(alloc, main, first)?;
    let two = shared.split_mut(alloc, main, first + 1)?;
    Ok((one, two))
}

/// How long the calls of these threads take.
pub fn nanos_of<J: Judge + Sync + Send, R: Threads + Wait + Sync + Clock>(
    rt: &R,
    alloc: Global,
    shared: &Shared<J>,
    mut main: MutSeat<J>,
    act: Act,
    own: bool,
    threads: u8,
) -> Result<u64, Failed>
    requires table { IsSeatOf J.meant shared.now main }
    requires first { main.view ≡ first_view (terms_of J.meant shared.now) }
    requires mutators { (sizes_of shared.now).mutators ≡ 4 }
    requires numbers { HasNumbers (terms_of J.meant shared.now).shape }
{
    let front = next_two(alloc, shared, &mut main, 0)?;
    let back = next_two(alloc, shared, &mut main, 2)?;
    let start = Instant::now(rt)?;
    work_by(rt, shared, front, back, act, own, threads);
    nanos_since(rt, start)
}
END_

cat > "$program/src/plain.rt" <<'END_'
//! The same on a vector of atomic words without a journal, and on a locked vector with a journal.
ghost use Rattle.std.specs.Thread.{IsSync};

use crate::acts::{Act, CALLS, event_of};
use st_events::Event;
use std::sync::atomic::{AtomicU64, Ordering};
use std::sync::{Mutex, Wait};
use std::thread::{Threads, join};

/// The places of the threads' words: as far apart as to lie in cache lines of their own, or all one.
fn places(own: bool) -> [usize; 4] {
    if own { [0, 16, 32, 48] } else { [0, 0, 0, 0] }
}

fn act_on(word: &AtomicU64, act: Act) -> u64 {
    match act {
        Act::Load => word.load(Ordering::SeqCst),
        Act::Store => {
            word.store(0, Ordering::SeqCst);
            0
        }
        Act::Cas => {
            let found = word.compare_exchange(0, 0, Ordering::SeqCst, Ordering::SeqCst);
            found.unwrap_or(1)
        }
    }
}

fn atomics(words: &Vec<AtomicU64>, place: usize, act: Act) -> u64 {
    let mut sum = 0u64;
    if let Some(word) = words.get(place) {
        for _ in 0..CALLS {
            sum = sum.wrapping_add(act_on(word, act));
        }
    }
    sum
}

fn atomics_two<R: Threads + Sync>(
    rt: &R,
    words: &Vec<AtomicU64>,
    one: usize,
    two: usize,
    act: Act,
) -> u64 {
    let (a, b) = join(
        rt,
        || -> u64 { atomics(words, one, act) },
        || -> u64 { atomics(words, two, act) },
    );
    a.wrapping_add(b)
}

pub fn atomics_by<R: Threads + Sync>(
    rt: &R,
    words: &Vec<AtomicU64>,
    act: Act,
    own: bool,
    threads: u8,
) -> u64 {
    let [one, two, three, four] = places(own);
    if threads == 1 {
        return atomics(words, one, act);
    }
    if threads == 2 {
        return atomics_two(rt, words, one, two, act);
    }
    let (a, b) = join(
        rt,
        || -> u64
            requires { IsSync R.row }
        { atomics_two(rt, words, one, two, act) },
        || -> u64
            requires { IsSync R.row }
        { atomics_two(rt, words, three, four, act) },
    );
    a.wrapping_add(b)
}

/// Words, and a journal of what was done.
#[derive(Drop)]
pub struct Journaled {
    pub words: Vec<u64>,
    pub journal: Vec<Event>,
}

impl Journaled {
    fn act(&mut self, act: Act, m: u8, place: usize) -> u64 {
        let mut found = 0;
        if let Some(word) = self.words.get_mut(place) {
            found = *word;
            match act {
                Act::Load => {}
                Act::Store => *word = 0,
                Act::Cas => {
                    if found == 0 {
                        *word = 0;
                    }
                }
            }
        }
        if self.journal.len() < self.journal.capacity() {
            self.journal.push_reserved(event_of(act, m, 1, found));
        }
        found
    }
}

fn locked<R: Wait>(rt: &R, heap: &Mutex<Journaled>, m: u8, place: usize, act: Act) -> u64 {
    let mut sum = 0u64;
    for _ in 0..CALLS {
        sum = sum.wrapping_add(heap.lock(rt).act(act, m, place));
    }
    sum
}

fn locked_two<R: Threads + Wait + Sync>(
    rt: &R,
    heap: &Mutex<Journaled>,
    m: u8,
    one: usize,
    two: usize,
    act: Act,
) -> u64 {
    let (a, b) = join(
        rt,
        || -> u64 { locked(rt, heap, m, one, act) },
        || -> u64 { locked(rt, heap, m, two, act) },
    );
    a.wrapping_add(b)
}

pub fn locked_by<R: Threads + Wait + Sync>(
    rt: &R,
    heap: &Mutex<Journaled>,
    act: Act,
    own: bool,
    threads: u8,
) -> u64 {
    let [one, two, three, four] = places(own);
    if threads == 1 {
        return locked(rt, heap, 0, one, act);
    }
    if threads == 2 {
        return locked_two(rt, heap, 0, one, two, act);
    }
    let (a, b) = join(
        rt,
        || -> u64
            requires { IsSync R.row }
        { locked_two(rt, heap, 0, one, two, act) },
        || -> u64
            requires { IsSync R.row }
        { locked_two(rt, heap, 1, three, four, act) },
    );
    a.wrapping_add(b)
}
END_

cat > "$program/src/main.rt" <<'END_'
//! Times the heap calls, atomic words and a locked heap.
#![tactic(auto)]

mod acts;
mod judges;
mod plain;
mod table;

use acts::{Act, CALLS, Failed, nanos_since};
use judges::judge_of_numbers;
use plain::{Journaled, atomics_by, locked_by};
use st_rule::Shared;
use std::alloc::Global;
use std::rt::Clock;
use std::sync::atomic::AtomicU64;
use std::sync::{Mutex, Wait};
use std::thread::Threads;
use std::time::Instant;
use table::{nanos_of, sizes};

const PASSES: u32 = 5;

/// A pass at a table of its own.
fn table_pass<R: Threads + Wait + Sync + Clock>(
    rt: &R,
    alloc: Global,
    act: Act,
    own: bool,
    threads: u8,
) -> Result<u64, Failed> {
    let judge = judge_of_numbers(alloc)?;
    let (shared, main) = Shared::make(alloc, &judge, &sizes())?;
    nanos_of(rt, alloc, &shared, main, act, own, threads)
}

fn atomics_pass<R: Threads + Sync + Clock>(
    rt: &R,
    alloc: Global,
    act: Act,
    own: bool,
    threads: u8,
) -> Result<u64, Failed> {
    let mut words = Vec::new(alloc);
    for _ in 0..64 {
        words.push(AtomicU64::new(0))?;
    }
    let start = Instant::now(rt)?;
    atomics_by(rt, &words, act, own, threads);
    nanos_since(rt, start)
}

fn locked_pass<R: Threads + Wait + Sync + Clock>(
    rt: &R,
    alloc: Global,
    act: Act,
    own: bool,
    threads: u8,
) -> Result<u64, Failed> {
    let heap = Mutex::new(Journaled {
        words: vec![in alloc; 0; 64]?,
        journal: Vec::with_capacity(alloc, 4 * CALLS as usize)?,
    });
    let start = Instant::now(rt)?;
    locked_by(rt, &heap, act, own, threads);
    nanos_since(rt, start)
}

/// The best pass of each.
#[derive(Clone, Copy, Debug)]
struct Best {
    table: u64,
    atomics: u64,
    locked: u64,
}

fn best_of<R: Threads + Wait + Sync + Clock>(
    rt: &R,
    alloc: Global,
    act: Act,
    own: bool,
    threads: u8,
) -> Result<Best, Failed> {
    let mut best = Best {
        table: u64::MAX,
        atomics: u64::MAX,
        locked: u64::MAX,
    };
    for _ in 0..PASSES {
        best.table = best.table.min(table_pass(rt, alloc, act, own, threads)?);
        best.atomics = best.atomics.min(atomics_pass(rt, alloc, act, own, threads)?);
        best.locked = best.locked.min(locked_pass(rt, alloc, act, own, threads)?);
    }
    Ok(best)
}

fn print_row<R: Print>(rt: &R, name: &str, threads: u8, best: Best) -> Result<(), Failed> {
    let calls = u64::from(CALLS).saturating_mul(u64::from(threads));
    let all = calls.saturating_mul(1_000_000_000);
    let to_atomics = best.table.saturating_mul(10).checked_div(best.atomics).unwrap_or(0);
    let to_locked = best.table.saturating_mul(10).checked_div(best.locked).unwrap_or(0);
    println!(rt;
        "{name:<20} {threads} {:>12} {:>12} {:>12} {:>5}.{} {:>5}.{}",
        all.checked_div(best.table).unwrap_or(0),
        all.checked_div(best.atomics).unwrap_or(0),
        all.checked_div(best.locked).unwrap_or(0),
        to_atomics / 10,
        to_atomics % 10,
        to_locked / 10,
        to_locked % 10
    )?;
    Ok(())
}

fn rows<R: Threads + Wait + Sync + Clock + Print>(
    rt: &R,
    alloc: Global,
    name: &str,
    act: Act,
    own: bool,
) -> Result<(), Failed> {
    print_row(rt, name, 1, best_of(rt, alloc, act, own, 1)?)?;
    print_row(rt, name, 2, best_of(rt, alloc, act, own, 2)?)?;
    print_row(rt, name, 4, best_of(rt, alloc, act, own, 4)?)
}

fn bench<R: Threads + Wait + Sync + Clock + Print>(rt: &R, alloc: Global) -> Result<(), Failed> {
    println!(rt; "call and threads: calls a second of the table, of atomic words, of a locked heap; the table's time to theirs")?;
    rows(rt, alloc, "load, own objects", Act::Load, true)?;
    rows(rt, alloc, "store, own objects", Act::Store, true)?;
    rows(rt, alloc, "cas, own objects", Act::Cas, true)?;
    rows(rt, alloc, "load, one object", Act::Load, false)?;
    rows(rt, alloc, "store, one object", Act::Store, false)?;
    rows(rt, alloc, "cas, one object", Act::Cas, false)
}

fn main(rt: HostRuntime) -> Result<(), Failed> {
    bench(&rt, rt.alloc())
}
END_

# The judge of the tests, which stand in another place in older states.
judges="$top/crates/tests_table/src/tests/judges.rt"
[ -f "$judges" ] || judges="$top/crates/st_barrier/src/tests.rt"
{
    printf '//! A judge to whom no verdict is right.\nghost use Rattle.std.specs.Prelude.{IfOk};\nghost use Rattle.st_barrier.specs.Counting.{HasNumbers};\n\n'
    printf 'use crate::acts::Failed;\nuse st_events::{Judge, Kind, Shape};\nuse std::alloc::{AllocError, Global};\nuse std::marker::Model;\n\n'
    sed -n '/^\/\/\/ A judge to whom/,/^\/\/\/ A table of four mutators/p' "$judges" | sed -e '/^\/\/\/ A table of four/d' \
        -e '/^\/\/\/ A judge of a program with no field/,$d' -e 's/^struct Silent/pub struct Silent/' -e 's/^fn judge_of/pub fn judge_of/' -e 's/Fail> *$/Failed>/' -e 's/Err(Fail::from("the shape fits"))/Err(Failed)/'
} > "$program/src/judges.rt"

cd "$program"
rt run > "$scratch/out" 2> "$scratch/log" || { tail -40 "$scratch/log"; exit 1; }
cat "$scratch/out"
