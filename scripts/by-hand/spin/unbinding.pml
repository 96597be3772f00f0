/* The race of unbinding.svr, by hand: an unbinding beside an unmapping and a page request, while the endpoint holds a
   translation. What is kept is what these can change. `spin -DCLAIM=N -a` asks claim N of the race: pan finds an error
   where a `sometimes` holds, or where another claim fails. */

/* The stages of the binding. */
#define LIVE 0
#define STOPPING 1
#define DRAINING 2
#define INVALIDATING 3
#define QUIET 4
#define RELEASED 5
/* Where the frame is: at a page, withheld until the wait of the unmapping or that of the binding, free. */
#define MAPPED 0
#define BY_UNMAPPING 1
#define BY_BINDING 2
#define FREE 3
/* Descriptors: an invalidation of the page, with a wait; of the PASID, with a wait; the wait that drains. */
#define RANGE 1
#define RANGE_WAIT 2
#define ALL 3
#define ALL_WAIT 4
#define DRAIN 5
/* The PASID at the endpoint: on, stopping, off. */
#define ON 0
#define TO_STOP 1
#define OFF 2

/* Lines that were taken, but those of the driver, which the stage tells. */
bit unmapped, faulted;
/* The host: binding, frame, queue, page request queue, job, hand; which waits are done; an open group; the ITag. */
byte stage, frame;
chan queue = [5] of { byte };
bit marked, drained, invalidated_all, waiting, job, hand, group, busy;
bit was_invalid;
/* Messages in flight. */
bit stop, marker, page_request, response, invalidate, invalidated;
/* The endpoint: the PASID, the translation, the invalidation that it has taken. */
byte pasid;
bit held = 1, taken;

#if CLAIM == 1
#define FOUND (frame == FREE && held)
#elif CLAIM == 2
#define FOUND (stage >= QUIET && held)
#elif CLAIM == 3
#define FOUND (stage >= DRAINING && held)
#elif CLAIM == 4
#define FOUND (stage >= DRAINING && was_invalid)
#elif CLAIM == 5
#define FOUND_AT_END (stage != RELEASED)
#elif CLAIM == 6
#define FOUND_AT_END (!faulted)
#endif

active proctype race() {
  do
  /* driver */
  :: atomic { stage == LIVE -> stage = STOPPING; stop = 1 }
  :: atomic { stage == STOPPING && marked -> stage = DRAINING; marked = 0; queue!DRAIN }
  :: atomic { stage == DRAINING && drained && !group -> stage = INVALIDATING; drained = 0; queue!ALL; queue!ALL_WAIT }
  :: atomic { stage == INVALIDATING && invalidated_all -> stage = QUIET; invalidated_all = 0 }
  :: atomic { stage == QUIET -> stage = RELEASED }
  /* memory */
  :: atomic { !unmapped ->
       unmapped = 1;
       if
       :: stage <= DRAINING -> frame = BY_UNMAPPING; queue!RANGE; queue!RANGE_WAIT
       :: stage == INVALIDATING && !invalidated_all -> frame = BY_BINDING
       :: else -> frame = FREE
       fi }
  /* endpoint */
  :: atomic { !faulted && pasid == ON -> faulted = 1; page_request = 1 }
  :: atomic { pasid == TO_STOP -> pasid = OFF; marker = 1 }
  :: atomic { taken -> taken = 0; invalidated = 1 }
  /* link */
  :: atomic { stop -> stop = 0; pasid = TO_STOP }
  :: atomic { page_request -> page_request = 0; waiting = 1 }
  :: atomic { marker && !page_request -> marker = 0; marked = 1 }
  :: atomic { response -> response = 0 }
  :: atomic { invalidate -> invalidate = 0; held = 0; taken = 1 }
  :: atomic { invalidated -> invalidated = 0; busy = 0 }
  /* unit */
  :: atomic { queue?[RANGE] && !busy -> queue?RANGE; busy = 1; invalidate = 1 }
  :: atomic { queue?[ALL] && !busy -> queue?ALL; busy = 1; invalidate = 1 }
  :: atomic { queue?[RANGE_WAIT] && !busy ->
       queue?RANGE_WAIT;
       if :: frame == BY_UNMAPPING -> frame = FREE :: else fi }
  :: atomic { queue?[ALL_WAIT] && !busy ->
       queue?ALL_WAIT; invalidated_all = 1;
       if :: frame == BY_BINDING -> frame = FREE :: else fi }
  :: atomic { queue?[DRAIN] && !busy && !waiting -> queue?DRAIN; drained = 1 }
  :: atomic { waiting -> waiting = 0; group = 1; job = 1 }
  /* worker: the lowest free frame is mapped, which may be this one again */
  :: atomic { job && !hand -> job = 0; hand = 1 }
  :: atomic { hand ->
       hand = 0; group = 0; response = 1;
       if
       :: stage == LIVE && frame == FREE -> frame = MAPPED
       :: stage == LIVE && frame != FREE
       :: else -> was_invalid = 1
       fi }
  :: else -> break
  od;
#ifdef FOUND_AT_END
  assert(!(FOUND_AT_END))
#endif
}

#ifdef FOUND
never { do :: assert(!(FOUND)) od }
#endif
