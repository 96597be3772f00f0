/* The race of examples/races/late-use.svr, by hand: an ask, a use and an unmapping, and a look at the frame, in every
   order. What is kept is what these can change. `spin -DCLAIM=N -a` asks claim N of the race: pan finds an error where
   a `sometimes` holds, or where another claim fails. */

#define MAPPED 0
#define WITHHELD 1
#define FREE 2

/* Lines that were taken, and what the look was answered. */
bit asked, used, unmapped, looked;
byte seen;
/* Messages in flight; and whether the completion has the translation. */
bit request, completion, carries, invalidate, invalidated;
/* The endpoint: its request is out, and doomed; it holds the translation; its use runs; the invalidation has noted
   that; it was taken. */
bit out, doomed, held, running, noted, taken;
/* The host: where the frame is; the queue, 1 with the range and its wait, 2 with the wait; whether an ITag is busy */
byte frame, queue;
bit busy;

#define USABLE (held || running || (completion && carries && out && !doomed))

#if CLAIM == 1
#define FOUND (looked && seen == FREE && USABLE)
#elif CLAIM == 2
#define FOUND (unmapped && USABLE)
#elif CLAIM == 3
#define FOUND (looked && seen == WITHHELD && USABLE)
#elif CLAIM == 4
#define FOUND_AT_END USABLE
#elif CLAIM == 5
#define FOUND_AT_END (!used)
#endif

active proctype race() {
  do
  /* lines */
  :: atomic { !asked -> asked = 1; out = 1; request = 1 }
  :: atomic { asked && !used && held -> used = 1; running = 1; noted = 0 }
  :: atomic { !unmapped -> unmapped = 1; frame = WITHHELD; queue = 1 }
  :: atomic { !looked -> looked = 1; seen = frame }
  /* link */
  :: atomic { request -> request = 0; completion = 1; carries = (frame == MAPPED) }
  :: atomic { completion -> completion = 0; held = (held || (carries && !doomed)); carries = 0; out = 0; doomed = 0 }
  :: atomic { invalidate -> invalidate = 0; taken = 1; held = 0; doomed = out; noted = running }
  :: atomic { invalidated -> invalidated = 0; busy = 0 }
  /* unit */
  :: atomic { queue == 1 -> queue = 2; busy = 1; invalidate = 1 }
  :: atomic { queue == 2 && !busy -> queue = 0; frame = FREE }
  /* endpoint */
  :: atomic { running -> running = 0; noted = 0 }
  :: atomic { taken && !noted -> taken = 0; invalidated = 1 }
  :: else -> break
  od;
#ifdef FOUND_AT_END
  assert(!(FOUND_AT_END))
#endif
}

#ifdef FOUND
never { do :: assert(!(FOUND)) od }
#endif
