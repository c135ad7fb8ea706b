/* The lock of crates/turn_lock with its door, and the waits of crates/vt_hub: nobody sleeps for ever.
   README.md beside it has what each part stands for; dev/checks/check_models.py runs it.

   CALLERS   how many callers there are
   WAITS     1: a call may be answered Wait, 2: caller 0 makes such calls, caller 1 ends waits, the others do neither
   SEALS     1: a call may find no room, which stops the hub
   DIES      1: a caller that was called in may end before it draws a ticket
   MUTATION  the planted mistake, 0 for none

   Each caller makes any number of calls, and may stop for good between any two. Words are kept as differences,
   so nothing wraps: tickets are counted from `serving`, numbers of the door from `entered`. */
#ifndef CALLERS
#define CALLERS 3
#endif
#ifndef WAITS
#define WAITS 0
#endif
#ifndef SEALS
#define SEALS 0
#endif
#ifndef DIES
#define DIES 0
#endif
#ifndef MUTATION
#define MUTATION 0
#endif

#define NO_EXCHANGE            1
#define NO_RING_AT_THE_DOOR    2
#define DOOR_LOOKS_FIRST       3
#define LOCK_BEFORE_NUMBER     4
#define FREE_CALLS_NOBODY      5
#define LEAVE_CALLS_NOBODY     6
#define NO_RING_FOR_A_TICKET   7
#define TICKET_LOOKS_FIRST     8
#define CALLS_NOW_AND_THEN     9
#define RING_BEFORE_SERVING    10
#define CALL_BEFORE_SERVING    11
#define ENTERED_NOT_COUNTED    12
#define SEAL_RINGS_NOBODY      13
#define HUB_LOOKS_FIRST        14
#define NEXT_BEFORE_SERVING    15
#define DUE_WITH_NOBODY_COMING 16

#define is(mistake) (MUTATION == mistake)

/* Where a caller is. */
#define BETWEEN 0
#define AT_DOOR 1
#define QUEUED  2
#define INSIDE  3
#define LEAVES  4
#define ASLEEP  5     /* at its own bell of the hub, after a turn that found its ticket open */
#define OVER    6

/* A wait at a bell. */
#define NONE      0
#define BY_TICKET 1
#define BY_NUMBER 2
#define BY_CALLER 1
#define ENDED     3

/* What was read, and how often the word has moved since: at most twice counts. */
#define UNREAD 3

byte next;                  /* next - serving */
bit home = 1;               /* the value lies in its slot */
byte came;                  /* came - entered */
byte called;                /* called - entered */

byte place[CALLERS];
byte ticket[CALLERS];       /* less serving */
byte number[CALLERS];       /* less entered */
byte wait[CALLERS];         /* at a bell of the lock or of the door */
byte own[CALLERS];          /* at the caller's own bell, which is the hub's */
byte served_by[CALLERS];    /* UNREAD, 0 while `serving` is as this caller read it, else 1 */
byte called_by[CALLERS];    /* the same of `called`, up to 2 */
byte late_ticket[CALLERS];  /* 1 from the add to `serving` until the ring, 2 if another add came between */
byte late_number[CALLERS];  /* the same from the exchange of `called` */
byte early[CALLERS];        /* NEXT_BEFORE_SERVING: 1 + next - serving as it was read, 0 unread, 99 passed */
bit open[CALLERS];          /* the caller's ticket in the world */
bit sealed;

inline end_waits(kind, of_all) {
	x = 0;
	do
	:: x < CALLERS ->
	   if
	   :: wait[x] == kind && (of_all || (kind == BY_TICKET -> ticket[x] == 0 : number[x] == 0)) -> wait[x] = ENDED
	   :: else
	   fi;
	   x++
	:: else -> break
	od;
	x = 0
}

/* A ring: of the number that it is for, or, if that has passed meanwhile, of one that shares the bell, or of none. */
inline ring(kind, late) {
	if
	:: d_step { late == 1 -> end_waits(kind, false); late = 0 }
	:: d_step { late == 2 -> late = 0 }
	:: d_step { late == 2 -> end_waits(kind, true); late = 0 }
	fi
}

/* Whether a ticket is out. */
inline look_at_lock() {
#if is(NEXT_BEFORE_SERVING)
	early[me] = next + 1;
	d_step { taken = (early[me] != 1); early[me] = 0 }
#else
	served_by[me] = 0;
	d_step { taken = (served_by[me] != 0 || next != 0); served_by[me] = UNREAD }
#endif
}

/* Whether it is kept free for one that was called in: the bound may be reached at any time. */
inline look_who_is_due() {
	due = 0;
#if is(DUE_WITH_NOBODY_COMING)
	if :: !taken -> due = 1 :: skip fi
#else
	if
	:: !taken ->
	   called_by[me] = 0;
	   d_step { due = (called != called_by[me]); called_by[me] = UNREAD }
	:: skip
	fi
#endif
}

inline call_in() {
	called_by[me] = 0;
	if
	:: d_step { called != called_by[me] -> called_by[me] = UNREAD }
	:: called == called_by[me] ->
	   if
	   :: d_step { called_by[me] == 0 && came == called -> called_by[me] = UNREAD }
	   :: called_by[me] != 0 || came != called ->
	      d_step {
	        if
	        :: called_by[me] == 0 || is(NO_EXCHANGE) ->
	           x = 0;
	           do
	           :: x < CALLERS ->
	              if :: called_by[x] < 2 -> called_by[x]++ :: else fi;
	              x++
	           :: else -> break
	           od;
	           x = 0;
	           called++;
	           late_number[me] = 1
	        :: else
	        fi;
	        called_by[me] = UNREAD
	      };
	      assert(called <= 1);
	      if
#if is(NO_RING_AT_THE_DOOR)
	      :: late_number[me] != 0 -> late_number[me] = 0
#else
	      :: late_number[me] != 0 -> ring(BY_NUMBER, late_number[me])
#endif
	      :: late_number[me] == 0
	      fi
	   fi
	fi
}

/* The caller that was called in comes in: `entered` moves. */
inline comes_in() {
#if !is(ENTERED_NOT_COUNTED)
	x = 0;
	do
	:: x < CALLERS ->
	   if :: late_number[x] == 1 -> late_number[x] = 2 :: else fi;
	   if :: place[x] == AT_DOOR && number[x] > 0 -> number[x]-- :: else fi;
	   x++
	:: else -> break
	od;
	x = 0;
	called--;
	came--;
#endif
	number[me] = 0;
	wait[me] = NONE
}

inline wait_at_door() {
	do
	:: skip;
#if is(DOOR_LOOKS_FIRST)
	   if
	   :: d_step { called > number[me] -> comes_in() }; break
	   :: called <= number[me]
	   fi;
	   wait[me] = BY_NUMBER;
#else
	   wait[me] = BY_NUMBER;
	   if
	   :: d_step { called > number[me] -> assert(number[me] == 0); comes_in() }; break
	   :: called <= number[me]
	   fi;
#endif
	   d_step { wait[me] == ENDED -> wait[me] = NONE }
	od
}

inline stand_aside() {
	do
	:: look_at_lock();
	   look_who_is_due();
	   if
	   :: d_step { !taken && !due -> skip } -> goto draws
	   :: d_step { taken || due -> taken = 0; due = 0 }
	   :: d_step { taken || due -> taken = 0; due = 0 }; break
	   fi
	od;
	due = 0;
#if is(LOCK_BEFORE_NUMBER)
	look_at_lock();
#endif
	d_step { number[me] = came; came++; place[me] = AT_DOOR };
#if !is(LOCK_BEFORE_NUMBER)
	look_at_lock();
#endif
	if
	:: d_step { taken -> taken = 0 }
	:: !taken ->
#if is(FREE_CALLS_NOBODY)
	   skip
#else
	   call_in()
#endif
	fi;
	wait_at_door();
draws:	due = 0
}

inline enter() {
	stand_aside();
#if DIES
	if :: skip :: place[me] == AT_DOOR -> goto over fi;
#endif
	d_step {
		ticket[me] = next;
		next++;
		place[me] = QUEUED;
		x = 0;
		do
		:: x < CALLERS ->
		   assert(x == me || (place[x] != QUEUED && place[x] != INSIDE) || ticket[x] != ticket[me]);
		   x++
		:: else -> break
		od;
		x = 0
	};
	do
	:: skip;
#if is(TICKET_LOOKS_FIRST)
	   if
	   :: d_step { ticket[me] == 0 -> assert(home); home = 0; place[me] = INSIDE }; break
	   :: ticket[me] != 0
	   fi;
	   wait[me] = BY_TICKET;
#else
	   wait[me] = BY_TICKET;
	   if
	   :: d_step { ticket[me] == 0 -> wait[me] = NONE; assert(home); home = 0; place[me] = INSIDE }; break
	   :: ticket[me] != 0
	   fi;
#endif
	   d_step { wait[me] == ENDED -> wait[me] = NONE }
	od
}

inline leave() {
	d_step { assert(!home && ticket[me] == 0); home = 1; place[me] = LEAVES; ticket[me] = 0 };
#if is(RING_BEFORE_SERVING)
	d_step {
		x = 0;
		do
		:: x < CALLERS -> if :: wait[x] == BY_TICKET && ticket[x] == 1 -> wait[x] = ENDED :: else fi; x++
		:: else -> break
		od;
		x = 0
	};
#endif
#if is(CALL_BEFORE_SERVING)
	call_in();
#endif
	d_step {
		next--;
		x = 0;
		do
		:: x < CALLERS ->
		   if :: served_by[x] == 0 -> served_by[x] = 1 :: else fi;
		   if :: late_ticket[x] == 1 -> late_ticket[x] = 2 :: else fi;
		   if
		   :: early[x] == 1 -> early[x] = 99
		   :: early[x] > 1 && early[x] != 99 -> early[x]--
		   :: else
		   fi;
		   if :: place[x] == QUEUED -> ticket[x]-- :: else fi;
		   x++
		:: else -> break
		od;
		x = 0;
		late_ticket[me] = 1
	};
#if is(RING_BEFORE_SERVING) || is(NO_RING_FOR_A_TICKET)
	late_ticket[me] = 0;
#else
	ring(BY_TICKET, late_ticket[me]);
#endif
#if is(CALLS_NOW_AND_THEN)
	if :: call_in() :: skip fi
#elif is(LEAVE_CALLS_NOBODY) || is(CALL_BEFORE_SERVING)
	skip
#else
	call_in()
#endif
}

/* What a turn of the hub comes to. */
#define DONE 0
#define WAIT 1
#define FULL 2

/* The call in the world: it ends waits, is answered Wait, finds no room, or does none of these. */
inline step() {
	if
	:: sealed -> answer = FULL
	:: !sealed && open[me] -> assert(ends); answer = WAIT
	:: !sealed && !open[me] ->
	   answer = DONE;
	   if
	   :: skip
#if SEALS
	   :: sealed = 1; answer = FULL
#endif
	   :: !ends && (WAITS == 1 || (WAITS == 2 && me == 0)) -> open[me] = 1; answer = WAIT
	   :: !ends && (WAITS == 1 || (WAITS == 2 && me == 1)) ->
	      x = 0;
	      do
	      :: x < CALLERS -> if :: open[x] -> ended = ended | (1 << x); open[x] = 0 :: else fi; x++
	      :: else -> break
	      od;
	      x = 0
	   fi
	fi;
#if is(SEAL_RINGS_NOBODY)
	skip
#else
	if :: answer == FULL -> ended = (1 << CALLERS) - 1 :: else fi
#endif
}

inline turn() {
	enter();
#if WAITS
	atomic { step() };
#endif
	leave();
#if WAITS
	do                             /* the bells of the callers whose tickets it ended, one after another */
	:: d_step {
	     ended != 0 ->
	     x = 0;
	     do :: !(ended & (1 << x)) -> x++ :: else -> break od;
	     ended = ended - (1 << x);
	     if :: own[x] == BY_CALLER -> own[x] = ENDED :: else fi;
	     x = 0
	   }
	:: ended == 0 -> break
	od;
#endif
	place[me] = BETWEEN
}

/* The sleep that was announced before the turn. */
inline sleep_at_own_bell() {
#if is(HUB_LOOKS_FIRST)
	own[me] = BY_CALLER;
#endif
	place[me] = ASLEEP;
	d_step { own[me] == ENDED -> own[me] = NONE; place[me] = BETWEEN }
}

proctype caller(byte me) {
	byte x, ended, answer;
	bit taken, due, ends;
	served_by[me] = UNREAD;
	called_by[me] = UNREAD;
	do
	:: break                       /* it stops for good */
	:: skip;
again:	   skip;
	   turn();
#if WAITS
	   if
	   :: answer == FULL -> own[me] = NONE; break
	   :: answer == DONE -> d_step { ends = 0; own[me] = NONE }
	   :: answer == WAIT ->
	      if
	      :: ends -> sleep_at_own_bell()
	      :: !ends -> ends = 1
	      fi;
#if !is(HUB_LOOKS_FIRST)
	      own[me] = BY_CALLER;
#endif
	      goto again
	   fi
#endif
	od;
over:	skip;
	d_step { ends = 0; answer = DONE; place[me] = OVER }
}

byte i;

init {
	atomic { i = 0; do :: i < CALLERS -> run caller(i); i++ :: else -> break od; i = 0 };
	timeout ->
	d_step {
		do
		:: i < CALLERS -> assert(place[i] == OVER || (place[i] == ASLEEP && open[i] && !sealed)); i++
		:: else -> break
		od;
		assert(next == 0 && home);
		assert(came == 0 && called == 0)
	}
}
