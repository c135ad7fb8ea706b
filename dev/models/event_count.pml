/* The wait at a bell of crates/turn_lock, which is an EventCount of the kit's crossbeam_utils: no caller sleeps
   while its word has moved. README.md beside it has what each part stands for; dev/checks/check_models.py runs it.

   WAITERS   callers that wait at the bell until `word` is theirs (the number of the waiter, from 1)
   SPURIOUS  how many wake-ups without a reason there may be
   MUTATION  the planted mistake, 0 for none

   One caller adds to `word` and rings, once for each waiter; each waiter announces its wait, looks, and sleeps. */
#ifndef WAITERS
#define WAITERS 2
#endif
#ifndef SPURIOUS
#define SPURIOUS 1
#endif
#ifndef MUTATION
#define MUTATION 0
#endif

#define RING_BEFORE_WORD      1     /* the ring comes before the word moves */
#define LOOK_BEFORE_ANNOUNCED 2     /* the look comes before the announcement */
#define EPOCH_READ_LATE       3     /* the epoch is read after the look */
#define NO_EPOCH              4     /* a ring doesn't add to the epoch */
#define PARK_DOES_NOT_COMPARE 5     /* the sleep doesn't compare the epoch */

#define is(mistake) (MUTATION == mistake)

byte word;                 /* what the callers wait for */
byte waiters, epoch;       /* the two words of the bell */
bit parked[WAITERS + 1];   /* asleep in the futex of `epoch` */
byte spurious = SPURIOUS;
byte done;

inline prepare_wait() {
#if is(EPOCH_READ_LATE)
	waiters++
#else
	waiters++;
	key = epoch
#endif
}

/* A futex: it compares and sleeps in one step. */
inline park() {
#if is(PARK_DOES_NOT_COMPARE)
	parked[me] = 1;
#else
	d_step { parked[me] = (epoch == key) };
#endif
	if
	:: !parked[me]
	:: d_step { parked[me] && spurious > 0 -> spurious--; parked[me] = 0 }
	fi
}

inline wait() {
	do
	:: epoch != key -> break
	:: epoch == key -> park()
	od
}

inline drop_key() {
	waiters--;
	key = 0
}

inline notify_all() {
	if
	:: waiters != 0 ->
#if !is(NO_EPOCH)
	   epoch++;
#endif
	   d_step { x = 1; do :: x <= WAITERS -> parked[x] = 0; x++ :: else -> break od; x = 0 }
	:: waiters == 0
	fi
}

proctype waiter(byte me) {
	byte key;
	do
	:: skip;
#if is(LOOK_BEFORE_ANNOUNCED)
	   if
	   :: word >= me -> break
	   :: word < me -> prepare_wait()
	   fi;
#else
	   prepare_wait();
	   if
	   :: word >= me -> drop_key(); break
	   :: word < me
	   fi;
#endif
#if is(EPOCH_READ_LATE)
	   key = epoch;
#endif
	   wait();
	   drop_key()
	od;
	done++
}

proctype ringer() {
	byte x;
	do
	:: word < WAITERS ->
#if is(RING_BEFORE_WORD)
	   notify_all();
	   word++
#else
	   word++;
	   notify_all()
#endif
	:: word == WAITERS -> break
	od
}

byte i;

init {
	atomic { i = 1; do :: i <= WAITERS -> run waiter(i); i++ :: else -> break od; run ringer() };
	timeout -> assert(done == WAITERS)
}
