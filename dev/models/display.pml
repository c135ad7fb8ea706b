/* The handshake of examples/orders/three-servers.toml, written by hand for Spin: three servers, each of which asks for
 * its console once and answers its release signal and its acquire signal. Each call of a caller is one step, as for
 * `explore`. See README.md. */

#ifndef MUTATION
#define MUTATION NOTHING
#endif
#define NOTHING 0
#define STAYS_PENDING 1          /* the console that gets the display stays pending */

#define SERVERS 3
#define RELEASE 1
#define ACQUIRE 2

byte front = 1;                  /* the console that has the display */
byte wanted = 0;                 /* the console that is pending, 0 if there is none */
byte owner[4];                   /* the server that handles a console's switches */
byte signals[4];                 /* the signals that are pending to a server */
bool waiting[4];                 /* its wait goes on */
bool alive[4];                   /* the keyboard is caller 0 */

inline raise(p, signal)
{
    if
    :: alive[p] -> signals[p] = signals[p] | signal; waiting[p] = false
    :: else -> skip
    fi
}

inline give(n)
{
    front = n;
    if
    :: MUTATION != STAYS_PENDING -> wanted = 0
    :: else -> skip
    fi;
    if
    :: owner[n] != 0 -> raise(owner[n], ACQUIRE)
    :: else -> skip
    fi
}

inline request(n)
{
    if
    :: n == front -> skip
    :: n != front && owner[front] == 0 -> give(n)
    :: n != front && owner[front] != 0 -> wanted = n; raise(owner[front], RELEASE)
    fi
}

inline end(p)
{
    alive[p] = false;
    signals[p] = 0;
    if
    :: p != 0 && owner[p] == p ->
        owner[p] = 0;
        if
        :: front == p && wanted != 0 -> give(wanted)
        :: else -> skip
        fi
    :: else -> skip
    fi
}

/* The last part of each call: if every caller that is alive waits, every wait ends. */
inline rest()
{
    if
    :: !alive[0] && (waiting[1] || !alive[1]) && (waiting[2] || !alive[2]) && (waiting[3] || !alive[3]) ->
        waiting[1] = false; waiting[2] = false; waiting[3] = false
    :: else -> skip
    fi
}

/* The signals after an item, and the calls of their hooks. */
inline take_signals(p)
{
    atomic { taken = signals[p]; signals[p] = 0; rest() }
    if
    :: (taken & RELEASE) != 0 ->
        atomic {
            taken = taken & ACQUIRE;
            if
            :: owner[p] == p && front == p && wanted != 0 -> give(wanted)
            :: else -> skip
            fi;
            rest()
        }
    :: else -> skip
    fi;
    if
    :: (taken & ACQUIRE) != 0 -> atomic { taken = 0; rest() }
    :: else -> skip
    fi
}

inline open_console(p)
{
    atomic { rest() }
    take_signals(p)
}

inline set_mode(p)
{
    atomic {
        owner[p] = p;
        if
        :: front == p -> wanted = 0
        :: else -> skip
        fi;
        rest()
    }
    take_signals(p)
}

inline activate(p)
{
    atomic { request(p); rest() }
    take_signals(p)
}

inline wait_signal(p)
{
    if
    :: atomic { signals[p] != 0 -> rest() }
    :: atomic { signals[p] == 0 -> waiting[p] = true; rest() };
        atomic { !waiting[p] -> rest() }
    fi;
    take_signals(p)
}

proctype server(byte p)
{
    byte taken;

    open_console(p);
    set_mode(p);
    if
    :: p == 1 -> wait_signal(p); activate(p)
    :: else -> activate(p); wait_signal(p)
    fi;
    wait_signal(p);
    d_step { end(p); rest() }
}

proctype keyboard()
{
    d_step { end(0); rest() }
}

proctype look()
{
    atomic {
        !alive[0] && !alive[1] && !alive[2] && !alive[3] ->
        /* stuck: at the end a console is pending */
        assert(wanted == 0);
#ifdef NEVER_ENDS_ON
        assert(front != NEVER_ENDS_ON)
#endif
    }
}

init
{
    atomic {
        alive[0] = true; alive[1] = true; alive[2] = true; alive[3] = true;
        run keyboard(); run server(1); run server(2); run server(3); run look()
    }
}
