/* Requests that wait: their answers are held back until the machine has one, or until their process goes away. */
#include "vtrun.h"
#include <linux/vt.h>
#include <signal.h>
#include <string.h>

enum { MOST_HELD = 256 };

static struct held {
    uint64_t id, argument;
    pid_t pid;
    unsigned seat; /* that waits for a console; 0 for one that waits for an event */
    unsigned events;
} held[MOST_HELD];
static unsigned count;
static bool is_breaking;

static void add(const struct held *it)
{
    if (count < MOST_HELD) {
        held[count++] = *it;
        return;
    }
    if (it->seat)
        break_wait(it->seat);
    answer(it->id, 0, EAGAIN);
}

static void drop(unsigned i)
{
    held[i] = held[--count];
}

bool are_held(void)
{
    return count > 0;
}

bool is_breaking_wait(void)
{
    return is_breaking;
}

void hold_wait(const struct asked *it)
{
    struct held new = { .id = it->id, .pid = it->pid, .seat = it->seat };
    seats[it->seat].waits = true;
    add(&new);
}

void hold_event(const struct asked *it, unsigned events)
{
    struct held new = { .id = it->id, .pid = it->pid, .argument = it->argument, .events = events };
    add(&new);
}

/* VT_WAITEVENT: a switch or another size ends the waits for it. */
void tell_event(unsigned kind, unsigned from, unsigned to)
{
    struct vt_event event = { .event = kind, .oldev = from, .newev = to };
    for (unsigned i = count; i-- > 0;)
        if (held[i].events & kind) {
            struct asked it = { .id = held[i].id, .pid = held[i].pid, .argument = held[i].argument };
            answer(it.id, 0, store(&it, &event, sizeof event));
            drop(i);
        }
}

/* The result of a wait that has ended. */
static int end_wait(unsigned seat)
{
    seats[seat].waits = false;
    int error = call_machine(seat, "waitend", NULL, 0, NULL, 0);
    if (error == ESRCH)
        seats[seat].is_killed = false; /* (it was ended while it waited, and has seen it) */
    else if (has_scripts || seats[seat].is_raised)
        take_signals(seat);
    return error;
}

/* Answers those whose wait has ended. */
void settle_waits(void)
{
    for (unsigned i = count; i-- > 0;) {
        struct held it = held[i];
        uint8_t wait = VT_WAIT_NONE;
        if (!it.seat || vt_machine_wait(&machine, it.seat, &wait) != VT_OK || wait == VT_WAIT_OPEN)
            continue;
        drop(i);
        answer(it.id, 0, end_wait(it.seat));
        i = i > count ? count : i;
    }
}

/* Ends a wait as a signal does: its process was interrupted, or has ended. */
void break_wait(unsigned seat)
{
    is_breaking = true;
    ACT(pump_of(1), "kill", (uint16_t)seat, SIGINT);
    is_breaking = false;
    end_wait(seat);
    for (unsigned i = count; i-- > 0;)
        if (held[i].seat == seat)
            drop(i);
}

/* A request whose process was killed is no longer there, and before Linux 5.19 one that a signal interrupted: its wait
 * ends, before the process asks again. */
void look_at_held(void)
{
    for (unsigned i = count; i-- > 0;) {
        if (is_valid(held[i].id))
            continue;
        if (held[i].seat)
            break_wait(held[i].seat);
        else
            drop(i);
        i = i > count ? count : i;
    }
}

/* A signal ends a wait, as on Linux: the process takes it after the answer. */
void look_at_signals(void)
{
    for (unsigned i = count; i-- > 0;) {
        struct held it = held[i];
        if (!has_signal(it.pid))
            continue;
        if (it.seat)
            break_wait(it.seat);
        else
            drop(i);
        answer(it.id, 0, EINTR);
        i = i > count ? count : i;
    }
}
