/* What the parts of vtrun share. docs/reference/vtrun.md has what they do together. */
#ifndef VTRUN_H
#define VTRUN_H

#include <errno.h>
#include <stdbool.h>
#include <stddef.h>
#include <stdint.h>
#include <stdio.h>
#include <sys/types.h>
#include <vt.h>

enum {
    CONSOLES = 64,        /* numbers of consoles: 1 to 63, and 0 for the one in front */
    SEATS = 65,           /* numbers of the machine's processes: 1 to 64 */
    DESCRIPTORS = 16,     /* of each of them */
    MOST_WRITE = 4096,    /* bytes of one write, and of one read */
    MOST_ANSWER = 260100, /* bytes of one answer */
    MOST_ITEMS = 10240,   /* items of a script of a session */
    PATH_ROOM = 4096
};

/* ---- What was asked for (options.c) ---- */

struct options {
    const char *journal;  /* a file for the journal, or NULL */
    const char *keymap;   /* a file with a keymap, or NULL for that of a US keyboard */
    const char *user;     /* who runs the command, or NULL */
    const char *socket;   /* the path of the control socket, or NULL for one of its own */
    uint64_t consoles;    /* those of the start, as bits */
    unsigned rows, cols;
    unsigned seconds;     /* the command ends after so many; 0 for no limit */
    unsigned on;          /* the console of the command's standard streams, or 0 for those of the caller */
    bool has_namespaces;  /* whether they may be made */
    char **command;
};
extern struct options options;
void read_options(int count, char **words);
_Noreturn void stop(int status, const char *form, ...) __attribute__((format(printf, 2, 3)));
extern void (*before_stop)(void); /* what a stop does before it prints, or NULL */
/* A whole number from a least to a greatest one, or a stop that names what it is of. */
unsigned number_of(const char *word, const char *what, unsigned least, unsigned most);
/* Prints on standard output, or stops with a status. */
void print(const char *bytes, size_t n, int status);

/* ---- The machine (machine.c) ---- */

extern struct vt_machine machine;
extern struct vt_reply reply;                 /* the answer of the last call */
extern uint8_t answer_bytes[MOST_ANSWER];     /* and its bytes */
extern unsigned front;                        /* the console in front */
extern uint32_t changes[CONSOLES];            /* how often each console's screen was changed */
void make_machine(void);
/* A call with its numbers and bytes. 0 or the errno of its answer, which is in `reply` and `answer_bytes`. */
int call_machine(unsigned caller, const char *name, const uint16_t *numbers, size_t count, const void *held, size_t n);
/* What a process does: a call, and then, if the journal's session has scripts, `signals`. */
int act(unsigned caller, const char *name, const uint16_t *numbers, size_t count, const void *held, size_t n);
#define ACT(caller, name, ...) \
    act(caller, name, (const uint16_t[]){ __VA_ARGS__ }, sizeof(uint16_t[]){ __VA_ARGS__ } / 2, NULL, 0)
void take_signals(unsigned caller);
void scan(const uint8_t *bytes, size_t n);

/* ---- The journal (journal.c, session.c) ---- */

extern bool has_scripts;                      /* whether the session has a script for each process */
void open_journal(void);
void enter_call(unsigned caller, const char *name, const uint16_t *numbers, size_t n);
void flush_journal(void);
void close_journal(void);
void keep_keymap(const char *text, size_t length);
void write_session(FILE *journal);

/* ---- Consoles (consoles.c) ---- */

struct console {
    int master;           /* of its pty */
    int node;             /* an O_PATH descriptor of the pty's slave, under the name that programs see */
    dev_t device;         /* of the slave's inode, with `inode` */
    ino_t inode;
    char path[32];        /* of the slave */
    bool is_bound;        /* whether it lies over /dev/ttyN */
    bool is_open;         /* whether a program has the slave open */
    bool has_more;        /* whether the master may have more to read */
    int descriptor;       /* of the pump that holds the console open in the machine, or -1 */
    uint8_t input[MOST_WRITE];
    size_t input_length;  /* what came from the machine's queue, and the pty has no room for yet */
    bool is_given;        /* whether the pty got input since `hand_over` */
};
extern struct console consoles[CONSOLES];
extern uint64_t unsure;                       /* consoles that a program may have opened meanwhile, as bits */
void make_consoles(void);
bool read_output(unsigned n);
void read_all_outputs(void);
void write_input(unsigned n);
void write_all_input(void);
void hand_over(void);
void look_at_console(unsigned n);
int open_slave(unsigned n, int flags);
void set_size(unsigned n);
unsigned pump_of(unsigned n);
void pump_ended(unsigned caller);

/* ---- Processes (seats.c) ---- */

struct seat {
    pid_t pid;            /* of its process, or 0 */
    int pidfd, folder;    /* of its process, and that of /proc/PID */
    uid_t user;
    uint8_t home;
    bool is_privileged;
    bool is_used;         /* its process made a call, or one before it did */
    bool is_spent;        /* its process ended in the machine: it's used up */
    bool is_killed;       /* another process or a key ended it there, and it hasn't seen that yet */
    bool is_raised;       /* a signal is pending in the machine */
    bool accepts;         /* it accepted the key signal */
    bool waits;
    int8_t descriptors[CONSOLES];
};
extern struct seat seats[SEATS];
void start_seats(void);
unsigned new_pump(void);
/* The seat of a process that makes a request, or 0 with errno. `thread` is the thread that made it. */
unsigned seat_of(pid_t thread);
int descriptor_on(unsigned seat, unsigned console);
void close_unused(void);
void end_seat(unsigned seat);
void end_all_seats(void);
void raise_signal(unsigned seat, int number);
void send_signals(void);
void seat_ended(unsigned seat);
void list_processes(FILE *to);

/* ---- Memory and files of a process (memory.c) ---- */

ssize_t read_memory(pid_t pid, uint64_t at, void *to, size_t n);
bool write_memory(pid_t pid, uint64_t at, const void *from, size_t n);
bool read_text(pid_t pid, uint64_t at, char *to, size_t room);
pid_t process_of(pid_t thread, uid_t *user);
bool has_signal(pid_t thread);
bool stat_fields(pid_t pid, int *session, unsigned *terminal);
unsigned console_of_terminal(unsigned terminal);
unsigned console_of_stat(dev_t device, ino_t inode);
struct stat;
unsigned console_of_descriptor(pid_t thread, const struct stat *found);

/* ---- Notifications (notify.c, files.c) ---- */

struct seccomp_notif;
extern int listener;
void receive(void);
bool is_valid(uint64_t id);
void answer(uint64_t id, int64_t value, int error);
void pass_on(uint64_t id);
void serve_file(const struct seccomp_notif *it);

/* ---- Nodes (nodes.c) ---- */

void give_console(unsigned n, uid_t user);
bool may_open(unsigned seat, unsigned console, unsigned how);
unsigned how_opened(int flags);
void serve_node(const struct seccomp_notif *it, unsigned console);

/* ---- Requests (requests.c, keyboard.c) ---- */

/* A request of a process for a console. */
struct asked {
    uint64_t id;
    pid_t pid;            /* the thread */
    unsigned seat, console;
    uint16_t descriptor;
    uint32_t number;
    uint64_t argument;
    int64_t value;        /* of the answer, if it is no error: 0 for almost all */
};
enum { HELD = -1 };       /* in place of an errno: the request is answered later */
int serve_request(struct asked *it);
int serve_keyboard(const struct asked *it, bool *is_known);
int fetch(const struct asked *it, void *to, size_t n);
int store(const struct asked *it, const void *from, size_t n);

/* ---- Waits (waits.c) ---- */

void hold_wait(const struct asked *it);
void hold_event(const struct asked *it, unsigned events);
void tell_event(unsigned kind, unsigned from, unsigned to);
bool are_held(void);
void settle_waits(void);
void look_at_held(void);
void look_at_signals(void);
void break_wait(unsigned seat);
bool is_breaking_wait(void);

/* ---- Programs (programs.c, starter.c, starting.c, space.c, filter.c) ---- */

void start_starter(void);
bool run_program(unsigned console, char *const *words, unsigned number);
void read_starter(void);
void program_ended(unsigned number, int how);
void hang_up(void);
bool bind_consoles(uint64_t *bound);
int install_filter(void);
extern int starter;
extern pid_t starter_pid;

/* ---- Typing (typing.c, names.c, terminal_keys.c) ---- */

void learn_keys(const char *keymap, size_t n);
void entry_was_set(unsigned table, unsigned code, unsigned kind, unsigned value);
void code_was_set(unsigned number, unsigned code);
/* Types a text with the names of keys. False with the first place that is no key. */
bool type_text(const char *text, size_t n, size_t *fault);
/* Types what came from a terminal. How many bytes: the first ones of a character wait for the rest. */
size_t type_terminal(const uint8_t *bytes, size_t n);

/* ---- Control (control.c, answers.c, snap.c) ---- */

extern int control;
void open_control(void);
void accept_client(void);
void serve_client(unsigned i, uint32_t events);
void look_at_clients(void);
int64_t next_deadline(void);
size_t screen_text(unsigned n, char *to, size_t room);
size_t row_text(unsigned n, unsigned row, char *to, size_t room);
char *screen_redraw(unsigned n, size_t *length);
char *screen_picture(unsigned n, size_t *length);
/* What a terminal shows. */
struct shown {
    unsigned front, rows, cols, most_rows, most_cols;
    uint32_t changes;     /* of the console in front, then */
    struct vt_cell *cells;
};
char *screen_frame(struct shown *shown, size_t *length);
int64_t now_ms(void);

/* ---- The loop (loop.c) ---- */

/* What an event of the loop concerns. */
enum source { OF_MASTER, OF_LISTENER, OF_PROCESS, OF_CONTROL, OF_CLIENT, OF_STARTER, OF_SIGNALS };
void watch(int fd, enum source source, unsigned i, uint32_t events);
void watch_again(int fd, enum source source, unsigned i, uint32_t events);
int serve(void);
extern int status;        /* of the command, or -1 while it runs */
extern bool is_ending;

/* ---- The other side (client.c, attach.c) ---- */

int be_client(int count, char **words);
void take_terminal(void);
bool show_consoles(int fd);

#endif
