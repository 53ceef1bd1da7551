/* The terminal of the process: raw mode, signals, waiting and writing. internal.h says what each call does. */
#define _XOPEN_SOURCE 700
#define _DEFAULT_SOURCE
#define _DARWIN_C_SOURCE
#include "internal.h"

#include <errno.h>
#include <poll.h>
#include <signal.h>
#include <stdlib.h>
#include <string.h>
#include <strings.h>
#include <sys/ioctl.h>
#include <sys/select.h>
#include <termios.h>
#include <unistd.h>

/* What a signal does that is caught while a line is read. */
enum kind {
    ASKS,  /* asks the program to end or to stop; caught unless it ignores it */
    TELLS, /* tells that the terminal may have another size or other settings; always caught */
    ENDS   /* ends the program; caught where it has no handler of its own */
};

/* The signals that are caught. Before those that ask and end do what they do, the terminal is set back. */
static const struct {
    int number;
    enum kind kind;
} caught[] = {{SIGINT, ASKS},   {SIGTERM, ASKS},   {SIGHUP, ASKS},  {SIGQUIT, ASKS}, {SIGTSTP, ASKS}, {SIGWINCH, TELLS},
              {SIGCONT, TELLS}, {SIGALRM, ENDS},   {SIGABRT, ENDS}, {SIGSEGV, ENDS}, {SIGBUS, ENDS},  {SIGFPE, ENDS},
              {SIGILL, ENDS},   {SIGSYS, ENDS},    {SIGPIPE, ENDS}, {SIGUSR1, ENDS}, {SIGUSR2, ENDS}, {SIGXCPU, ENDS},
              {SIGXFSZ, ENDS},  {SIGVTALRM, ENDS}, {SIGPROF, ENDS}};
enum { CAUGHT = sizeof caught / sizeof *caught };

/* Those that are never held: they come of a fault, or stop a process in the background. */
static const int never_held[] = {SIGABRT, SIGSEGV, SIGBUS, SIGFPE, SIGILL, SIGSYS, SIGTRAP, SIGTTIN, SIGTTOU};

static struct termios before;            /* the terminal's settings outside of a line */
static struct sigaction actions[CAUGHT]; /* what the program does at the signals that are caught */
static unsigned char is_caught[CAUGHT];
static sigset_t outside; /* the signals that the program itself holds */
static pid_t owner;      /* the process that made the terminal raw, and not a child of it */
static volatile sig_atomic_t is_raw, is_upset, is_below;

int comvizga_tty_is_there(void)
{
    return isatty(STDIN_FILENO);
}

int comvizga_tty_is_dumb(void)
{
    const char *name = getenv("TERM");
    return name && (!strcasecmp(name, "dumb") || !strcasecmp(name, "cons25") || !strcasecmp(name, "emacs"));
}

int comvizga_tty_measure(uint16_t *columns, uint16_t *rows)
{
    struct winsize size = {0, 0, 0, 0};
    if (ioctl(STDOUT_FILENO, TIOCGWINSZ, &size) < 0 && ioctl(STDIN_FILENO, TIOCGWINSZ, &size) < 0)
        return 0;
    if (!size.ws_col)
        return 0;
    *columns = size.ws_col;
    *rows = size.ws_row;
    return 1;
}

int comvizga_tty_is_upset(void)
{
    return is_upset;
}

void comvizga_tty_settle(void)
{
    is_upset = is_below = 0;
}

int comvizga_tty_came_below(void)
{
    int came = is_below;
    is_below = 0;
    return came;
}

/* ----------------------------------------------------------------------------------- setting it back */

/* Whether the terminal is to be set back here: not in a child of fork, and not while another program has it. Of one
 * that does not control the process the system does not tell who has it. */
static int is_ours(void)
{
    pid_t group = tcgetpgrp(STDIN_FILENO);
    return owner == getpid() && (group < 0 || group == getpgrp());
}

/* Writes a text, if there is room for it now. */
static void write_at_once(const char *text)
{
    struct pollfd room = {STDOUT_FILENO, POLLOUT, 0};
    ssize_t written = poll(&room, 1, 0) > 0 ? write(STDOUT_FILENO, text, strlen(text)) : 0;
    (void)written;
}

/* Sets the terminal back and writes a text. Called in handlers of signals, too. Returns whether it was raw. */
static int set_back(const char *text)
{
    int was_raw = is_raw && is_ours();
    if (was_raw) {
        tcsetattr(STDIN_FILENO, TCSANOW, &before);
        write_at_once(text);
    }
    is_raw = 0;
    return was_raw;
}

void comvizga_tty_break_off(void)
{
    if (set_back("\x1b[?2026l\x1b[?2004l\x1b[m\r\n\x1b[J"))
        is_below = 1;
}

/* -------------------------------------------------------------------------------------------- signals */

/* Has the signal come again, now for the program: its own handler runs then, or the process ends or stops. */
static void on_signal(int number)
{
    int kept = errno, i = 0;
    while (caught[i].number != number)
        i++;
    if (caught[i].kind != TELLS)
        comvizga_tty_break_off();
    sigaction(number, &actions[i], NULL);
    raise(number);
    is_upset = 1;
    errno = kept;
}

/* Whether a signal of a kind is to be caught at which the program does so. */
static int is_to_be_caught(enum kind kind, const struct sigaction *theirs)
{
    if (theirs->sa_handler == on_signal)
        return 0;
    if (kind == TELLS)
        return 1;
    return kind == ASKS ? theirs->sa_handler != SIG_IGN : theirs->sa_handler == SIG_DFL;
}

static void catch_signals(void)
{
    struct sigaction ours, theirs;
    memset(&ours, 0, sizeof ours);
    ours.sa_handler = on_signal;
    ours.sa_flags = SA_ONSTACK;
    sigfillset(&ours.sa_mask);
    for (int i = 0; i < CAUGHT; i++) {
        sigaction(caught[i].number, NULL, &theirs);
        if (!is_to_be_caught(caught[i].kind, &theirs))
            continue;
        actions[i] = theirs;
        is_caught[i] = 1;
        sigaction(caught[i].number, &ours, NULL);
    }
}

void comvizga_tty_hold(void)
{
    sigset_t held;
    sigfillset(&held);
    for (size_t i = 0; i < sizeof never_held / sizeof *never_held; i++)
        sigdelset(&held, never_held[i]);
    sigprocmask(SIG_BLOCK, &held, &outside);
}

void comvizga_tty_release(void)
{
    sigprocmask(SIG_SETMASK, &outside, NULL);
}

/* ------------------------------------------------------------------------------------ taking and giving */

static int make_raw(void)
{
    struct termios raw;
    if (tcgetattr(STDIN_FILENO, &raw) < 0)
        return -1;
    if (owner != getpid())
        is_raw = 0;
    if (!is_raw)
        before = raw;
    else if (raw.c_lflag & ICANON)
        is_below = 1; /* it was another's meanwhile */
    raw.c_iflag &= (tcflag_t) ~(BRKINT | ICRNL | INLCR | IGNCR | INPCK | ISTRIP | IXON);
    raw.c_lflag &= (tcflag_t) ~(ECHO | ICANON | IEXTEN | ISIG);
    raw.c_cflag |= CS8;
    raw.c_cc[VMIN] = 1;
    raw.c_cc[VTIME] = 0;
    owner = getpid();
    is_raw = 1;
    while (tcsetattr(STDIN_FILENO, TCSANOW, &raw) < 0)
        if (errno != EINTR)
            return -1;
    return 0;
}

int comvizga_tty_take(void)
{
    is_upset = 0;
    catch_signals();
    return make_raw();
}

/* Gives a signal back, unless the program has taken it meanwhile. */
static void give_signal_back(int place)
{
    struct sigaction now;
    if (!is_caught[place])
        return;
    is_caught[place] = 0;
    sigaction(caught[place].number, &actions[place], &now);
    if (now.sa_handler != on_signal)
        sigaction(caught[place].number, &now, NULL);
}

void comvizga_tty_give_back(void)
{
    set_back("\x1b[?2004l");
    for (int i = 0; i < CAUGHT; i++)
        give_signal_back(i);
}

/* ----------------------------------------------------------------------- waiting, reading and writing */

int comvizga_tty_wait(int milliseconds)
{
    struct timespec time = {milliseconds / 1000, milliseconds % 1000 * 1000000L};
    fd_set files;
    int found = -1;
    FD_ZERO(&files);
    FD_SET(STDIN_FILENO, &files);
    /* pselect lets the signals come, so that none comes between the look at is_upset and the wait */
    if (is_upset)
        errno = EINTR;
    else
        found = pselect(STDIN_FILENO + 1, &files, NULL, NULL, milliseconds < 0 ? NULL : &time, &outside);
    if (found < 0) {
        int reason = errno;
        comvizga_tty_release(); /* what a handler raised comes now */
        comvizga_tty_hold();
        errno = reason;
    }
    return found;
}

ssize_t comvizga_tty_read(void *bytes, size_t size)
{
    ssize_t length;
    int reason;
    comvizga_tty_release();
    length = read(STDIN_FILENO, bytes, size);
    reason = errno;
    comvizga_tty_hold();
    errno = reason;
    return length;
}

/* Writes some of the bytes, once there is room. Returns their number, 0 where a signal came, or -1 with errno. */
static ssize_t write_some(int file, const char *bytes, size_t length)
{
    struct pollfd room = {file, POLLOUT, 0};
    ssize_t written = write(file, bytes, length);
    if (written >= 0)
        return written;
    if (errno == EAGAIN)
        poll(&room, 1, -1);
    else if (errno != EINTR)
        return -1;
    return 0;
}

int comvizga_write_whole(int file, const void *bytes, size_t length)
{
    ssize_t written = 0;
    for (size_t at = 0; at < length && written >= 0; at += (size_t)written)
        written = write_some(file, (const char *)bytes + at, length - at);
    return written < 0 ? -1 : 0;
}

int comvizga_tty_write(const void *bytes, size_t length)
{
    ssize_t written = 0;
    int reason;
    if (!length)
        return 0;
    comvizga_tty_release();
    for (size_t at = 0; at < length && written >= 0 && !is_below; at += (size_t)written)
        written = write_some(STDOUT_FILENO, (const char *)bytes + at, length - at);
    reason = errno;
    comvizga_tty_hold();
    errno = reason;
    return written < 0 ? -1 : 0;
}
