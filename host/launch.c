// sii_wire [-i INTERFACE] [--timeout MS] [--state DIR] [--program FILE] ARGUMENT..: opens a raw EtherCAT socket on the interface as descriptors 0 and 1,
// gives up every privilege, and executes the proved program, sii_station --wire, whose text goes to what was standard output
// (docs/INSTALL.md). By the name sii_slaves it executes the slaves to practise on.
#define _GNU_SOURCE
#include <arpa/inet.h>
#include <err.h>
#include <errno.h>
#include <fcntl.h>
#include <grp.h>
#include <ifaddrs.h>
#include <limits.h>
#include <linux/capability.h>
#include <linux/if_packet.h>
#include <net/if.h>
#include <net/if_arp.h>
#include <pwd.h>
#include <stdio.h>
#include <stdlib.h>
#include <string.h>
#include <sys/mman.h>
#include <sys/prctl.h>
#include <sys/stat.h>
#include <sys/syscall.h>
#include <sys/time.h>
#include <unistd.h>

enum { USAGE = 2, NONE = 66, UNAVAILABLE = 69, SYSTEM = 71, MISSING = 72, TAKEN = 75, FORBIDDEN = 77, ETHERCAT = 0x88a4, LINK = 0x10000 };

// By which name this was called, and the program that it executes.
static const char *called = "sii_wire", *executed = "sii_station";

static void must(int ok, const char *what) { if (!ok) err(SYSTEM, "%s", what); }

// The state of an Ethernet interface, or NULL where there is none of this name. Where no name is given, all are printed.
static const char *state_of(const char *name) {
    struct ifaddrs *all, *it;
    const char *found = NULL;
    must(!getifaddrs(&all), "interfaces");
    for (it = all; it; it = it->ifa_next) {
        struct sockaddr_ll *at = (void *)it->ifa_addr;
        if (!at || at->sll_family != AF_PACKET || at->sll_hatype != ARPHRD_ETHER) continue;
        const char *state = !(it->ifa_flags & IFF_UP) ? "down" : it->ifa_flags & LINK ? "up" : "up, but without a link";
        if (!name) printf("%s: %s\n", it->ifa_name, state);
        else if (!strcmp(name, it->ifa_name)) found = state;
    }
    freeifaddrs(all);
    return found;
}

// How many sockets for EtherCAT frames are open on an interface. So the lock of an interface is the wire itself, as long as it is open.
static int sockets_on(int interface) {
    char line[256];
    int type, at, count = 0;
    FILE *sockets = fopen("/proc/net/packet", "r");
    must(sockets != NULL, "/proc/net/packet");
    while (fgets(line, sizeof line, sockets))
        count += sscanf(line, "%*s %*s %*s %x %d", (unsigned *)&type, &at) == 2 && type == ETHERCAT && (at == interface || at == 0);
    fclose(sockets);
    return count;
}

// The wire: a new socket on this interface; where none is named, standard input, if it is a socket of messages, as a master lends it.
static int open_wire(const char *name, long ms) {
    struct timeval wait = { ms / 1000, ms % 1000 * 1000 };
    struct sockaddr_ll at = { .sll_family = AF_PACKET, .sll_protocol = htons(ETHERCAT) };
    int wire = 0, type = 0, lent = !name && !getsockopt(0, SOL_SOCKET, SO_TYPE, &type, &(socklen_t){ sizeof type }) && type != SOCK_STREAM;
    const char *state = name ? state_of(name) : "up";
    if (!name && !lent) errx(USAGE, "name the interface: %s -i INTERFACE ..; %s -i lists them", called, called);
    if (!state) errx(NONE, "%s: there is no such Ethernet interface; %s -i lists them", name, called);
    if (strcmp(state, "up")) errx(UNAVAILABLE, "%s is %s", name, state);
    if (name && (wire = socket(AF_PACKET, SOCK_RAW, 0)) < 0 && (errno == EPERM || errno == EACCES))
        errx(FORBIDDEN, "%s: no permission to open a raw socket: use sudo, or give %s the capability (man %s)", name, called, called);
    must(wire >= 0 && !setsockopt(wire, SOL_SOCKET, SO_RCVTIMEO, &wait, sizeof wait)
         && !setsockopt(wire, SOL_SOCKET, SO_SNDTIMEO, &wait, sizeof wait), "the wire");
    if (name) must((at.sll_ifindex = (int)if_nametoindex(name)) && !bind(wire, (struct sockaddr *)&at, sizeof at), name);
    if (name && sockets_on(at.sll_ifindex) > 1) errx(TAKEN, "%s is taken: another EtherCAT station or master works there", name);
    return wire;
}

// From here on this is the user who called, also by sudo, and has no capability and no way to any.
static void give_up_privileges(void) {
    struct __user_cap_header_struct head = { .version = _LINUX_CAPABILITY_VERSION_3 };
    struct __user_cap_data_struct none[2] = { { 0 } };
    struct passwd *caller = !getuid() && getenv("SUDO_UID") ? getpwuid((uid_t)atol(getenv("SUDO_UID"))) : NULL;
    uid_t user = caller ? caller->pw_uid : getuid();
    gid_t group = caller ? caller->pw_gid : getgid();
    must((!caller || !initgroups(caller->pw_name, group)) && !setresgid(group, group, group) && !setresuid(user, user, user), "user");
    must(!prctl(PR_SET_NO_NEW_PRIVS, 1, 0, 0, 0) && !syscall(SYS_capset, &head, none), "privileges");
}

// A descriptor that the program can open once more by its name: standard output, or else, where that can't be opened (a socket, another user's
// terminal or file), a pipe to a cat, whose last lines may come after the prompt.
static int open_text(void) {
    struct stat at;
    int again = open("/dev/fd/1", O_WRONLY | O_APPEND | O_NOCTTY | O_NONBLOCK);
    FILE *passed = again < 0 ? popen("exec cat", "w") : NULL;
    must(again >= 0 || passed, "standard output");
    // What the caller writes to this file later is to stand after the program's text.
    if (!fstat(1, &at) && S_ISREG(at.st_mode)) fcntl(1, F_SETFL, fcntl(1, F_GETFL) | O_APPEND);
    return passed ? fileno(passed) : 1;
}

// The program: the one installed with this launcher, or built in the checkout that this launcher was built in.
static const char *program_beside(void) {
    static const char *const PLACES[] = { "../lib/pilzhoon/%s", "../crates/%s/out/%s", "crates/%s/out/%s" };
    static char path[PATH_MAX + 64];
    ssize_t length = readlink("/proc/self/exe", path, PATH_MAX);
    must(length > 0, "/proc/self/exe");
    char *name = strrchr(path, '/') + 1;
    for (size_t it = 0; it < sizeof PLACES / sizeof *PLACES; it++)
        if (sprintf(name, PLACES[it], executed, executed) > 0 && !access(path, X_OK)) return path;
    errx(MISSING, "the program isn't there: install Pilzhoon, or build it, or name it by --program FILE");
}

// The folder for what alias and write keep of an interface: DIR of --state, or else pilzhoon/INTERFACE in $XDG_STATE_HOME, or in ~/.local/state of
// the user who called. With is_made it is made, as far as that can be done; who writes there says what is wrong.
static const char *state_folder(const char *named, const char *interface, int is_made) {
    static char path[PATH_MAX];
    const char *state = getenv("XDG_STATE_HOME"), *home = getenv("SUDO_UID") ? NULL : getenv("HOME");
    struct passwd *user = home ? NULL : getpwuid(getuid());
    int is_given = state && *state == '/';
    int length = named ? snprintf(path, sizeof path, "%s", named)
               : snprintf(path, sizeof path, "%s%s/pilzhoon/%s", is_given ? state : home ? home : user ? user->pw_dir : "",
                          is_given ? "" : "/.local/state", interface ? interface : "lent");
    if (length < 1 || length >= (int)sizeof path) errx(USAGE, "--state wants a folder");
    for (char *at = path; is_made && *at++;) {
        char was = *at;
        if (was == '/' || !was) *at = 0, mkdir(path, 0700), *at = was;
    }
    return path;
}

// A copy of standard input in memory, for a word -: the wire takes its place. Of a longer one than any file of a call the program sees it.
static int copy_input(void) {
    enum { MOST = 1 << 26 };
    static char piece[1 << 16];
    int copy = memfd_create("input", 0);
    ssize_t count = copy;
    for (ssize_t all = 0; all <= MOST && (count = read(0, piece, sizeof piece)) > 0; all += count)
        must(write(copy, piece, (size_t)count) == count, "a copy of standard input");
    must(copy >= 0 && count >= 0, "standard input");
    return copy;
}

// Whether a word stands among these, with a space on each side.
static int is_among(const char *word, const char *words) {
    const char *at = strstr(words, word);
    return at && at > words && at[-1] == ' ' && at[strlen(word)] == ' ';
}

int main(int argc, char **argv) {
    const char *name = NULL, *program = NULL, *state = NULL, *timeout = "100";
    char *words[argc + 9], *rest = NULL;
    int it = 1, begin = 8, count = begin, helps = 0, keeps = 0, looks = 0, text_named = 0, input = -1, spare;
    if (!strcmp(program_invocation_short_name, "sii_slaves")) called = executed = "sii_slaves";
    while ((spare = open("/dev/null", O_RDWR)) >= 0 && spare < 3) {}  // so that standard input, output and error are there
    for (const char *word; it < argc && (word = argv[it]); it++) {
        const char **value = !strcmp(word, "-i") || !strcmp(word, "--interface") ? &name : !strcmp(word, "--timeout") ? &timeout
                           : !strcmp(word, "--state") ? &state : !strcmp(word, "--program") ? &program : NULL;
        if (value == &name && it + 1 == argc) return state_of(NULL), 0;
        helps |= is_among(word, " -h --help -V --version ");
        keeps |= is_among(word, " alias write ");
        looks |= is_among(word, " alias write run recover pending ");
        text_named |= !strncmp(word, "--text", 6);
        if (value) *value = argv[++it];
        else if (strcmp(word, "-")) words[count++] = argv[it];
        else words[count++] = "/dev/fd/4", input = 4;
    }
    long ms = timeout ? strtol(timeout, &rest, 10) : 0;
    if (!rest || *rest || ms < 1 || ms > 60000) errx(USAGE, "--timeout wants a number of milliseconds, 1 to 60000");
    // Subcommands that need no wire. What stands after sii_slaves is a file.
    const char *plain = called == executed ? "" : " help explain man completions ";
    int wire = helps || is_among(count > begin ? words[begin] : "help", plain) ? spare : open_wire(name, ms);
    if (input == 4 && wire == 0) errx(USAGE, "-: standard input is the wire that a master lends");
    give_up_privileges();
    if (input == 4) input = fcntl(copy_input(), F_DUPFD, 10);
    int text = fcntl(open_text(), F_DUPFD, 10), moved = fcntl(wire, F_DUPFD, 10);
    must(text >= 0 && moved >= 0 && dup2(text, 3) == 3 && dup2(moved, 0) == 0 && dup2(moved, 1) == 1, "descriptors");
    // Help goes to standard error, and is to be read in a pager.
    must((!helps || dup2(3, 2) == 2) && (input < 0 || dup2(input, 4) == 4) && !close_range(input < 0 ? 4 : 5, ~0U, 0), "descriptors");
    words[count] = NULL;
    if (!text_named) words[--begin] = "/dev/fd/3", words[--begin] = "--text";
    if (looks && called != executed) words[--begin] = (char *)state_folder(state, name, keeps && wire != spare), words[--begin] = "--state";
    words[--begin] = (char *)timeout, words[--begin] = "--timeout", words[--begin] = "--wire", words[--begin] = argv[0];
    if (!program) program = program_beside();
#ifdef BUILD
    if (is_among(words[count - 1], " -V --version ")) dprintf(3, "%s\n", BUILD);
#endif
    execv(program, words + begin);
    err(MISSING, "%s", program);
}
