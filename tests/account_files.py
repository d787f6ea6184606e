"""What pad_accounts does with the file on a disk: whose it is, and that the old file or the new one is there, whole, when a call
of the system fails and when a run is killed."""
import fcntl
import os
import random
import shutil
import signal
import stat
import subprocess
import time

from faults import Faults
from harness import Failed, Test, path_of, put_files, start, want
from pad_accounts import NOTHING, OLD, does, links_in, read, run


def the_file_is_private():
    """Mode 0600, for a new file and in place of another mode; the owner stays, and nothing is left beside it."""
    os.umask(0)
    does("accounts add ann")
    want(oct(stat.S_IMODE(os.stat("accounts").st_mode)), "0o600", "the mode of a new file")
    os.chmod("accounts", 0o666)
    if os.geteuid() == 0:
        os.chown("accounts", 12, 34)
    put_files([("accounts.new", "of a run that was killed")])
    os.chmod("accounts.new", 0o644)
    does("accounts add bob")
    kept = os.stat("accounts")
    want(oct(stat.S_IMODE(kept.st_mode)), "0o600", "the mode of the file")
    if os.geteuid() == 0:
        want((kept.st_uid, kept.st_gid), (12, 34), "whose the file is")
    want(os.listdir("."), ["accounts"], "the files")


def a_link_stays_a_link():
    """The file to which a symbolic link leads is replaced."""
    os.mkdir("etc")
    put_files([("etc/accounts", OLD)])
    os.symlink("etc/accounts", "accounts")
    does("accounts remove ann")
    want((os.path.islink("accounts"), read("etc/accounts")), (True, OLD.replace(b"author ann k7Qw0bT3vJx2\r\n", b"")), "the link and its file")


def as_nobody(args):
    """The same run for a user who owns nothing here, of a program that this user can reach."""
    if not os.path.exists("program"):
        shutil.copy(path_of("pad_accounts"), "program")
        os.chmod("program", 0o755)
    streams = dict(stdin=subprocess.DEVNULL, stdout=subprocess.PIPE, stderr=subprocess.PIPE)
    user = {"user": 65534, "group": 65534, "extra_groups": []} if os.geteuid() == 0 else {}
    done = subprocess.run(["./program", *args.split()], env={"PATH": "/usr/bin:/bin"}, **streams, **user)
    return done.stdout.decode(), done.stderr.decode(), done.returncode


def files_of_others():
    """A file that cannot be read, a folder that cannot be written, and a file whose owner cannot be kept."""
    os.chmod(".", 0o755)
    for folder, mode in [("closed", 0o755), ("shut", 0o755), ("open", 0o777), ("own", 0o777)]:
        os.mkdir(folder)
        put_files([(f"{folder}/accounts", OLD)])
        os.chmod(folder, mode)
        os.chmod(f"{folder}/accounts", 0o644)
    os.chmod("closed/accounts", 0)
    os.chmod("shut", 0o555)
    denied = "Permission denied (os error 13)\n"
    for args in ["add cyd", "remove ann", "list", "link ann"]:
        want(as_nobody(f"closed/accounts {args}"), ("", f"pad_accounts: the accounts file closed/accounts cannot be read: {denied}", 1), args)
    for args in ["add cyd", "remove ann"]:
        want(as_nobody(f"shut/accounts {args}"), ("", f"pad_accounts: the accounts file shut/accounts cannot be replaced: {denied}", 1), args)
    want(as_nobody("shut/more add cyd"), ("", f"pad_accounts: the accounts file shut/more cannot be replaced: {denied}", 1), "a new file")
    if os.geteuid() == 0:
        not_permitted = "pad_accounts: the accounts file open/accounts cannot be replaced: Operation not permitted (os error 1)\n"
        want(as_nobody("open/accounts add cyd"), ("", not_permitted, 1), "a file of another user")
        os.chown("own/accounts", 65534, 65534)
        want(as_nobody("own/accounts add cyd")[1:], ("", 0), "a file of the user")
    for folder in ["shut", "open"]:
        want((os.listdir(folder), read(f"{folder}/accounts")), (["accounts"], OLD), f"the files of {folder}")


def another_run_is_under_way():
    """The lock of one run refuses another, and nothing waits for ever."""
    put_files([("accounts", OLD)])
    folder = os.open(".", os.O_RDONLY)
    fcntl.flock(folder, fcntl.LOCK_EX)
    for args in ["accounts add cyd", "accounts remove ann"]:
        want(run(args), ("", "pad_accounts: the folder of accounts is locked by another run; try again\n", 1), args)
    want(read("accounts"), OLD, "the file")
    os.close(folder)
    does("accounts add cyd")


def writes_and_syncs_fail():
    """Whatever call fails, the old file stays; and a folder that cannot be synced is told of."""
    put_files([("accounts", OLD)])
    faults = Faults()
    there = sorted(os.listdir("."))
    for field in ["writes", "syncs"]:
        faults.set(field, 1)
        error = "Input/output error (os error 5)"
        want(run("accounts add cyd", variables=faults.variables), ("", f"pad_accounts: the accounts file accounts cannot be replaced: {error}\n", 1), field)
        want((sorted(os.listdir(".")), read("accounts")), (there, OLD), f"the files after {field} failed")
    faults.set("syncs", 2)
    told = f"pad_accounts: the accounts file accounts is replaced, but its folder cannot be synced: {error}\n"
    want(run("accounts add cyd", variables=faults.variables), ("", told, 1), "a folder that cannot be synced")
    [(_, token)] = links_in(does("accounts link cyd"))
    want(read("accounts"), OLD + f"author cyd {token}\n".encode(), "the file after that")
    want(faults.failed(), 3, "how many calls failed")


def memory_runs_out():
    """Each allocation fails in turn: the file is the old one, and status 1; or the new one is there, whole."""
    faults = Faults()
    faults.set("everywhere", 1)
    for number in range(1, 2000):
        put_files([("accounts", OLD)])
        faults.set("allocations", number)
        before = faults.failed()
        printed, said, status = run("accounts add cyd dan", variables=faults.variables)
        if faults.failed() == before:
            want((said, status), ("", 0), "a run in which nothing fails")
            want(number > 20, True, f"that {number} allocations were tried")
            return
        if status == 0:
            continue
        want((printed, status), ("", 1), f"what is printed when allocation {number} fails, with {said!r}")
        want("900 Memory" in said or "out of memory" in said, True, f"that {said!r} tells of memory at allocation {number}")
        want(read("accounts"), OLD, f"the file when allocation {number} fails")
    raise Failed("an allocation always fails")


NO_RANDOM = r"""
#define _GNU_SOURCE
#include <dlfcn.h>
#include <errno.h>
#include <fcntl.h>
#include <stdarg.h>
#include <stdlib.h>
#include <string.h>
#include <sys/types.h>

/* Opens the file RANDOM in place of /dev/urandom. */
static const char *other(const char *path)
{
    return strcmp(path, "/dev/urandom") ? path : getenv("RANDOM_FILE");
}

#define OPENS(name)                                                       \
    int name(const char *path, int flags, ...)                            \
    {                                                                     \
        int (*real)(const char *, int, ...) = dlsym(RTLD_NEXT, #name);    \
        va_list more;                                                     \
        va_start(more, flags);                                            \
        mode_t mode = va_arg(more, mode_t);                               \
        va_end(more);                                                     \
        return real(other(path), flags, mode);                            \
    }

OPENS(open)
OPENS(open64)
"""


def there_is_no_randomness():
    """Without /dev/urandom, or with too few bytes of it, nothing is written."""
    put_files([("accounts", OLD), ("random.c", NO_RANDOM), ("few", b"x" * 47)])
    made = subprocess.run(["cc", "-shared", "-fPIC", "-o", "random.so", "random.c"], capture_output=True, text=True)
    want(made.returncode, 0, f"what cc says: {made.stderr[:300]}")
    for source, cause in [("none", "No such file or directory (os error 2)"), ("few", "failed to fill whole buffer")]:
        variables = {"LD_PRELOAD": os.path.abspath("random.so"), "RANDOM_FILE": source}
        message = f"{NOTHING}/dev/urandom cannot be read: {cause}\n"
        want(run("accounts add cyd dan", variables=variables), ("", message, 1), f"with {source}")
        want(read("accounts"), OLD, "the file")


KILLS = r"""
#define _GNU_SOURCE
#include <dlfcn.h>
#include <signal.h>
#include <stdlib.h>
#include <string.h>
#include <sys/stat.h>
#include <unistd.h>

/* Ends the process before or after the call that the variable KILL names. */
static void at(const char *call)
{
    const char *named = getenv("KILL");
    if (named && !strcmp(named, call))
        kill(getpid(), SIGKILL);
}

static int is_file(int fd)
{
    struct stat found;
    return !fstat(fd, &found) && S_ISREG(found.st_mode);
}

ssize_t write(int fd, const void *from, size_t count)
{
    ssize_t (*real)(int, const void *, size_t) = dlsym(RTLD_NEXT, "write");
    if (!is_file(fd))
        return real(fd, from, count);
    at("before write");
    if (getenv("KILL") && !strcmp(getenv("KILL"), "in write")) {
        real(fd, from, count / 2);
        at("in write");
    }
    ssize_t put = real(fd, from, count);
    at("after write");
    return put;
}

int fsync(int fd)
{
    int (*real)(int) = dlsym(RTLD_NEXT, "fsync");
    if (!is_file(fd)) {
        at("before the folder's sync");
        return real(fd);
    }
    at("before sync");
    int status = real(fd);
    at("after sync");
    return status;
}

int rename(const char *from, const char *to)
{
    int (*real)(const char *, const char *) = dlsym(RTLD_NEXT, "rename");
    at("before rename");
    int status = real(from, to);
    at("after rename");
    return status;
}
"""


def killed_at_each_step():
    """A run that is killed between any two calls leaves the old file or the new one, whole, and the next run goes on."""
    put_files([("kills.c", KILLS)])
    made = subprocess.run(["cc", "-shared", "-fPIC", "-o", "kills.so", "kills.c"], capture_output=True, text=True)
    want(made.returncode, 0, f"what cc says: {made.stderr[:300]}")
    for step in ["before write", "in write", "after write", "before sync", "after sync", "before rename", "after rename", "before the folder's sync"]:
        put_files([("accounts", OLD)])
        variables = {"LD_PRELOAD": os.path.abspath("kills.so"), "KILL": step}
        want(run("accounts add cyd dan", variables=variables)[2], -signal.SIGKILL, f"the status {step}")
        if step in ["after rename", "before the folder's sync"]:
            lines = read("accounts")[len(OLD):].decode().splitlines()
            want((read("accounts")[:len(OLD)], [line.split()[1] for line in lines]), (OLD, ["cyd", "dan"]), f"the file {step}")
        else:
            want(read("accounts"), OLD, f"the file {step}")
        does("accounts add eve")
        want(sorted(os.listdir(".")), ["accounts", "kills.c", "kills.so"], f"the files after the next run, {step}")


def killed_at_any_moment():
    """The same with kills at random."""
    names = [f"n{number}" for number in range(200)]
    put_files([("class.txt", "\n".join(names))])
    chance = random.Random(7)
    put_files([("accounts", OLD)])
    started = time.monotonic()
    does("accounts add --from class.txt")
    takes = time.monotonic() - started
    for _ in range(50):
        put_files([("accounts", OLD)])
        process = start("pad_accounts", "accounts add --from class.txt", stdout=subprocess.DEVNULL)
        time.sleep(takes * chance.random())
        process.kill()
        process.wait()
        text = read("accounts")
        added = [line.split()[1].decode() for line in text[len(OLD):].splitlines()]
        want((text[:len(OLD)], added in [[], names]), (OLD, True), f"whether the file is the old or the new one, with {len(added)} names")


def output_fails():
    """If the links cannot be printed, the authors are there, and `link` prints them."""
    with open("/dev/full", "w") as full:
        process = start("pad_accounts", "accounts add ann", stdout=full, stderr=subprocess.PIPE)
        said = process.communicate()[1].decode()
    want((said, process.returncode), ("pad_accounts: standard output: No space left on device (os error 28)\n", 1), "what is said")
    want(len(links_in(does("accounts link ann"))), 1, "ann's link")


TESTS = [
    Test("pad_accounts: the file is private", the_file_is_private),
    Test("pad_accounts: a symbolic link stays one", a_link_stays_a_link),
    Test("pad_accounts: files and folders of others", files_of_others),
    Test("pad_accounts: another run is under way", another_run_is_under_way),
    Test("pad_accounts: writes and syncs fail", writes_and_syncs_fail, 60),
    Test("pad_accounts: memory runs out", memory_runs_out, 120),
    Test("pad_accounts: there is no randomness", there_is_no_randomness, 60),
    Test("pad_accounts: killed at each step", killed_at_each_step, 60),
    Test("pad_accounts: killed at any moment", killed_at_any_moment, 120),
    Test("pad_accounts: standard output fails", output_fails),
]
