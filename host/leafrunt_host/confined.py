"""What `routerd` and the process of BFD can reach, were one taken over: the files that it has to
read (landlock(7)), and the system calls that it needs (seccomp(2), by Debian's libseccomp). It has
given up its privileges before.

`python3 -IS -c THIS PROGRAM WORD..` becomes that program, in this place.
"""
import ctypes
import os
import resource
import sys
from collections.abc import Iterable

ADDRESS_SPACE = 1 << 30
"""Bytes of address space that `routerd` may have: 63 interfaces and a full database need some
700 MB of it, with one arena for all threads."""
MOST_THREADS = 1024
"""Of its user: `routerd` has one for each interface, and two of it run while one takes over."""
LIBRARIES = ("/usr/lib", "/usr/lib64", "/lib", "/lib64")
READ = ("/etc/ld.so.cache", "/etc/localtime", "/usr/share/locale", "/sys/devices/system/cpu")
EXECUTE, READ_FILE, READ_FOLDER = 1, 4, 8  # <linux/landlock.h>, from here on
RIGHTS = {1: 1 << 13, 2: 1 << 14, 3: 1 << 15}
"""All rights that a version of Landlock knows, and one more; later ones know no other that matters
here."""
CREATE_RULESET, ADD_RULE, RESTRICT_SELF = 444, 445, 446
VERSION, BENEATH = 1, 1
ALLOW, REFUSE = 0x7FFF0000, 0x00050000  # <seccomp.h>, from here on
EQUALS, MASKED = 4, 7
NOT_PERMITTED, NO_SUCH_CALL = 1, 38
CLONE_THREAD, PR_SET_NAME = 0x10000, 15
CALLS = """
read readv pread64 write writev pwrite64 close lseek fcntl dup dup2 dup3 ioctl pipe2
fstat newfstatat stat lstat statx access faccessat faccessat2 readlink readlinkat getdents64 getcwd
poll ppoll select pselect6 epoll_create1 epoll_ctl epoll_wait epoll_pwait epoll_pwait2 eventfd2
brk mmap munmap mprotect mremap madvise membarrier arch_prctl
futex futex_waitv set_robust_list rseq set_tid_address sched_yield sched_getaffinity
getpid getppid gettid getuid geteuid getgid getegid getresuid getresgid getgroups
uname sysinfo getrusage getrlimit prlimit64
rt_sigaction rt_sigprocmask rt_sigreturn sigaltstack restart_syscall exit exit_group execve
clock_gettime clock_getres clock_nanosleep nanosleep gettimeofday time getrandom
bind connect getsockname getpeername getsockopt setsockopt shutdown
sendto sendmsg sendmmsg recvfrom recvmsg recvmmsg
""".split()
Test = tuple[int, int, int, int]
"""The number of an argument, how it's compared, and with what: a value, or a mask and a value."""


def tests() -> dict[str, Test]:
    """Calls that are for some arguments alone: files only to be read, UDP and its like, threads."""
    writes = os.O_ACCMODE | os.O_CREAT | os.O_TRUNC
    return {
        "open": (1, MASKED, writes, os.O_RDONLY),
        "openat": (2, MASKED, writes, os.O_RDONLY),
        "socket": (0, EQUALS, 2, 0),  # AF_INET
        "clone": (0, MASKED, CLONE_THREAD, CLONE_THREAD),
        "tgkill": (0, EQUALS, os.getpid(), 0),
        "prctl": (0, EQUALS, PR_SET_NAME, 0),
    }


class Comparison(ctypes.Structure):
    """`struct scmp_arg_cmp`."""

    _fields_ = [
        ("arg", ctypes.c_uint),
        ("op", ctypes.c_int),
        ("datum_a", ctypes.c_uint64),
        ("datum_b", ctypes.c_uint64),
    ]


def bound_calls() -> None:
    """From now on this process, and what it becomes, has these calls alone: each other one isn't
    permitted. `OSError` if that can't be had."""
    lib = ctypes.CDLL("libseccomp.so.2")
    lib.seccomp_init.restype = ctypes.c_void_p
    context = ctypes.c_void_p(lib.seccomp_init(ctypes.c_uint32(REFUSE | NOT_PERMITTED)))

    def rule(name: str, action: int, test: Test | None = None) -> None:
        number = lib.seccomp_syscall_resolve_name(name.encode())
        given = Comparison(*test) if test else Comparison()
        count = 1 if test else 0
        lib.seccomp_rule_add_array(context, action, number, count, ctypes.byref(given))

    for name in CALLS:
        rule(name, ALLOW)
    for name, test in tests().items():
        rule(name, ALLOW, test)
    rule("clone3", REFUSE | NO_SUCH_CALL)  # (its flags can't be seen: then glibc uses `clone`)
    failed = -lib.seccomp_load(context)
    if failed:
        raise OSError(failed, os.strerror(failed))


def landlock(number: int, *given: object) -> int:
    """A call of Landlock, which glibc has no name for."""
    libc = ctypes.CDLL(None, use_errno=True)
    found = int(libc.syscall(ctypes.c_long(number), *given))
    if found < 0:
        raise OSError(ctypes.get_errno(), os.strerror(ctypes.get_errno()))
    return found


def bound_files(readable: Iterable[str], runnable: Iterable[str]) -> None:
    """From now on this process, and what it becomes, can open the first to read them, and what is
    below them, and run the second; nothing else, and nothing is written. `OSError` if that can't be
    had."""
    size, none = ctypes.c_size_t(8), ctypes.c_uint32(0)
    version = landlock(CREATE_RULESET, None, ctypes.c_size_t(0), ctypes.c_uint32(VERSION))
    handled = ctypes.c_uint64(RIGHTS[min(version, max(RIGHTS))] - 1)
    rules = landlock(CREATE_RULESET, ctypes.byref(handled), size, none)
    allowed = [(each, READ_FILE | READ_FOLDER) for each in readable]
    allowed += [(each, READ_FILE | READ_FOLDER | EXECUTE) for each in runnable]
    for path, rights in allowed:
        if os.path.exists(path):
            folder = os.open(path, os.O_PATH)
            rights &= ~READ_FOLDER if not os.path.isdir(path) else ~0
            rule = rights.to_bytes(8, sys.byteorder) + folder.to_bytes(4, sys.byteorder)
            landlock(ADD_RULE, ctypes.c_int(rules), ctypes.c_int(BENEATH), rule, none)
            os.close(folder)
    libc = ctypes.CDLL(None, use_errno=True)
    libc.prctl(ctypes.c_int(38), *map(ctypes.c_ulong, (1, 0, 0, 0)))  # PR_SET_NO_NEW_PRIVS
    landlock(RESTRICT_SELF, ctypes.c_int(rules), none)
    os.close(rules)


def confine(readable: Iterable[str] = (), runnable: Iterable[str] = ()) -> list[str]:
    """Both; what of it this system doesn't have, in words."""
    missing = []
    try:
        bound_files((*readable, *LIBRARIES, *READ), runnable)
    except OSError as error:
        missing.append(f"its files aren't bounded (Landlock: {error.strerror})")
    try:
        bound_calls()
    except OSError as error:
        missing.append(f"its system calls aren't bounded (libseccomp: {error})")
    return missing


def become(program: str, *words: str) -> None:
    """Becomes `routerd`, in the folder that this process is in."""
    for what, most in (
        (resource.RLIMIT_AS, ADDRESS_SPACE),
        (resource.RLIMIT_NPROC, MOST_THREADS),
        (resource.RLIMIT_FSIZE, 0),
        (resource.RLIMIT_CORE, 0),
    ):
        resource.setrlimit(what, (most, most))
    runnable = (os.path.realpath(program), *LIBRARIES, os.path.realpath(sys.executable))
    for each in confine(["."], runnable):
        print(each, file=sys.stderr, flush=True)
    try:
        os.execv(program, [program, *words])
    except OSError as error:
        print(f"{program} can't be run: {error.strerror}", file=sys.stderr)
        sys.exit(3)


if __name__ == "__main__":
    become(*sys.argv[1:])
