"""The script `package`: what is in a release, and that its programs serve where there is no toolchain.

It makes a release of a clone of this repository, with the programs that are built here, and one of a few files with a
toolchain of a line, of which it refuses what is not committed, or not built. Where a release has to fail before it makes
anything, scripts stand for the programs.
"""
import hashlib
import os
import re
import shutil
import signal
import subprocess

from harness import ROOT, Failed, Test, path_of, put_files, want
from serve import Served, accounts_of, log_in
from sockets import Client
from web_server import read_web

PROGRAMS = ["pad_server", "pad_accounts", "pad_store", "pad_replay"]
KIT = "kit 1 of a test"
# The scripts are taken as they are here, whether or not they are committed.
SCRIPTS = ["package", "install", "serve", "docs/man"]


def run(*words, folder="clone"):
    who = {f"GIT_{who}_{what}": "ann@localhost" for who in ["AUTHOR", "COMMITTER"] for what in ["NAME", "EMAIL"]}
    environment = {**os.environ, **who, "PATH": f"{os.getcwd()}/bin:/usr/bin:/bin"}
    return subprocess.run(words, cwd=folder, env=environment, capture_output=True, text=True)


def put_script(path, text):
    put_files([(path, f"#!/bin/sh\n{text}\n")])
    os.chmod(path, 0o755)


def make_clone(program=None):
    """A clone whose state is committed, and behind that the programs: those that are built here, or a script in place of each."""
    os.mkdir("bin")
    put_script("bin/rt", f"echo '{KIT}'")
    want(run("git", "clone", "-q", ROOT, "clone", folder=".").returncode, 0, "the status of git clone")
    for name in SCRIPTS:
        shutil.copy(f"{ROOT}/{name}", f"clone/{name}")
    commit()
    for name in PROGRAMS:
        os.makedirs(f"clone/crates/{name}/out")
        if program:
            put_script(f"clone/crates/{name}/out/{name}", program)
            continue
        shutil.copyfile(path_of(name), f"clone/crates/{name}/out/{name}")
        os.chmod(f"clone/crates/{name}/out/{name}", 0o755)


def commit():
    want(run("git", "commit", "-q", "--allow-empty", "-a", "-m", "State").returncode, 0, "the status of git commit")


def make_release():
    """Makes a release, and returns its version."""
    make_clone()
    done = run("./package", "--to", f"{os.getcwd()}/made")
    want((done.returncode, done.stderr), (0, ""), "the status of package, and its messages")
    versions = [match[1] for match in map(re.compile(r"vindrughe_(.+)_amd64\.deb").fullmatch, os.listdir("made")) if match]
    want(len(versions), 1, "how many packages are made")
    want(sorted(os.listdir("made")), sorted(["SHA256SUMS", *files_of(versions[0])]), "the files of the release")
    return versions[0]


def files_of(version):
    return [f"vindrughe_{version}_amd64.deb", f"vindrughe-{version}-x86_64.tar.gz"]


def read(path):
    with open(path, encoding="utf-8") as file:
        return file.read()


def sum_of(path):
    with open(path, "rb") as file:
        return hashlib.sha256(file.read()).hexdigest()


def wants_sums(path, version, sums):
    """A file of sums names the version, the commit and the kit, and has these sums of these paths."""
    commit_here = run("git", "rev-parse", "HEAD").stdout.strip()
    lines = read(path).splitlines()
    want(lines[:3], [f"# Vindrughe {version}", f"# commit {commit_here}", f"# {KIT}"], f"the first lines of {path}")
    want(lines[3:], [f"{its_sum}  {name}" for name, its_sum in sums], f"the sums of {path}")


def unpack():
    version = make_release()
    deb, archive = files_of(version)
    run("dpkg-deb", "-x", f"made/{deb}", "root", folder=".")
    run("tar", "xf", f"made/{archive}", folder=".")
    return version


def sums_are_those_of_the_files(version):
    wants_sums("made/SHA256SUMS", version, [(name, sum_of(f"made/{name}")) for name in files_of(version)])
    built = {name: sum_of(path_of(name)) for name in PROGRAMS}
    in_root = [(f"/usr/bin/{name}", built[name]) for name in PROGRAMS]
    wants_sums("root/usr/share/doc/vindrughe/RELEASE", version, in_root)
    in_sources = [(f"crates/{name}/out/{name}", built[name]) for name in PROGRAMS]
    wants_sums(f"vindrughe-{version}/RELEASE", version, in_sources)
    for name in PROGRAMS:
        want(sum_of(f"root/usr/bin/{name}"), built[name], f"the sum of the installed {name}")
    done = run("sha256sum", "--check", "--strict", "--quiet", "RELEASE", folder=f"vindrughe-{version}")
    want((done.returncode, done.stdout), (0, ""), "what sha256sum says of the archive")


def the_package_has_what_a_service_needs(version):
    deb = f"made/{files_of(version)[0]}"
    fields = dict(line.split(": ", 1) for line in run("dpkg-deb", "-f", deb, folder=".").stdout.splitlines() if re.match(r"\w", line))
    named = [fields[name] for name in ["Package", "Version", "Architecture"]]
    want(named, ["vindrughe", version, "amd64"], "the fields of the package")
    want(re.match(r"libc6 \(>= 2\.\d+\)", fields["Depends"]) is not None, True, f"that {fields['Depends']} has a version of libc6")
    for path in [
        *(f"usr/share/man/man1/{name}.1.gz" for name in PROGRAMS),
        *(f"usr/share/doc/vindrughe/{name}" for name in ["README.md", "LICENSE-MIT", "LICENSE-APACHE", "NOTICE", "docs/RUNNING.md"]),
        "usr/lib/systemd/system/pad_server.service",
        "etc/pads/accounts.example",
    ]:
        want(os.path.exists(f"root/{path}"), True, f"that the package has {path}")
    user = re.search(r"^User=(\w+)$", read("root/usr/lib/systemd/system/pad_server.service"), re.MULTILINE)[1]
    want(read("root/usr/lib/sysusers.d/vindrughe.conf").split()[:2], ["u", user], "the system user, which is that of the unit")
    listed = run("dpkg-deb", "-c", deb, folder=".").stdout.splitlines()
    want({line.split()[1] for line in listed}, {"root/root"}, "the owners of what is in the package")


def the_installed_server_serves():
    put_files([("accounts", "author ann t1\n")])
    words = ["--listen", "127.0.0.1:0", "--web", "127.0.0.1:0", "--replica", "1", "--accounts", "accounts", "--store", "kept"]
    process = subprocess.Popen(["root/usr/bin/pad_server", *words], env={"PATH": "/usr/bin:/bin"}, stdout=subprocess.PIPE)
    port = int(process.stdout.readline().rsplit(b":", 1)[1])
    wants_page(read_web(process))
    ann = log_in(port, "ann", "t1")
    ann.does(do="create", pad="p")
    ann.does(do="insert", pad="p", rev=0, at=0, text="hello")
    want(ann.does(do="text", pad="p")["text"], "hello", "the text")
    process.kill()
    process.wait()
    done = subprocess.run(["root/usr/bin/pad_store", "check", "kept"], env={"PATH": "/usr/bin:/bin"}, capture_output=True, text=True)
    want((done.returncode, done.stdout.split()[:1]), (0, ["p"]), f"what pad_store says of the store, with {done.stderr}")


def wants_page(port):
    page = Client(port)
    page.send(f"GET / HTTP/1.1\r\nHost: 127.0.0.1:{port}\r\nConnection: close\r\n\r\n")
    want(page.replies.readline(), b"HTTP/1.1 200 OK\r\n", "the first line of the page")


def the_archive_serves_at_once(version):
    """`./serve` in the archive starts its program, without a toolchain and with one that builds nothing."""
    for path in ["/usr/bin:/bin", f"{os.getcwd()}/bin:/usr/bin:/bin"]:
        served = Served(script=f"vindrughe-{version}/serve", variables={"PATH": path})
        wants_page(served.web)
        log_in(served.port, *accounts_of("accounts")[0]).does(do="create", pad="p")
        served.process.send_signal(signal.SIGKILL)
        served.process.wait()
        shutil.rmtree("pads")


def a_release_serves():
    version = unpack()
    sums_are_those_of_the_files(version)
    the_package_has_what_a_service_needs(version)
    the_installed_server_serves()
    os.remove("accounts")
    the_archive_serves_at_once(version)


def a_release_is_made_twice_the_same():
    version = make_release()
    before = read("made/SHA256SUMS")
    want(run("./package", "--to", f"{os.getcwd()}/made").returncode, 0, "the status of the second time")
    want(read("made/SHA256SUMS"), before, f"the sums of {version}, made a second time")


def what_is_not_committed_or_built_is_refused():
    make_clone()
    server = "crates/pad_server/out/pad_server"
    source = "crates/pad_model/src/lib.rt"

    def refused(message):
        done = run("./package", "--to", f"{os.getcwd()}/made")
        want((done.returncode, done.stdout), (1, ""), f"the status and the output, with {done.stderr}")
        if message not in done.stderr:
            raise Failed(f"{done.stderr!r} lacks {message!r}")
        want(os.path.exists("made"), False, "that something is made")

    put_files([("clone/new", "")])
    refused("package: not everything is committed, such as new: a release is made of what is committed")
    os.remove("clone/new")
    now = os.stat(f"clone/{server}").st_mtime
    os.utime(f"clone/{source}", (now + 60, now + 60))
    refused(f"package: {server} is older than {source}: ./prove pad_server builds it again")
    os.utime(f"clone/{source}", (now - 60, now - 60))
    os.remove("clone/crates/pad_store/out/pad_store")
    refused("package: crates/pad_store/out/pad_store is not there: ./prove pad_store proves and builds it")
    os.rename("clone/.git", "clone/.was")
    refused("package: this folder is no git repository: the commit is not known")


PROGRAM = "echo program 0.1.0"
LIBRARIES = """if [ "$1" = -T ]; then echo '0 DF *UND* 0 (GLIBC_2.34) puts'; else echo '  NEEDED  libc.so.6'; fi"""


def a_failure_ends_it_with_a_message():
    make_clone(PROGRAM)
    put_script("bin/objdump", LIBRARIES)
    for tool, text, usual, message in [
        ("objdump", LIBRARIES.replace("libc.so.6", "libother.so.1"), LIBRARIES, "the programs need libother.so.1, and no package is known for it"),
        ("objdump", "exit 1", LIBRARIES, "objdump cannot read the programs"),
        ("objdump", LIBRARIES.replace("GLIBC", "OTHER"), LIBRARIES, "the programs do not name the version of libc6 that they need"),
        ("rt", "exit 3", f"echo '{KIT}'", "the version of the kit is not known: rt version has failed"),
        ("rt", "exit 0", f"echo '{KIT}'", "the version of the kit is not known: rt version has failed"),
    ]:
        put_script(f"bin/{tool}", text)
        done = run("./package", "--to", f"{os.getcwd()}/made")
        want((done.returncode, done.stdout, done.stderr), (1, "", f"package: {message}\n"), f"how package ends where {tool} is {text!r}")
        want(os.path.exists("made"), False, "that something is made")
        put_script(f"bin/{tool}", usual)


def words_are_refused():
    for words, status, part in [
        (["--to"], 2, "package: --to needs a folder"),
        (["--all"], 2, "package: unknown word: --all"),
    ]:
        done = subprocess.run([f"{ROOT}/package", *words], capture_output=True, text=True)
        want((done.returncode, part in done.stderr), (status, True), f"package {words}: {done.stderr}")
    done = subprocess.run([f"{ROOT}/package", "--help"], capture_output=True, text=True)
    want((done.returncode, done.stdout.startswith("Usage: ./package ")), (0, True), "package --help")


TESTS = [
    Test("package: a release has its sums, and serves without a toolchain", a_release_serves, 300),
    Test("package: a release is made twice the same", a_release_is_made_twice_the_same, 300),
    Test("package: what is not committed or built is refused", what_is_not_committed_or_built_is_refused, 60),
    Test("package: a failure ends it with a message", a_failure_ends_it_with_a_message, 120),
    Test("package: wrong words", words_are_refused),
]
