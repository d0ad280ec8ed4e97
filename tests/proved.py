"""What is proved in this checkout, and builds and checks over it.

`rt check`, `rt lib` and `rt run` prove a crate over what they kept in crates/NAME/out. `rt ci` proves from nothing, and leaves in out/
the libraries and programs that it made, but not the mark by which `rt lib` would know them, so that it would prove all of them again.
Right after an `rt ci` that passed, and while no file has changed since, its libraries and programs are therefore taken as they stand,
by rattle itself, the command that rt runs too."""
import functools
import hashlib
import os
import shutil
import subprocess

ROOT = os.path.dirname(os.path.dirname(os.path.abspath(__file__)))
PARTS = ("src", "specs", "proofs")


def listed(root):
    """By name, in the order of crates.txt, the words behind a crate's name and the libraries that it uses."""
    found = {}
    with open(os.path.join(root, "crates.txt")) as f:
        for line in f:
            head, colon, deps = line.partition("#")[0].partition(":")
            if colon and head.split():
                found[head.split()[0]] = (head.split()[1:], deps.split())
    return found


def below(crates, name):
    """The crates of the repository below one, each after those that it uses."""
    found = []
    for dep in crates[name][1]:
        if dep in crates:
            found += [it for it in [*below(crates, dep), dep] if it not in found]
    return found


def is_library(root, crates, name):
    """Whether other crates can use it."""
    return "staticlib" not in crates[name][0] and not os.path.exists(f"{root}/crates/{name}/src/main.rt")


def kit():
    found = shutil.which("rt")
    return os.path.dirname(os.path.dirname(os.path.realpath(found))) if found else ""


@functools.lru_cache(maxsize=None)
def text_sum(root=ROOT):
    """A sum of all that proofs and builds are made from."""
    found = hashlib.sha256(subprocess.run(["rt", "version"], stdout=subprocess.PIPE, check=True).stdout)
    paths = [os.path.join(root, name) for name in ("crates.txt", "HANDLES")]
    for name in listed(root):
        for part in PARTS:
            for at, folders, files in os.walk(f"{root}/crates/{name}/{part}"):
                folders.sort()
                paths += [os.path.join(at, it) for it in sorted(files)]
    for path in paths:
        if os.path.isfile(path):
            with open(path, "rb") as f:
                found.update(repr((os.path.relpath(path, root), f.read())).encode())
    return found.hexdigest()


def read(path):
    try:
        with open(path) as f:
            return f.read()
    except OSError:
        return ""


def note_passed(root=ROOT, sum=None):
    """Notes that `rt ci` has passed on the files as they stand."""
    os.makedirs(root + "/target", exist_ok=True)
    with open(root + "/target/passed", "w") as f:
        f.write(sum or text_sum(root))


def has_passed(root=ROOT):
    """Whether `rt ci` passed on these files, and what it made is what stands in out/."""
    crates = listed(root)
    made = [f"{root}/crates/{name}/out/rlib" for name in crates if is_library(root, crates, name)]
    whole = all(os.path.exists(f"{it}/{it.split('/')[-3]}.rlib/format") and not os.path.exists(it + "/stamp") for it in made)
    return whole and read(root + "/target/passed") == text_sum(root)


def words(root, name, *more):
    """The words that tell rattle of a crate, and of the libraries in out/ below it."""
    home, crates = kit(), listed(root)
    kind, deps = crates[name]
    found = ["--crate-name", name, "src/main.rt" if os.path.exists(f"{root}/crates/{name}/src/main.rt") else "src/lib.rt"]
    for it in ["std", *[dep for dep in deps if dep not in crates]]:
        found += ["--extern", f"{it}={home}/rlibs/{it}.rlib"]
    found += ["-L", f"dependency={home}/rlibs"]
    for it in [dep for dep in deps if dep in crates]:
        found += ["--extern", f"{it}={root}/crates/{it}/out/rlib/{it}.rlib"]
    for it in below(crates, name):
        found += ["-L", f"dependency={root}/crates/{it}/out/rlib"]
    found += ["--antt-project", f"{home}/rattle/logic/antt-project.json", "--logic-built", f"{home}/logic_built", "--links", f"{name}="]
    return found + ["--crate-type", "staticlib"] * ("staticlib" in kind) + list(more)


def source_words(root, name):
    """The words that tell rattle of a crate, and of the crates below it as sources: what proofs of theirs it reaches is checked with it."""
    home, crates = kit(), listed(root)
    found = ["--crate-name", name, "src/lib.rt", "-L", f"dependency={home}/rlibs"]
    for it in ("core", "std"):
        found += ["--extern", f"{it}={home}/rlibs/{it}.rlib"]
    for it in below(crates, name):
        found += ["--lib", f"{it}:{','.join(['core', 'std', *crates[it][1]])}={root}/crates/{it}/src/lib.rt"]
    return found + ["--antt-project", f"{home}/rattle/logic/antt-project.json", "--logic-built", f"{home}/logic_built", "--links", f"{name}="]


def copy_kept(kept, to):
    """A copy of an incremental directory, by links: a check puts other files in place of those that it finds, and changes none."""
    shutil.copytree(kept, to, copy_function=os.link)


def run(command, folder):
    """Status and output of a command; `rt run` reads nothing."""
    p = subprocess.run(command, cwd=folder, stdin=subprocess.DEVNULL, stdout=subprocess.PIPE, stderr=subprocess.STDOUT, errors="replace")
    return p.returncode, p.stdout


def rattle(folder, *its_words):
    return run([kit() + "/bin/rattle", *its_words], folder)


# ---- builds

def archive(root=ROOT):
    return f"{root}/crates/capi/out/libcapi.a"


def program(name, root=ROOT):
    return f"{root}/crates/{name}/out/{name}"


def made_of(path):
    """What is written beside a file that was built: of which texts it is, and which file."""
    with open(path, "rb") as f:
        return text_sum() + " " + hashlib.sha256(f.read()).hexdigest()


def is_made(path):
    return os.path.exists(path) and read(path + ".of") == made_of(path)


def note_made(path):
    with open(path + ".of", "w") as f:
        f.write(made_of(path))


def build_library(to=None, toolchain=None):
    """The static library of crates/capi: out/libcapi.a, or another file by another toolchain. What went wrong, or nothing."""
    folder, to = f"{ROOT}/crates/capi", to or archive()
    if toolchain is None and is_made(to):
        return ""
    kept = []
    if not has_passed():
        status, said = run(["rt", "lib"], folder)
        if status:
            return said
        kept = ["--incremental", "out/incremental"]
    if not kept or toolchain:
        os.makedirs(folder + "/out", exist_ok=True)
        tools = ["--toolchain", toolchain or kit() + "/toolchain", "--backend", "llvm", "-o", to]
        status, said = rattle(folder, "build", *words(ROOT, "capi", *kept, "--jobs", "2", *tools))
        if status:
            return said
    if toolchain is None:
        note_made(to)
    return ""


def build_programs(names):
    """crates/NAME/out/NAME. What went wrong, or nothing."""
    for name in names:
        if is_made(program(name)):
            continue
        if not (has_passed() and os.path.exists(program(name))):
            status, said = run(["rt", "run"], f"{ROOT}/crates/{name}")
            if status:
                return said
        note_made(program(name))
    return ""
