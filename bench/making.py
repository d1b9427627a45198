"""What the bench needs, made if it is missing or older than its sources: Debian's packages, S2's classes, the static library of ours, and
programs. All that is made lies in bench/out, which git ignores."""
import glob
import os
import platform
import shutil
import subprocess
import sys
import tempfile
import time

BENCH = os.path.dirname(os.path.realpath(__file__))
TOP = os.path.dirname(BENCH)
OUT = f"{BENCH}/out"
sys.path.insert(0, f"{TOP}/tools")
import kept  # noqa: E402
import workspace  # noqa: E402

PACKAGES = ("libs2-dev", "g++", "valgrind", "python3-pandas", "python3-dask", "python3-distributed")
# The crates that ours is built on: doors, and two rooms whose definitions and lemmas its proofs cite.
USED = ("s2id_core", "s2id_union", "s2id_cube", "s2ix_bag", "s2ix_edit", "s2ix_table", "s2ix_text", "s2ix_bag_pairs", "s2ix_table_walk")
FLAGS = ("-std=c++17", "-O2", "-DNDEBUG", "-Wall", "-Wextra", "-Wno-unused-parameter", "-Wno-deprecated-declarations")
# The classes of S2 that are measured. Debian builds its library without NDEBUG, so that S2 checks its own conditions (S2_DCHECK) as it runs.
# The bench compiles these classes from Debian's source with FLAGS, and takes from the library only what they call beside that.
S2_CLASSES = ("s2cell_id", "s2cell_index", "s2cell_union")
# (the library names the libraries of absl that it needs; what is compiled here needs some of them too)
S2 = ("-Wl,--copy-dt-needed-entries", "-ls2")
ARCHIVE = "[signed-by=/usr/share/keyrings/debian-archive-keyring.gpg] http://deb.debian.org/debian"
PROGRAMS = {"session": ("session", "turns", "s2_side", "read_dump", "scene"), "script": ("script", "read_dump"), "texts": ("texts", "scene"),
            "edits": ("edits", "scene"), "at_once": ("at_once",), "doors": ("doors", "scene"), "threads": ("threads", "scene")}


def say(text):
    print(f"bench: {text}", file=sys.stderr, flush=True)


def run(words, **how):
    """Runs a command, and ends the bench if it fails."""
    if subprocess.run(words, **how).returncode:
        sys.exit(f"bench: this failed: {' '.join(words)}")


def files_of(folder):
    return [f"{at}/{name}" for at, _, names in os.walk(folder) for name in names]


def is_current(made, sources):
    """Whether a file is there and as new as each of its sources."""
    return os.path.exists(made) and all(os.path.getmtime(source) <= os.path.getmtime(made) for source in sources)


def version_of(package, of="Version"):
    """The version of a package that is installed, or nothing; 'source:Version' is that of its source."""
    words = ["dpkg-query", "-W", "-f", f"${{db:Status-Status}} ${{{of}}}", package]
    status, _, version = subprocess.run(words, capture_output=True, text=True).stdout.partition(" ")
    return version if status == "installed" else ""


def install_packages(*packages):
    """Installs some of Debian's packages, if they are missing."""
    missing = [package for package in packages if not version_of(package)]
    if not missing:
        return
    as_root = [] if os.geteuid() == 0 else ["sudo"]
    if as_root and not shutil.which("sudo"):
        sys.exit(f"bench: install {' '.join(missing)} as root first: there is no sudo")
    say(f"installing {', '.join(missing)} by apt-get")
    for words in (["update"], ["install", "-y", "--no-install-recommends", *missing]):
        run([*as_root, "apt-get", "-q", *words], stdin=subprocess.DEVNULL, stdout=subprocess.DEVNULL)


def s2_folder():
    """Where the source of the S2 that is installed lies, and its compiled classes."""
    return f"{OUT}/s2geometry-{version_of('libs2-dev', 'source:Version')}"


def fetch_s2():
    """Fetches the source of the S2 that is installed, by apt-get, with a list of sources of its own."""
    version = version_of("libs2-dev", "source:Version")
    say(f"fetching Debian's source of S2, s2geometry {version}, by apt-get")
    with tempfile.TemporaryDirectory(prefix="source-", dir=OUT) as room:
        with open(f"{room}/sources.list", "w", encoding="utf-8") as file:
            file.write(f"deb-src {ARCHIVE} {platform.freedesktop_os_release()['VERSION_CODENAME']} main\n")
        os.makedirs(f"{room}/lists/partial")
        settings = {"Dir::Etc::SourceList": f"{room}/sources.list", "Dir::Etc::SourceParts": "/dev/null",
                    "Dir::State::Lists": f"{room}/lists", "Dir::Cache": room, "APT::Sandbox::User": "root"}
        apt = ["apt-get", "-qq", *(word for name, value in settings.items() for word in ("-o", f"{name}={value}"))]
        for words in (["update"], ["source", "--download-only", f"s2geometry={version}"]):
            run([*apt, *words], cwd=room, stdin=subprocess.DEVNULL, stdout=subprocess.DEVNULL)
        # (Debian's own changes lie beside this archive, and none is to S2_CLASSES)
        [archive] = glob.glob(f"{room}/s2geometry_*.orig.tar.*")
        shutil.unpack_archive(archive, f"{room}/unpacked")
        [unpacked] = glob.glob(f"{room}/unpacked/*")
        os.replace(unpacked, s2_folder())


def compiled_s2():
    """The compiled classes of S2 that are measured, one file each."""
    return [f"{s2_folder()}/{name}.o" for name in S2_CLASSES]


def make_s2():
    folder = s2_folder()
    if not os.path.isdir(folder):
        fetch_s2()
    for name, made in zip(S2_CLASSES, compiled_s2()):
        source = f"{folder}/src/s2/{name}.cc"
        if not is_current(made, [source]):
            say(f"compiling S2's {name}")
            run(["g++", *FLAGS, "-w", f"-I{folder}/src", "-c", source, "-o", made])


def lay_ours(folder):
    """Lays the bench's crate into a workspace: only there its files bear names that the toolchain reads."""
    for path in files_of(f"{BENCH}/ours"):
        laid = f"{folder}/crates/{os.path.relpath(path, BENCH)}".removesuffix(".in")
        os.makedirs(os.path.dirname(laid), exist_ok=True)
        shutil.copy(path, laid)


def make_library():
    """Proves and builds libours.a in a workspace of its own, outside this repository."""
    crates = workspace.with_below(USED)
    sources = files_of(f"{BENCH}/ours") + [path for folder in workspace.sources(crates) for path in files_of(f"{TOP}/{folder}")]
    library = f"{OUT}/libours.a"
    if is_current(library, sources):
        return
    started = time.time()
    say(f"proving {len(crates)} crates and the bench's own, and building a static library; from nothing this takes 10 to 30 minutes")
    try:
        with workspace.proved(USED, say) as folder:
            lay_ours(folder)
            say("proving the bench's own crate")
            workspace.build_static("ours", USED, folder, f"{OUT}/incremental", f"{OUT}/libours.new")
    except workspace.NotProved as error:
        sys.exit(f"{error}\nbench: a crate is not proved, so nothing was run")
    # (as old as the sources that were proved: what changed meanwhile is newer)
    os.utime(f"{OUT}/libours.new", (started, started))
    os.replace(f"{OUT}/libours.new", library)


def make_c_library():
    """Makes the library for C, libs2ix.a."""
    run([f"{TOP}/tools/build_library", OUT])


def linked_with(program):
    """What a program is linked with besides its own parts. (liblibc_c.a gives memory to a static library)"""
    if program == "session":
        return [*compiled_s2(), f"{OUT}/libours.a", f"{kept.kit()}/c/liblibc_c.a"]
    if program in ("edits", "doors", "threads"):
        return [*compiled_s2(), f"{OUT}/libs2ix.a", "-lpthread"]
    if program == "at_once":
        return [f"{OUT}/libs2ix.a", "-lpthread"]
    return compiled_s2()


def make_programs():
    clients = f"{TOP}/clients/cpp"
    headers = [path for path in files_of(f"{BENCH}/cpp") if path.endswith(".h")] + files_of(clients)
    for program, parts in PROGRAMS.items():
        sources = [f"{BENCH}/cpp/{part}.cpp" for part in parts]
        linked = linked_with(program)
        if not is_current(f"{OUT}/{program}", [*sources, *headers, *(path for path in linked if os.path.isabs(path))]):
            say(f"compiling {program}")
            run(["g++", *FLAGS, f"-I{BENCH}/cpp", f"-I{TOP}/include", f"-I{clients}", *sources, *linked, *S2, "-o", f"{OUT}/{program}"])


def make_all():
    if not shutil.which("rt"):
        sys.exit("bench: there is no rt on the path: README says which toolchain it is of")
    os.makedirs(OUT, exist_ok=True)
    install_packages(*PACKAGES)
    make_s2()
    make_library()
    make_c_library()
    make_programs()
