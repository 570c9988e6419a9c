"""Programs that stand beside the crates: those of Rattle, which run by `rt try`, and those over the Rust crate, which cargo builds."""
import contextlib
import hashlib
import json
import os
import pathlib
import re
import shutil
import signal
import subprocess
import sys
import tempfile
import threading
import time

from sources import TOP, files_below, read

TARGET = f"{TOP}/bench/target"
# The crate that the benchmark measures, which is not in crates.txt: its name, where its files stand, and what it uses.
KERNELS = "constriction_kernels"
OF_KERNELS = "bench/kernels"
KERNELS_USE = "constriction constriction_client constriction_words constriction_coders constriction_tables"
# How `rt ci` says that a crate is proved.
PROVED = re.compile(r"^rt: (\w+) (?:is kept|proved)", re.M)
# The commands that the tools run, and where they come from.
COMMANDS = {
    "rt": "install the kit of Rattle, whose command it is, and have it on the PATH",
    "cargo": "install Rust, by https://rustup.rs or the system's package cargo",
    "cc": "install a compiler of C, as the system's package gcc",
    "objcopy": "install the system's package binutils",
    "dot": "install the system's package graphviz",
    "gnuplot": "install the system's package gnuplot-nox",
}


def say(text):
    print(f"{os.path.basename(sys.argv[0])}: {text}", file=sys.stderr, flush=True)


def stop(why, said="", status=3):
    """Ends the tool with a reason, after the last of what a command said."""
    print(said[-3000:], end="", file=sys.stderr)
    say(why)
    sys.exit(status)


def need(*commands, status=3):
    for it in commands:
        if not shutil.which(it):
            stop(f"{it} is missing: {COMMANDS[it]}", status=status)


def crate_in(folder):
    """Returns the files of a crate by their paths. Here they end in .txt, since `rt ci` refuses files of a crate that crates.txt lacks."""
    paths = {it: it.removeprefix(f"{folder}/").removesuffix(".txt") for it in files_below(folder, ".txt")}
    return {path if path.endswith(".antt") else f"src/{path}": read(it) for it, path in paths.items()}


def write_files(folder, files):
    for it, text in files.items():
        path = pathlib.Path(folder, it)
        path.parent.mkdir(parents=True, exist_ok=True)
        path.write_text(text, encoding="utf-8")


def tend(ran):
    """Has what `rt try` starts take no more of the processors than it needs.

    It tries in a session of its own, and Linux gives each session the same share, however nice its processes are: so the session gets the
    niceness of this process. Beside that it reads all sources once more, for a hint that nobody reads here, which is ended.
    """
    children = pathlib.Path(f"/proc/{ran.pid}/task/{ran.pid}/children")
    while ran.poll() is None:
        with contextlib.suppress(OSError):
            for it in children.read_text().split():
                if os.getsid(int(it)) == int(it):
                    with contextlib.suppress(OSError):
                        pathlib.Path(f"/proc/{it}/autogroup").write_text(str(os.nice(0)))
                elif b"\0no function\0" in pathlib.Path(f"/proc/{it}/cmdline").read_bytes():
                    os.kill(int(it), signal.SIGKILL)
                    return
        time.sleep(0.1)


def run_try(folder, *words):
    """Runs `rt try` in the folder of a crate, and returns how it ended, with what it printed and said."""
    how = {"stdin": subprocess.DEVNULL, "stdout": subprocess.PIPE, "stderr": subprocess.PIPE, "text": True, "errors": "replace"}
    with subprocess.Popen(["rt", "try", *words], cwd=folder, **how) as ran:
        threading.Thread(target=tend, args=[ran], daemon=True).start()
        printed, said = ran.communicate()
    return subprocess.CompletedProcess(ran.args, ran.returncode, printed, said)


def tried(program, name, uses, files, *flags):
    """Tries the crate `name`, of the files NAME.rt.txt of a folder and of more files: checked as it runs, and not proved.

    It stands in a copy of the repository, where it may use the benchmark's kernels too. Returns how `rt try` ended with these flags.
    """
    need("rt")
    with tempfile.TemporaryDirectory(prefix=f"{name}-") as folder:
        for part in (f"crates/{crate}/src" for crate in os.listdir(f"{TOP}/crates")):
            if os.path.isdir(f"{TOP}/{part}"):
                shutil.copytree(f"{TOP}/{part}", f"{folder}/{part}")
        write_files(f"{folder}/crates/{name}", {**crate_in(program), **files})
        write_files(f"{folder}/crates/{KERNELS}", crate_in(OF_KERNELS))
        lines = f"{read('crates.txt')}{KERNELS}: {KERNELS_USE}\n{name}: {uses}\n"
        write_files(folder, {"HANDLES": read("HANDLES"), "crates.txt": lines})
        return run_try(f"{folder}/crates/{name}", *flags)


def is_current(path, *more):
    """Returns whether a file was made after the last change of these files, and of the crates that it may be made of."""
    parts = [f"crates/{crate}/{part}" for crate in os.listdir(f"{TOP}/crates") for part in ("src", "specs", "proofs")]
    sources = ["crates.txt", *more, *(it for part in parts for it in files_below(part, ""))]
    return os.path.exists(path) and all(os.path.getmtime(f"{TOP}/{it}") <= os.path.getmtime(path) for it in sources)


def lines_below(crates):
    """Returns the lines of crates.txt of crates, and those of the crates below them, by their names."""
    lines = {it.partition(":")[0]: it for it in read("crates.txt").splitlines()}
    found, names = {}, [*crates]
    for name in names:
        if name in lines and name not in found:
            found[name] = lines[name]
            names += lines[name].partition(":")[2].split()
    return found


def copy_crates(lines, folder):
    """Copies crates but for their wrong bodies, and what else rt reads."""
    shutil.copy(f"{TOP}/HANDLES", folder)
    with open(f"{folder}/crates.txt", "w", encoding="utf-8") as file:
        file.writelines(f"{it}\n" for it in lines.values())
    for name in lines:
        os.makedirs(f"{folder}/crates/{name}")
        for path in (f"crates/{name}/{part}" for part in ("src", "specs", "proofs", "stdin", "stdout")):
            if os.path.exists(f"{TOP}/{path}"):
                (shutil.copytree if os.path.isdir(f"{TOP}/{path}") else shutil.copy)(f"{TOP}/{path}", f"{folder}/{path}")


def prove(crates, folder):
    """Proves crates and those below them, without their wrong bodies, in a copy in a folder, and builds the programs among them.

    `rt ci` proves all that it finds, so it runs in a copy. Each ten seconds standard error is told how far it is. Returns what rt said if not
    all is proved, else nothing.
    """
    started, lines = time.time(), lines_below(crates)
    copy_crates(lines, folder)
    with tempfile.TemporaryFile("w+", errors="replace") as file:
        ran = subprocess.Popen(["rt", "ci"], cwd=folder, stdin=subprocess.DEVNULL, stdout=file, stderr=subprocess.STDOUT)
        try:
            while ran.poll() is None:
                time.sleep(1)
                said = os.pread(file.fileno(), os.fstat(file.fileno()).st_size, 0).decode(errors="replace")
                if (seconds := int(time.time() - started)) % 10 == 0:
                    say(f"{seconds} s: {len(set(PROVED.findall(said)))} of {len(lines)} crates are proved")
        finally:
            if ran.poll() is None:
                # it ends the proofs that run
                ran.send_signal(signal.SIGINT)
        file.seek(0)
        return file.read() if ran.wait() else ""


def with_libraries(crates, folder):
    """Returns a folder in which `rt ci` built libraries and those below them: the checkout, if it did so there since the last change of a
    source, else the given one, where they are proved first. Stops where they are not proved."""
    # a library with a stamp is of another command, and fits only those that this one built
    folders = {it: f"{TOP}/crates/{it}/out/rlib" for it in lines_below(crates)}
    if all(is_current(f"{at}/{it}.rlib") and not os.path.exists(f"{at}/stamp") for it, at in folders.items()):
        return TOP
    if said := prove(crates, folder):
        stop(f"not all of {', '.join(crates)} are proved", said)
    return folder


def flags_over(names, built):
    """Returns the flags of rt that name libraries, and those below them, which `rt ci` built in a folder."""
    below = {it: f"{built}/crates/{it}/out/rlib" for it in lines_below(names)}
    named = [f"{it}={below[it]}/{it}.rlib" for it in names if it in below]
    return [it for path in below.values() for it in ("-L", f"dependency={path}")] + [it for name in named for it in ("--extern", name)]


def copy_alone(crate, built, folder):
    """Copies a crate for `rt check` over the libraries that `rt ci` built in a folder, and returns the flags that name them."""
    line, below = lines_below([crate])[crate], {*lines_below([crate])} - {crate}
    copy_crates({crate: " ".join(it for it in line.split() if it not in below)}, folder)
    # with a folder of its own for what it keeps, rt takes none that another check kept
    os.makedirs(f"{folder}/crates/{crate}/out/incremental")
    return flags_over([it for it in line.split()[1:] if it in below], built)


def add_tried(crate):
    """Puts the tests in tried/ beside those of a copy of their crate."""
    tried = files_below(f"crates/{os.path.basename(crate)}/tried", ".rt.txt")
    tried = {os.path.basename(it).removesuffix(".txt"): f"{TOP}/{it}" for it in tried}
    root, own = (pathlib.Path(it).read_text(encoding="utf-8") for it in (tried.pop("lib.rt"), f"{crate}/src/lib.rt"))
    others = [it for it in re.findall(r"^mod (\w+);$", own, re.M) if f"\nmod {it};\n" not in root]
    root += "".join(f"#[cfg(test)]\nmod {it};\n" for it in others)
    pathlib.Path(f"{crate}/src/lib.rt").write_text(root, encoding="utf-8")
    for name, path in tried.items():
        shutil.copy(path, f"{crate}/src/{name}")


# The Rust crate constriction 0.5.0: in a folder, or the registry's where this is None


def check_crate(folder):
    """Stops where a folder is not the crate's."""
    manifest = pathlib.Path(folder or TOP, "Cargo.toml")
    text = manifest.read_text(encoding="utf-8") if manifest.is_file() else ""
    if folder and not all(re.search(line, text, re.M) for line in (r'^name *= *"constriction"', r'^version *= *"0\.5\.0"')):
        stop(f"{folder} has no Cargo.toml of the crate constriction 0.5.0: give --crate the folder of its sources")


def packages(*words):
    """Returns each package that cargo finds for a manifest, by its name, with its folder and whether it came from a registry."""
    ran = subprocess.run(["cargo", "metadata", "--format-version", "1", *words], capture_output=True, text=True)
    found = json.loads(ran.stdout)["packages"] if ran.returncode == 0 else []
    return {it["name"]: (os.path.dirname(it["manifest_path"]), it["source"] is not None) for it in found}


def patches(folder):
    """Returns cargo's words for the crate in a folder, and for what it depends on by its own paths."""
    found = packages("--offline", "--manifest-path", f"{folder}/Cargo.toml")
    own = {name: path for name, (path, is_fetched) in found.items() if name in ("num-traits", "smallvec") and not is_fetched}
    paths = {"constriction": os.path.abspath(folder), **own}
    return [word for name, path in paths.items() for word in ("--config", f"patch.crates-io.{name}.path={json.dumps(path)}")]


def checksums(folder):
    """Returns the first 16 digits of the sha256 of each source of the crate."""
    folder = folder or packages("--manifest-path", f"{TOP}/bench/cases/Cargo.toml").get("constriction", ("",))[0]
    if not folder:
        stop("cargo does not say where the crate constriction 0.5.0 is: give the folder of its sources, by --crate FOLDER")
    paths = sorted(pathlib.Path(folder, "src").rglob("*.rs"), key=str)
    return {str(it.relative_to(folder)): hashlib.sha256(it.read_bytes()).hexdigest()[:16] for it in paths}


def built(package, program, folder, env=None):
    """Builds a package of bench/ over the crate, which is fetched only if cargo does not have it, and returns the path of its program."""
    need("cargo")
    check_crate(folder)
    words = ["cargo", "build", "--release", "--manifest-path", f"{TOP}/bench/{package}/Cargo.toml", "--target-dir", TARGET]
    words += patches(folder) if folder else []
    for more in (["--offline"], []):
        ran = subprocess.run([*words, *more], stdout=subprocess.PIPE, stderr=subprocess.STDOUT, text=True, env=env)
        if ran.returncode == 0:
            return f"{TARGET}/release/{program}"
    stop("the program over the Rust crate was not built; --crate FOLDER takes the crate's sources from a folder", ran.stdout)
