"""The Debian packages whose code is measured: fetched by apt-get into a folder, and compiled to clang's text form."""
import dataclasses
import pathlib
import re
import shutil
import subprocess

CLANG_VERSION = "14"  # a later one writes pointers without their types
CLANG = ["clang", "-O2", "-fno-vectorize", "-fno-slp-vectorize", "-w", "-S", "-emit-llvm", "-o", "-"]
ARCHIVE = "deb http://deb.debian.org/debian bookworm main\ndeb-src http://deb.debian.org/debian bookworm main\n"
TOOLS = ["f2c", "libf2c2-dev", "libgpg-error-dev"]  # binary packages that are unpacked in the folder, and not installed
COMMANDS = ("apt-get", "dpkg", "dpkg-source", "clang")  # that all packages need
SECONDS = 120  # that clang may take for a file


class Missing(Exception):
    """What can't be done here, and why, in one line."""


@dataclasses.dataclass(frozen=True)
class Package:
    """A source package, which of its files are taken, and what clang needs to know of them."""

    source: str
    files: str
    flags: tuple = ()
    folders: tuple = (".",)
    prepare: str = ""  # a command that makes what is missing
    commands: tuple = ()  # that this takes


JPEG = ("-DBITS_IN_JSAMPLE=8", "-DJPEG_LIB_VERSION=80", "-DINLINE=inline", "-DTHREAD_LOCAL=", "-DSIZEOF_SIZE_T=8", "-DFALLTHROUGH=",
        "-DC_ARITH_CODING_SUPPORTED", "-DD_ARITH_CODING_SUPPORTED", '-DBUILD=""', '-DPACKAGE_NAME=""', '-DVERSION=""')  # fmt: skip
GSL = ("-DHAVE_INLINE", "-DGSL_COERCE_DBL(x)=(x)", "-DRELEASED=1", "-DHAVE_DECL_FINITE=1", "-DHAVE_DECL_ISNAN=1")
LUA_HEADER = "echo '#define DEB_HOST_MULTIARCH \"\"' > src/lua5.4-deb-multiarch.h"
GSL_HEADERS = "mkdir -p headers/gsl && cp gsl_*.h */gsl_*.h headers/gsl/"
PACKAGES = {
    "zlib": Package("zlib", "*.c"),
    "bzip2": Package("bzip2", "*.c"),
    "lua": Package("lua5.4", "src/*.c", prepare=LUA_HEADER),
    "minpack": Package("minpack", "*.f"),
    "jpeg": Package("libjpeg-turbo", "*.c", JPEG),
    "xfoil": Package("xfoil", "src/*.f"),
    "blas": Package("lapack", "BLAS/SRC/*.f"),
    "lapack": Package("lapack", "SRC/*.f"),
    "sqlite": Package("sqlite3", "tsrc/*.c", folders=("tsrc",), prepare="./configure && make .target_source", commands=("cc", "make", "tclsh")),
    "gsl": Package("gsl", "*/*.c", GSL, (".", "headers"), GSL_HEADERS),
    "fftw": Package("fftw3", "*/scalar/*/*.c", ("-DSIZEOF_VOID_P=8", "-DSIZEOF_UNSIGNED_LONG=8"), (".", "dft", "rdft", "kernel")),
    "gcrypt": Package("libgcrypt20", "[cm]*/*.c", ("-DHAVE_CONFIG_H",), (".", "src", "mpi", "mpi/generic", "cipher"), "./configure --disable-asm", ("cc",)),
    "phalanx": Package("phalanx", "*.c"),
}


def look_about(names):
    """Fails if a command is missing that these packages take, or clang is another."""
    needed = dict.fromkeys([*COMMANDS, *(command for name in names for command in PACKAGES[name].commands)])
    missing = [command for command in needed if not shutil.which(command)]
    if missing:
        raise Missing(f"not on the PATH: {', '.join(missing)}; on Debian 12, apt-get install clang dpkg-dev gcc make tcl")
    version = subprocess.run(["clang", "-dumpversion"], capture_output=True, text=True).stdout.strip()
    if version.split(".")[0] != CLANG_VERSION:
        raise Missing(f"clang is {version}, and only the text form of clang {CLANG_VERSION} is read here")


class Archive:
    """A folder into which apt-get puts packages; it has lists and caches of its own."""

    def __init__(self, folder):
        self.folder = pathlib.Path(folder).resolve()
        for name in ("lists/partial", "cache/archives/partial", "sources", "tools", "headers"):
            (self.folder / name).mkdir(parents=True, exist_ok=True)
        for name in ("config.h", "jconfig.h", "jconfigint.h"):  # what configure would make; empty ones do
            (self.folder / "headers" / name).touch()
        (self.folder / "sources.list").write_text(ARCHIVE)

    def apt_get(self, *words):
        places = {"Dir::Etc::sourcelist": "sources.list", "Dir::State::lists": "lists", "Dir::Cache": "cache"}
        settings = {"Dir::Etc::sourceparts": "-", "APT::Sandbox::User": "", "APT::Update::Error-Mode": "any"}
        settings.update((name, self.folder / place) for name, place in places.items())
        options = [word for name, value in settings.items() for word in ("-o", f"{name}={value}")]
        self.run(["apt-get", "-qq", *options, *words], self.folder / "sources", f"apt-get {words[0]} fails: no network, or no way to Debian's archive")

    def run(self, words, folder, failing):
        """Runs a command whose output goes to the log; `failing` tells why it may fail."""
        with open(self.folder / "log", "ab") as log:
            ended = subprocess.run(words, cwd=folder, stdin=subprocess.DEVNULL, stdout=log, stderr=log)
        if ended.returncode:
            raise Missing(f"{failing}; the end of {self.folder / 'log'} says more")

    def tools(self):
        """Fetches what compiles Fortran and what libgcrypt includes, unless they are there."""
        if not any((self.folder / "lists").glob("*_Sources*")):
            self.apt_get("update")
        if not (self.folder / "tools/usr").exists():
            self.apt_get("download", *TOOLS)
            for file in (self.folder / "sources").glob("*.deb"):
                self.run(["dpkg", "-x", str(file), str(self.folder / "tools")], self.folder, f"dpkg doesn't unpack {file.name}")

    def source(self, package):
        """The folder of a package's source, fetched and prepared unless it is there."""
        place = self.place(package)
        if not place:
            self.apt_get("source", "--only-source", package.source)
            place = self.place(package)
        if package.prepare and not (place / "is-prepared").exists():
            self.run(["sh", "-c", package.prepare], place, f"{package.prepare} fails")
            (place / "is-prepared").touch()
        return place

    def place(self, package):
        """The folder of a package's source, whose name ends in its version."""
        found = [path for path in (self.folder / "sources").iterdir() if path.is_dir() and re.fullmatch(re.escape(package.source) + r"-\d.*", path.name)]
        return found[0] if found else None

    def compiled(self, package, file):
        """A file in clang's text form, or nothing if it isn't compiled."""
        place, tools = self.place(package), self.folder / "tools/usr"
        folders = [place / name for name in package.folders] + [file.parent, self.folder / "headers", tools / "include", tools / "include/x86_64-linux-gnu"]
        words = [*CLANG, *package.flags, *(f"-I{folder}" for folder in folders)]
        given = None
        if file.suffix == ".f":
            made = subprocess.run([str(tools / "bin/f2c"), "-A", "-w", f"-I{file.parent}"], stdin=open(file, "rb"), capture_output=True, cwd=file.parent)
            if made.returncode:
                return ""
            words, given = [*words, "-x", "c", "-"], made.stdout
        else:
            words.append(str(file))
        try:
            done = subprocess.run(words, input=given, capture_output=True, timeout=SECONDS)
        except subprocess.TimeoutExpired:
            return ""
        return "" if done.returncode else done.stdout.decode("latin-1")


def spread(files, count):
    """So many of the files, evenly spread; all of them if there is no count."""
    files = sorted(files)
    if not count or len(files) <= count:
        return files
    return [files[n * len(files) // count] for n in range(count)]
