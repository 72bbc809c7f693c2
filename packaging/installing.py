#!/usr/bin/env python3
"""Install and remove the program, the library for C and the page, for `build` and `try`.

Everything is installed below a prefix, which pkg-config and CMake files name. DESTDIR, if set, is
put before all places: it is the folder in which a package is gathered. LIBDIR is the folder of
libraries, an absolute name or one below the prefix (default: lib).

    packaging/installing.py ARCHIVE     link the shared library of an archive, beside it
"""
import contextlib
import os
import re
import secrets
import shlex
import shutil
import subprocess
import sys
from typing import NamedTuple, Optional

TOP = os.path.dirname(os.path.dirname(os.path.abspath(__file__)))
LIBRARY = "libastc_tool"


class Item(NamedTuple):
    """A file that is copied to its place with a mode, or without a mode a link there."""
    place: str
    source: str
    mode: Optional[int]


class Folders:
    """The prefix, the folder of libraries, and DESTDIR, which is put before both."""

    def __init__(self, prefix, environment):
        self.prefix = os.path.abspath(prefix)
        self.libdir = os.path.normpath(os.path.join(self.prefix, environment.get("LIBDIR") or "lib"))
        destdir = environment.get("DESTDIR")
        self.destdir = os.path.abspath(destdir).rstrip("/") if destdir else ""

    def libdir_below(self):
        """The folder of libraries by its name below the prefix; None if it is not below it."""
        name = os.path.relpath(self.libdir, self.prefix)
        return None if name == "." or name.startswith("..") else name


def is_asked(words):
    """Whether words are none, or `install PREFIX` or `uninstall PREFIX`."""
    return not words or len(words) == 2 and words[0] in ("install", "uninstall") and not words[1].startswith("-") and words[1] != ""


# ---- the version and the names, by the header


def header():
    with open(f"{TOP}/include/astc_tool.h", encoding="utf-8") as file:
        return file.read()


def version():
    number = int(re.search(r"^#define ASTC_VERSION (0x[0-9A-Fa-f]+)u$", header(), re.M)[1], 16)
    return number >> 16, number >> 8 & 255, number & 255


def functions():
    return re.findall(r"^uint32_t (\w+)\(", header(), re.M)


def shared_names():
    """The shared library's own name, the one that programs are linked with, and the one that linkers look for."""
    numbers = version()
    return f"{LIBRARY}.so.{numbers[0]}.{numbers[1]}.{numbers[2]}", f"{LIBRARY}.so.{numbers[0]}", f"{LIBRARY}.so"


# ---- what is installed


def program_items(folders, program):
    share, name = f"{folders.prefix}/share", "astc_tool"
    texts = [(f"man/{name}.1", f"man/man1/{name}.1"), (f"man/{name}-examples.1", f"man/man1/{name}-examples.1"),
             (f"man/{name}.bash", f"bash-completion/completions/{name}"), (f"man/{name}.zsh", f"zsh/site-functions/_{name}"),
             (f"man/{name}.fish", f"fish/vendor_completions.d/{name}.fish"), ("LICENSE", f"licenses/{name}/LICENSE")]
    return ([Item(f"{folders.prefix}/bin/{name}", program, 0o755)] + [Item(f"{share}/{place}", f"{TOP}/{source}", 0o644) for source, place in texts] +
            [item for example in EXAMPLES for item in example_items(folders.prefix, example)] +
            [Item(f"{folders.prefix}/{PRIVATE}/{file}", f"{TOP}/examples/{file}", 0o644) for file in SHARED])


# the examples that are installed, and the files that they share
EXAMPLES = ("convert_picture", "make_levels", "pack_folder", "pack_parallel", "pack_picture", "show_differences")
SHARED = ("one_colour.pam", "pictures.py", "shared.bash")
PRIVATE = "libexec/astc_tool"


def example_items(prefix, example):
    """An example in a folder of its own, with a link on the path and one to the page of all examples."""
    command = f"astc_tool-{example.replace('_', '-')}"
    return [Item(f"{prefix}/{PRIVATE}/{example}", f"{TOP}/examples/{example}", 0o755),
            Item(f"{prefix}/bin/{command}", f"../{PRIVATE}/{example}", None),
            Item(f"{prefix}/share/man/man1/{command}.1", "astc_tool-examples.1", None)]


def library_items(folders, made=""):
    """The library's files, of which `made` has those that `make_library` makes, and the archive."""
    prefix, libdir, name = folders.prefix, folders.libdir, "astc_tool"
    shared, soname, linked = shared_names()
    made_files = [(f"{LIBRARY}.a", ""), (f"{name}.pc", "pkgconfig/"), (f"{name}Config.cmake", f"cmake/{name}/"), (f"{name}ConfigVersion.cmake", f"cmake/{name}/")]
    texts = [(f"include/{name}.h", f"include/{name}.h"), (f"man/{name}.3", f"share/man/man3/{name}.3"), (f"python/{name}.py", f"share/{name}/{name}.py"),
             ("LICENSE", f"share/licenses/{LIBRARY}/LICENSE")]
    return ([Item(f"{libdir}/{folder}{file}", f"{made}/{file}", 0o644) for file, folder in made_files] +
            [Item(f"{libdir}/{shared}", f"{made}/{soname}", 0o755), Item(f"{libdir}/{soname}", shared, None), Item(f"{libdir}/{linked}", soname, None)] +
            [Item(f"{prefix}/{place}", f"{TOP}/{source}", 0o644) for source, place in texts] +
            [Item(f"{prefix}/share/man/man3/{function}.3", f"{name}.3", None) for function in functions()])


def page_items(folders, page):
    share = f"{folders.prefix}/share"
    return [Item(f"{share}/astc_tool/astc_page.html", page, 0o644),
            Item(f"{share}/licenses/astc_page/LICENSE", f"{TOP}/LICENSE", 0o644)]


def link_shared(archive, folder):
    """Links the shared library of an archive under its soname, and returns its place. No link is
    put beside it, since the gate takes none in a crate's folder. The library exports the functions
    of the header alone, and needs the C library alone."""
    _, soname, _ = shared_names()
    names = f"{LIBRARY}.names"
    exported = " ".join(name + ";" for name in functions())
    write(f"{folder}/{names}", f"{{ global: {exported} local: *; }};\n")
    words = [*shlex.split(os.environ.get("CC", "cc")), "-shared",
             *shlex.split(os.environ.get("LDFLAGS", "")), "-o", soname, f"-Wl,-soname,{soname}",
             f"-Wl,--version-script={names}",
             "-Wl,--no-undefined,-z,text,-z,relro,-z,now,-z,noexecstack", "-Wl,--whole-archive",
             os.path.abspath(archive), "-Wl,--no-whole-archive"]
    try:
        run = subprocess.run(words, cwd=folder, env=for_compiler(), stdout=subprocess.PIPE,
                             stderr=subprocess.STDOUT, text=True, errors="replace")
    finally:
        os.remove(f"{folder}/{names}")
    if run.returncode:
        raise OSError("the shared library is not linked:\n" + run.stdout)
    return f"{folder}/{soname}"


def for_compiler():
    """The environment, without a TMPDIR whose name a compiler may misread."""
    safe = re.fullmatch(r"[\w/.+-]*", os.environ.get("TMPDIR", ""), re.ASCII)
    return {name: value for name, value in os.environ.items() if safe or name != "TMPDIR"}


def write(name, text):
    with open(name, "w", encoding="utf-8", errors="surrogateescape") as file:
        file.write(text)


def write_filled(template, folder, words):
    """Writes a template of this folder with @WORD@s filled in."""
    with open(f"{TOP}/packaging/{template}.in", encoding="utf-8") as file:
        write(f"{folder}/{template}", re.sub(r"@(\w+)@", lambda match: words[match[1]], file.read()))


def make_library(archive, folders, made):
    """Makes in a folder what is installed of the library of an archive."""
    shared, soname, _ = shared_names()
    numbers, below = [str(number) for number in version()], folders.libdir_below()
    shutil.copyfile(archive, f"{made}/{LIBRARY}.a")
    link_shared(archive, made)
    words = {"version": ".".join(numbers), "series": ".".join(numbers[:2]), "shared": shared,
             "soname": soname}
    libdir = "${prefix}/" + escaped(below) if below else escaped(folders.libdir)
    named = {"prefix": escaped(folders.prefix), "libdir": libdir}
    write_filled("astc_tool.pc", made, words | named)
    up = "/.." * len(below.split("/")) if below else None
    prefix = "${_astc_tool_libdir}" + up if up else in_cmake(folders.prefix)
    write_filled("astc_toolConfig.cmake", made, words | {"prefix": prefix})
    write_filled("astc_toolConfigVersion.cmake", made, words)


def escaped(name):
    """A name as pkg-config files write it."""
    return re.sub(r"([\s\\\"'#])", r"\\\1", name)


def in_cmake(name):
    """A name as it is written between the quotes of a CMake file."""
    return re.sub(r"([\\\"])", r"\\\1", name)


def judge_names(folders):
    """Refuses names that a pkg-config file cannot hold."""
    for name in (folders.prefix, folders.libdir):
        if re.search(r"[$()\x00-\x1f\x7f]", name):
            raise OSError(f"the library cannot be installed in {shown(name)}: pkg-config files "
                          "cannot hold $, (, ) or control characters in a name")


# ---- installing and removing


def shown(name):
    """A name for a message: signs that a terminal may act on, or does not show, are escaped."""
    return "".join(sign if sign.isprintable() else ascii(sign)[1:-1] for sign in name)


def prepare(items, folders):
    """Makes the folders, before anything is built: what hinders an install is known at once. If it
    fails, it removes the folders that it made."""
    made = []
    try:
        for item in items:
            to = folders.destdir + item.place
            make_folders(os.path.dirname(to), made)
            if is_folder(to):
                raise IsADirectoryError(f"{shown(to)} is a folder: remove or rename it")
            if not os.access(os.path.dirname(to), os.W_OK):
                raise PermissionError(f"no permission to write to {shown(os.path.dirname(to))}")
    except BaseException:
        for folder in reversed(made):
            with contextlib.suppress(OSError):
                os.rmdir(folder)
        raise


def make_folders(folder, made):
    """Makes a folder and those above it, which all can read as they can the files, whatever the
    umask is; and adds to a list those that it made."""
    if os.path.isdir(folder):
        return
    make_folders(os.path.dirname(folder), made)
    os.mkdir(folder)
    made.append(folder)
    os.chmod(folder, 0o755)


def is_folder(name):
    return os.path.isdir(name) and not os.path.islink(name)


@contextlib.contextmanager
def put_beside(to):
    """A new name in the folder of a file, whose file then replaces that file in one step: it may be
    a program that runs. No link is followed, and nothing is left if it fails."""
    beside = os.path.join(os.path.dirname(to), f".{os.path.basename(to)}.{secrets.token_hex(8)}")
    try:
        yield beside
        os.replace(beside, to)
    except BaseException:
        with contextlib.suppress(FileNotFoundError):
            os.remove(beside)
        raise


def put_file(source, to, mode):
    """Copies a file to its place."""
    with open(source, "rb") as file, put_beside(to) as beside:
        new = os.open(beside, os.O_WRONLY | os.O_CREAT | os.O_EXCL | os.O_NOFOLLOW, 0o600)
        with os.fdopen(new, "wb") as copy:
            shutil.copyfileobj(file, copy)
            os.fchmod(new, mode)


def put_link(target, to):
    with put_beside(to) as beside:
        os.symlink(target, beside)


def install(items, folders, say):
    prepare(items, folders)
    for item in items:
        to = folders.destdir + item.place
        if item.mode is None:
            put_link(item.source, to)
        else:
            put_file(item.source, to, item.mode)
        say(shown(to))


def uninstall(items, folders, say):
    """Removes what `install` puts there, and the folders below the prefix that are then empty."""
    tops = [folders.destdir + folder for folder in (folders.prefix, folders.libdir)]
    for item in items:
        to = folders.destdir + item.place
        if is_folder(to):
            say(f"{shown(to)} is a folder, and is not removed")
        elif os.path.lexists(to):
            os.remove(to)
            say(f"removed {shown(to)}")
        remove_empty(os.path.dirname(to), tops)


def remove_empty(folder, tops):
    """Removes a folder that is empty and below one of the tops, and so on upwards."""
    while any(folder.startswith(top + "/") for top in tops):
        try:
            os.rmdir(folder)
        except OSError:
            return
        folder = os.path.dirname(folder)


if __name__ == "__main__":
    if len(sys.argv) != 2:
        sys.exit(__doc__)
    try:
        link_shared(sys.argv[1], os.path.dirname(os.path.abspath(sys.argv[1])))
    except OSError as error:
        sys.exit(f"installing: {error}")
