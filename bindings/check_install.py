"""check_install: what is installed without the toolchain: by the Makefile, and by CMakeLists.txt and meson.build of dist/. With each of them a host
is built over the library that was installed, and prints what it is to print; so does the command. The node is compiled without optimisation here,
which takes the least time: other checks run it as users compile it."""
import glob
import os
import re

from check_programs import BINDINGS, HOST, POOL
from checking import INCLUDE, TOP, has, read, report, report_if, run

DIST = f"{TOP}/dist"
PREFIX = "/opt/nd"
# What `make install` installs below PREFIX.
INSTALLED = {"bin/ndpctl", "include/nd.h", "include/nd_hear.h", "include/nd_text.h", "lib/libnd_c.a", "lib/libnd_c.so", "lib/pkgconfig/nd.pc",
             "share/man/man1/ndpctl.1"}
# A project of CMake with the host of the examples, over the node that was installed.
PROJECT = """cmake_minimum_required(VERSION 3.13)
project(example C)
find_package(nd REQUIRED)
add_executable(host {source})
target_link_libraries(host nd::nd)
"""


def version():
    """Returns the version of nd.h."""
    return ".".join(re.findall(r"^#define ND_VERSION_(?:MAJOR|MINOR|PATCH) (\d+)$", read(f"{INCLUDE}/nd.h"), re.M))


def check_versions():
    """Requires that what builds the library says the version of nd.h."""
    patterns = {f"{BINDINGS}/targets/CMakeLists.txt": r"^project\(nd VERSION ([\d.]+) ", f"{BINDINGS}/rust/Cargo.toml": r'^version = "([\d.]+)"$',
                f"{BINDINGS}/targets/meson.build": r"^project\('nd', 'c', version: '([\d.]+)'"}
    found = {path: re.findall(pattern, read(path), re.M) for path, pattern in patterns.items()}
    others = [f"{path}: {said}" for path, said in found.items() if said != [version()]]
    report_if(f"CMakeLists.txt, meson.build and Cargo.toml have version {version()}", not others, "\n".join(others))


def check_host(what, program, **environment):
    """Requires that a host prints the text of its example."""
    said = run([program, *HOST], input=read(f"{TOP}/examples/host.hex"), env={**os.environ, **environment})
    report_if(f"{what}: a host over what is installed", said.returncode == 0 and said.stdout == read(f"{TOP}/examples/host.txt"), str(said))


def check_command(what, program):
    """Requires that an installed command judges the frames of its example."""
    said = run([program, "check"], input=read(f"{TOP}/examples/link.hex"))
    report_if(f"{what}: the command that is installed", said.returncode == 0 and said.stdout == read(f"{TOP}/examples/link.txt"), str(said))


def flags_of(root):
    """Returns the flags of the installed nd.pc for the compiler and the linker, or None."""
    folder = os.path.dirname(glob.glob(f"{root}{PREFIX}/lib/**/nd.pc", recursive=True)[0])
    environment = {**os.environ, "PKG_CONFIG_PATH": folder, "PKG_CONFIG_SYSROOT_DIR": root}
    said = run(["pkg-config", "--cflags", "--libs", "nd"], env=environment)
    has_version = run(["pkg-config", "--modversion", "nd"], env=environment).stdout.strip() == version()
    return said.stdout.split() if report_if(f"pkg-config: nd has version {version()}", said.returncode == 0 and has_version, str(said)) else None


def built(room, name, root, *more, library="-lnd_c"):
    """Builds the host of the examples by the flags of pkg-config, and returns its path, or None. `library` is linked, one of two in a folder."""
    flags = [library if flag == "-lnd_c" else flag for flag in flags_of(root) or []]
    words = ["cc", "-std=c11", "-D_POSIX_C_SOURCE=200809L", f"{TOP}/examples/c/host.c", *more, *flags, "-o", f"{room}/{name}"]
    return f"{room}/{name}" if library in flags and report(f"{name} is built by pkg-config", run(words)) else None


def check_make_install(room):
    """Installs by the Makefile, and builds hosts over both libraries, one of them with memory functions of its own."""
    root = f"{room}/root"
    words = ["make", "-s", "-C", BINDINGS, "install", "CFLAGS=-O0", f"OUT={room}/out", f"DESTDIR={root}", f"PREFIX={PREFIX}"]
    if not report("make install, without the toolchain", run(words)):
        return
    wanted = INSTALLED | {f"lib/libnd_c.so.{it}" for it in (version(), version().split(".", maxsplit=1)[0])}
    found = {os.path.relpath(path, f"{root}{PREFIX}") for path in glob.glob(f"{root}{PREFIX}/**", recursive=True) if not os.path.isdir(path)}
    report_if(f"make install: {len(wanted)} files", found == wanted, str(sorted(found ^ wanted)))
    check_command("make install", f"{root}{PREFIX}/bin/ndpctl")
    if not has("pkg-config"):
        return
    shared = built(room, "host_shared", root)
    if shared:
        check_host("make install, the shared library", shared, LD_LIBRARY_PATH=f"{root}{PREFIX}/lib")
        needed = re.findall(r"NEEDED +(libnd_c\S*)", run(["objdump", "-p", shared]).stdout)
        report_if("make install: a program needs the library by its major version", needed == [f"libnd_c.so.{version().split('.')[0]}"], str(needed))
    for name, more in (("host_static", []), ("host_static_in_a_pool", [POOL])):
        static = built(room, name, root, *more, library="-l:libnd_c.a")
        if static:
            check_host(f"make install, {name}", static)
            has_malloc = re.search(r" U malloc\b", run(["nm", static]).stdout) is not None
            report_if(f"make install, {name}: memory functions {'of its own' if more else 'over malloc'}", has_malloc != bool(more))


def check_cmake(room):
    """Builds and installs by CMake, and builds a host as a project that finds what was installed."""
    if not has("cmake"):
        return
    root, made = f"{room}/root", f"{room}/made"
    steps = (["cmake", "-S", DIST, "-B", made, "-DCMAKE_BUILD_TYPE=Debug", f"-DCMAKE_INSTALL_PREFIX={PREFIX}"], ["cmake", "--build", made],
             ["cmake", "--install", made])
    if not all(report(" ".join(words[:2]), run(words, env={**os.environ, "DESTDIR": root})) for words in steps):
        return
    check_command("cmake", f"{root}{PREFIX}/bin/ndpctl")
    os.mkdir(f"{room}/project")
    with open(f"{room}/project/CMakeLists.txt", "w", encoding="utf-8") as file:
        file.write(PROJECT.format(source=f"{TOP}/examples/c/host.c"))
    folder = os.path.dirname(glob.glob(f"{root}{PREFIX}/**/nd-config.cmake", recursive=True)[0])
    steps = (["cmake", "-S", f"{room}/project", "-B", f"{room}/host", f"-Dnd_DIR={folder}"], ["cmake", "--build", f"{room}/host"])
    if all(report(f"{' '.join(words[:2])} of a project that finds nd", run(words)) for words in steps):
        check_host("cmake", f"{room}/host/host")


def check_meson(room):
    """Builds and installs by Meson, and builds a host by the file for pkg-config."""
    if not has("meson") or not has("ninja"):
        return
    root, made = f"{room}/root", f"{room}/made"
    steps = (["meson", "setup", made, DIST, "-Doptimization=0", f"--prefix={PREFIX}"], ["meson", "compile", "-C", made],
             ["meson", "install", "-C", made])
    if not all(report(" ".join(words[:2]), run(words, env={**os.environ, "DESTDIR": root})) for words in steps):
        return
    check_command("meson", f"{root}{PREFIX}/bin/ndpctl")
    static = built(room, "host_by_meson", root) if has("pkg-config") else None
    if static:
        check_host("meson", static)


def check_install(room):
    """Checks what is installed, in folders of `room`."""
    if not has("make") or not has("cc"):
        return
    check_versions()
    for name, check in (("make", check_make_install), ("cmake", check_cmake), ("meson", check_meson)):
        os.makedirs(f"{room}/install_by_{name}")
        check(f"{room}/install_by_{name}")
