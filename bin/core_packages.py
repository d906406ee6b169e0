"""The packages of the proved core for other programs: jentry-redis, the module of Redis, and libjentry-dev, the library for C."""
import os

from packing import cargo_variables, output_of, pack_deb, put, put_legal, tool, write
from shared import TOP, sum_of

MODULE = "lib/redis/modules/jentry.so"
"""Where Debian has modules of Redis: systemd's ProtectHome keeps redis-server from files in home folders."""
CONTROL = {
    "jentry-redis": """Package: jentry-redis
Source: jentry
Version: @VERSION@
Architecture: amd64
Maintainer: @MAINTAINER@
Installed-Size: @KILOBYTES@
Depends: libc6 (>= 2.34), libgcc-s1 (>= 4.2)
Recommends: redis-server (>= 5:7.0)
Section: database
Priority: optional
Description: module of Redis that runs verified entry processors
 Clients send entry processors as Java class files; the module verifies them
 by the Java Virtual Machine Specification, bounds their runs, and runs them
 next to the entries of Redis. The core is proved; the module is tested.
 .
 A line `loadmodule /usr/lib/redis/modules/jentry.so` in
 /etc/redis/redis.conf loads it.
""",
    "libjentry-dev": """Package: libjentry-dev
Source: jentry
Version: @VERSION@
Architecture: amd64
Maintainer: @MAINTAINER@
Installed-Size: @KILOBYTES@
Depends: libc6 (>= 2.34)
Suggests: gcc, pkg-config
Section: libdevel
Priority: optional
Description: verified entry processors as a library for C
 The library verifies entry processors, which are Java class files, bounds
 their runs, and runs them on entries that the caller stores. The core is
 proved. The package has the header, a static and a shared library, and the
 description for pkg-config.
""",
}
"""The control file of each package."""


def put_redis(room, root, library):
    """Builds the module, and puts it and its page into the tree of its package."""
    folder = f"{TOP}/clients/redis"
    variables = {**cargo_variables(f"{room}/redis"), "JENTRY_EMBED": library}
    words = [tool("cargo"), "build", "--release", "--offline", "--locked"]
    output_of(*words, cwd=folder, **variables)
    # Redis loads a module only if its file may be executed.
    put(f"{room}/redis/release/libjentry.so", f"{root}/{MODULE}", 0o755)
    put(f"{TOP}/docs/REDIS.md", f"{root}/share/doc/jentry-redis/REDIS.md")


def put_library(room, root, library):
    """Builds the library, and puts it, its header and the example into the tree of its package."""
    folder = f"{room}/c"
    os.makedirs(folder)
    for name in os.listdir(f"{TOP}/clients/c"):
        if os.path.isfile(f"{TOP}/clients/c/{name}"):
            put(f"{TOP}/clients/c/{name}", f"{folder}/{name}")
    # The name of the library is the same in each folder, since the archive keeps it.
    put(library, f"{folder}/libembed.a")
    words = ["make", "-s", "install", "EMBED=libembed.a", "PREFIX=/usr", f"DESTDIR={os.path.dirname(root)}"]
    output_of(*words, cwd=folder)
    shared = f"{root}/lib/libjentry.so.0"
    output_of("strip", "--strip-unneeded", shared)
    os.chmod(shared, 0o644)
    write(f"{os.path.dirname(root)}/DEBIAN/shlibs", "libjentry 0 libjentry-dev\n")
    write(f"{os.path.dirname(root)}/DEBIAN/triggers", "activate-noawait ldconfig\n")
    put(f"{folder}/example.c", f"{root}/share/doc/libjentry-dev/example.c")


PUTS = {"jentry-redis": put_redis, "libjentry-dev": put_library}
"""What fills the tree of each package."""


def make(room, library, said, folder):
    """Makes the packages of a core's library. Returns the paths of the packages."""
    made = []
    for name, fill in PUTS.items():
        tree = f"{room}/{name}"
        fill(room, f"{tree}/usr", library)
        put_legal(name, f"{tree}/usr", said["version"], said["seconds"])
        write(
            f"{tree}/usr/share/doc/{name}/RELEASE",
            f"{name} {said['version']}\ncommit {said['commit']}\nkit {said['kit']}\nverdict {said['verdict']}\nlibembed.a sha256 {sum_of(library)}\n",
        )
        made.append(f"{folder}/{name}_{said['version']}_amd64.deb")
        pack_deb(tree, CONTROL[name], said["version"], said["seconds"], made[-1])
    return made
