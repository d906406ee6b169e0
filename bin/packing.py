"""What bin/release makes its packages with: builds by cargo, files with fixed modes and dates, and Debian packages."""
import gzip
import hashlib
import os
import shutil
import subprocess
import zipfile
from datetime import datetime, timezone
from email.utils import format_datetime

from shared import TOP, text_of

COMPRESSION = 9
JAR_DATE = (1980, 1, 1, 0, 0, 0)


class Refused(Exception):
    """The reason why there is no release."""


def output_of(*words, cwd=TOP, **variables):
    """Runs a command, and returns its standard output. Raises Refused if the command fails."""
    try:
        ran = subprocess.run(
            words,
            cwd=cwd,
            env={**os.environ, **variables},
            stdin=subprocess.DEVNULL,
            capture_output=True,
            text=True,
            check=False,
        )
    except OSError as error:
        raise Refused(f"{words[0]} can't be started: {error.strerror}") from error
    if ran.returncode:
        raise Refused(f"{' '.join(words)} failed:\n{(ran.stdout + ran.stderr)[-2000:]}")
    return ran.stdout.strip()


def tool(name):
    """Returns the path of a compiler: Debian's, whose version is fixed, if it is there, else the one on PATH."""
    found = f"/usr/bin/{name}" if os.access(f"/usr/bin/{name}", os.X_OK) else shutil.which(name)
    if not found:
        raise Refused(f"there is no {name}: apt-get install {'default-jdk-headless' if name == 'javac' else name}")
    return found


def cargo_variables(folder):
    """Returns the environment for a build by cargo in this folder whose result has no paths of this machine."""
    home = os.path.expanduser("~")
    cargo_home = os.environ.get("CARGO_HOME", f"{home}/.cargo")
    remaps = [
        f"--remap-path-prefix={old}={new}"
        for old, new in ((folder, "/target"), (cargo_home, "/cargo"), (TOP, "/jentry"))
    ]
    flags = [*remaps, "-Cstrip=symbols", "-Ccodegen-units=1", "-Clink-arg=-Wl,--build-id=none"]
    path = f"{os.path.dirname(tool('cargo'))}:{os.environ['PATH']}"
    return {
        "CARGO_TARGET_DIR": folder,
        "CARGO_ENCODED_RUSTFLAGS": "\x1f".join(flags),
        "RUSTC": tool("rustc"),
        "PATH": path,
    }


def put(source, to, mode=0o644):
    """Copies a file to a new path, and sets its mode."""
    os.makedirs(os.path.dirname(to), exist_ok=True)
    shutil.copyfile(source, to)
    os.chmod(to, mode)


def write(to, text, mode=0o644):
    """Writes a text file with this mode."""
    os.makedirs(os.path.dirname(to), exist_ok=True)
    with open(to, "w", encoding="utf-8") as it:
        it.write(text)
    os.chmod(to, mode)


def settle(root, seconds):
    """Sets one date for all files and folders of a tree, and the modes that packages have."""
    for at, folders, names in os.walk(root, topdown=False):
        for name in names:
            os.chmod(f"{at}/{name}", 0o755 if os.access(f"{at}/{name}", os.X_OK) else 0o644)
            os.utime(f"{at}/{name}", (seconds, seconds))
        os.chmod(at, 0o755)
        os.utime(at, (seconds, seconds))


def settle_jar(made, to):
    """Copies a jar, with its files in order and with one date."""
    os.makedirs(os.path.dirname(to), exist_ok=True)
    with zipfile.ZipFile(made) as jar, zipfile.ZipFile(
        to, "w", zipfile.ZIP_DEFLATED, compresslevel=COMPRESSION
    ) as copy:
        files = [name for name in jar.namelist() if not name.endswith("/")]
        for name in sorted(files, key=lambda it: (not it.startswith("META-INF/MANIFEST.MF"), it)):
            entry = zipfile.ZipInfo(name, JAR_DATE)
            entry.compress_type, entry.external_attr = zipfile.ZIP_DEFLATED, 0o644 << 16
            copy.writestr(entry, jar.read(name))


def put_packed(text, to):
    """Writes a text, packed by gzip without a date."""
    os.makedirs(os.path.dirname(to), exist_ok=True)
    with open(to, "wb") as it, gzip.GzipFile("", "wb", COMPRESSION, it, 0) as packed:
        packed.write(text.encode())


def maintainer():
    """Returns the name and the address that the packages give for questions."""
    return text_of(f"{TOP}/packaging/maintainer").strip()


def debian_changelog(version, seconds):
    """Returns the changelog of a release of this Unix time in the form that Debian's tools read. What changed is in CHANGELOG.md."""
    date = format_datetime(datetime.fromtimestamp(seconds, timezone.utc))
    words = "  * The changes are in /usr/share/doc/jentry/CHANGELOG.md (package jentry)."
    return f"jentry ({version}) unstable; urgency=medium\n\n{words}\n\n -- {maintainer()}  {date}\n"


def put_manual(name, root, version, seconds):
    """Puts packaging/NAME.1 into a tree, with the version and the date of the release."""
    date = datetime.fromtimestamp(seconds, timezone.utc)
    page = text_of(f"{TOP}/packaging/{name}.1").replace("@VERSION@", version).replace("@DATE@", f"{date:%Y-%m-%d}")
    put_packed(page, f"{root}/share/man/man1/{name}.1.gz")


def put_legal(name, root, version, seconds):
    """Puts into a package's tree what Debian demands of each: the licences and a changelog, and what lintian reports for a reason."""
    own = f"{TOP}/packaging/{name}.copyright"
    put(own if os.path.exists(own) else f"{TOP}/packaging/copyright", f"{root}/share/doc/{name}/copyright")
    put_packed(debian_changelog(version, seconds), f"{root}/share/doc/{name}/changelog.gz")
    overrides = f"{TOP}/packaging/{name}.lintian-overrides"
    if os.path.exists(overrides):
        put(overrides, f"{root}/share/lintian/overrides/{name}")


def sums_of(tree):
    """Returns the lines of DEBIAN/md5sums, by which `dpkg --verify` compares the files of a tree."""
    lines = []
    for at, _, names in os.walk(tree):
        for path in (os.path.relpath(f"{at}/{name}", tree) for name in names):
            if not path.startswith(("DEBIAN/", "etc/")) and not os.path.islink(f"{tree}/{path}"):
                with open(f"{tree}/{path}", "rb") as it:
                    lines.append(f"{hashlib.md5(it.read()).hexdigest()}  {path}\n")
    return "".join(sorted(lines, key=lambda line: line[34:]))


def pack_deb(tree, control, version, seconds, to):
    """Packs a tree with its folder usr/ into a Debian package with this control file."""
    size = sum(os.path.getsize(f"{at}/{name}") for at, _, names in os.walk(tree) for name in names)
    for word, value in (("VERSION", version), ("KILOBYTES", str(size // 1024 + 1)), ("MAINTAINER", maintainer())):
        control = control.replace(f"@{word}@", value)
    write(f"{tree}/DEBIAN/control", control)
    write(f"{tree}/DEBIAN/md5sums", sums_of(tree))
    settle(tree, seconds)
    output_of(
        "dpkg-deb",
        "--root-owner-group",
        "-Zxz",
        f"-z{COMPRESSION}",
        "--threads-max=1",
        "--build",
        tree,
        to,
        SOURCE_DATE_EPOCH=str(seconds),
    )
