"""The package jentry-compile: the compiler of processors, with its plugin of javac and its goal for Maven."""
import zipfile

from packing import output_of, pack_deb, put, put_legal, put_manual, settle_jar, tool, write
from shared import TOP, sum_of, text_of

NAME = "jentry-compile"
JAR = f"share/java/{NAME}.jar"
GOAL = "META-INF/maven/plugin.xml"
"""The file that a jar with the goal for Maven has."""
CONTROL = """Package: jentry-compile
Source: jentry
Version: @VERSION@
Architecture: all
Multi-Arch: foreign
Maintainer: @MAINTAINER@
Installed-Size: @KILOBYTES@
Depends: default-jre-headless (>= 2:1.17) | java17-runtime-headless
Suggests: jentry, default-jdk-headless, maven
Section: java
Priority: optional
Description: compiler of entry processors with loops and lambdas for jentry
 jentry verifies entry processors, which are Java class files, and refuses
 loops, lambdas, static tables and most of the library. This tool compiles
 classes that have these to classes that are accepted, and compares both on a
 JVM by random calls. It is tested and not proved.
 .
 The package has the command jentry-compile. Its jar is also a plugin of javac,
 which reports what can't be compiled, and for Maven the goal jentry:compile.
"""


def make(room, said, folder):
    """Makes the package of a release. Returns its path."""
    tree = f"{room}/{NAME}"
    root = f"{tree}/usr"
    documents = f"{root}/share/doc/{NAME}"
    made = output_of(f"{TOP}/clients/compiler/build", f"{room}/compiler").splitlines()[-1]
    settle_jar(made, f"{root}/{JAR}")
    with zipfile.ZipFile(made) as jar:
        has_goal = GOAL in jar.namelist()
    if has_goal:
        put(f"{TOP}/clients/compiler/maven/pom.xml", f"{documents}/pom.xml")
    write(f"{root}/bin/{NAME}", text_of(f"{TOP}/packaging/{NAME}.sh"), 0o755)
    put_manual(NAME, root, said["version"], said["seconds"])
    put_legal(NAME, root, said["version"], said["seconds"])
    write(
        f"{documents}/RELEASE",
        f"{NAME} {said['version']}\ncommit {said['commit']}\n{JAR} sha256 {sum_of(f'{root}/{JAR}')}\n"
        f"goal for Maven: {'yes' if has_goal else 'no'}\n{output_of(tool('javac'), '--version')}\n",
    )
    to = f"{folder}/{NAME}_{said['version']}_all.deb"
    pack_deb(tree, CONTROL, said["version"], said["seconds"], to)
    return to
