#!/bin/sh
# Runs the compiler of processors. JENTRY_COMPILE_JAR names another jar.
here=$0
if [ -L "$here" ]; then here=$(readlink -f "$here"); fi
jar=${JENTRY_COMPILE_JAR:-${here%/*}/../share/java/jentry-compile.jar}
# A run takes about a second: these settings have Java start fast.
exec java -XX:+UseSerialGC -XX:TieredStopAtLevel=1 -Xshare:auto -jar "$jar" "$@"
