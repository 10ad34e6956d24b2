#!/usr/bin/env bash
# make.sh [NAME..]: proves and makes what is named, or all: the programs lister, stepper and namer in target/bin, and the library pywr_c as
# target/staticlib/libpywr_c.a. What is proved already is not proved again.
set -euo pipefail
cd "$(dirname "$0")/.."
[ $# -gt 0 ] || set -- lister stepper namer pywr_c
mkdir -p target/bin target/staticlib
for name; do
  if [ "$name" = pywr_c ]; then
    (cd crates/pywr_c && rt lib)
    cp crates/pywr_c/out/libpywr_c.a target/staticlib/
  else
    # rt makes a program only to run it: it is given nothing.
    (cd "crates/$name" && rt run < /dev/null > /dev/null)
    cp "crates/$name/out/$name" target/bin/
  fi
done
