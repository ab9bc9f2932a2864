#!/bin/sh
# Has shellcheck read each script of the repository, where it is installed: it has to say nothing.
# Usage: tests/shellcheck.sh (at the top of the repository).
set -eu
. tests/lib/harness.sh

# silent: shellcheck has nothing to say of the scripts that git knows, or would take
silent() {
    git ls-files --cached --others --exclude-standard '*.sh' tools |
        xargs grep -lE '^#!/bin/(ba)?sh' > "$work/scripts"
    xargs shellcheck -x < "$work/scripts"
    note "$(wc -l < "$work/scripts") scripts"
}

choose 'has shellcheck' 'shellcheck is wanted' silent
try_all
