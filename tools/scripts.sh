#!/usr/bin/env bash
# Looks at each script of the repository by shellcheck, and ends with 1 where that warns. Where Debian's shellcheck is missing and can't be
# installed it says that it is skipped.
set -u

top=$(cd -P -- "$(dirname -- "$0")/.." && pwd) || exit 1
# shellcheck source=play.sh
. "$top/tools/play.sh"

if ! need shellcheck shellcheck; then
    echo "scripts: skipped, since there is no shellcheck and it could not be installed"
    exit 0
fi
cd "$top" || exit 1
# Those that begin as scripts do, and those that others take functions from.
mapfile -t scripts < <({ git ls-files --cached --others --exclude-standard | xargs -d '\n' grep -slE -m 1 '^#!.*[/ ](ba)?sh( |$)' && ls tools/*.sh; } | sort -u)
if [ "${#scripts[@]}" -lt 20 ]; then
    echo "scripts: only ${#scripts[@]} were found"
    exit 1
fi
shellcheck --severity=warning "${scripts[@]}" || exit 1
echo "shellcheck warns of none of ${#scripts[@]} scripts"
