# Sourced by the checks: what is not checked is said in a line that starts with 'skipped: ', which ./test repeats at its end.
# skip WHAT: this machine cannot check it.
skip() { echo "skipped: $*"; }
# missing WHAT: it could, with a tool that is not here; so with CI=true the check fails.
missing() {
    [ "${CI:-}" != true ] || { echo "not checked, though it could be: $*" >&2; exit 1; }
    skip "$*"
}
