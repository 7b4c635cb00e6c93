# times.sh LOG CRATE..
l=$1; shift; for c in "$@"; do printf '%s %s; ' $c "$(grep -oE "^rt: $c (proved|linked|built)[^(]*\([0-9]+ s\)" $l | grep -oE '[0-9]+ s' | tail -1)"; done; echo; grep -E '^[0-9]+ passed|status' $l
