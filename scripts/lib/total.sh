# shellcheck shell=sh
# Shared by the scripts that run others. It is read by `.` at the top of the repository.

# total FAILED LOG..: tells how much passed, by the last line of each of these logs, where so many
# more have failed that told no number
total() {
    lost=$1
    shift
    tail -q -n 1 "$@" | awk -v failed="$lost" '
        / checks hold, / { passed += $1; skipped += $4; next }
        / passed, / { passed += $1; failed += $3; skipped += $5; next }
        /^not tried, / { skipped++; next }
        { passed++ }
        END {
            printf "%d passed, %d failed", passed, failed
            if (skipped) printf ", %d skipped", skipped
            print ""
        }'
}
