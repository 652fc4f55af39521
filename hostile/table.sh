# shellcheck shell=bash
# The lengths of the tables that the scripts here ask for; sourced, by bash with `set -euo pipefail`. The width of a row
# and the most rows are those of the C header. The script that sources it sets `root`, the repository.
: "${root:?}"

# A number that the header defines: defined NAME
defined() {
    local number
    number=$(sed -n "s|^#define $1 \([0-9][0-9]*\) .*|\1|p" "$root/include/uzrafmed.h")
    if [ -z "$number" ]; then
        echo "hostile: include/uzrafmed.h does not define $1 as a number" >&2
        return 1
    fi
    echo "$number"
}
width=$(defined UZ_WIDTH)
most_rows=$(defined UZ_MOST_ROWS)

# The numbers of a table of so many rows, and the most that a table may have.
numbers_of() { echo $(($1 * width)); }
# shellcheck disable=SC2034 # used by the scripts that source this
most_numbers=$(numbers_of "$most_rows")
