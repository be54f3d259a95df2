#!/usr/bin/env bash
# Measures the program and prints figures; it judges no time, and fails where a store that is opened again doesn't hold what was put.
set -euo pipefail
repository=$(cd "$(dirname "${BASH_SOURCE[0]}")/.." && pwd)
# Without a word the program is built where needed, touches no file and ends with status 7.
said=$("$repository/bin/khepri" 2>&1) || [ $? -eq 7 ] || {
    echo "$said" >&2
    exit 125
}
python3 -B "$repository/bench/measure.py" "$repository/crates/khepri/out/khepri"
python3 -B "$repository/bench/reopen.py" "$repository/crates/khepri/out/khepri"
python3 -B "$repository/bench/shares.py" "$repository"
python3 -B "$repository/bench/maps.py" "$repository"
python3 -B "$repository/bench/heaps.py" "$repository"
python3 -B "$repository/bench/forms.py" "$repository"
python3 -B "$repository/bench/conditions.py" "$repository"
python3 -B "$repository/bench/trees.py" "$repository"
python3 -B "$repository/bench/walks.py" "$repository"
