# To be sourced before `rt ci`. rt reckons two to three times the memory that a check takes, and leaves processors idle
# beside the greatest crates. Where there are 5 GB for each processor, it is told to use all.
free=$(awk '/^MemAvailable/ { print int($2 / 1048576) }' /proc/meminfo)
[ -z "${RT_JOBS:-}" ] && [ $((free / 5)) -ge "$(nproc)" ] && RT_JOBS=$(nproc) && export RT_JOBS
true
