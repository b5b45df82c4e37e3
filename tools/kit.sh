# Sourced by the scripts of this repository: says where Rattle's command is missing, and names a log.

# say TEXT: a line for the person who waits
say() { printf 'bpf_host: %s\n' "$*" >&2; }

# need_rt: ends with status 69 where the kit's command isn't there
need_rt() {
  command -v rt > /dev/null || {
    say "this needs Rattle's command rt on the PATH, from the kit's folder bin (README.md, Three ways in)"
    exit 69
  }
}

# need_kit: ends with status 69 where the kit isn't there
need_kit() {
  need_rt
  rt version > /dev/null 2>&1 || {
    say "rt is on the PATH, but its kit doesn't answer: try 'rt version' (README.md, Three ways in)"
    exit 69
  }
}

# kit_folder: where the kit stands
kit_folder() { dirname "$(dirname "$(readlink -f "$(command -v rt)")")"; }

# new_log NAME: the path of a new log file
new_log() { mktemp "${TMPDIR:-/tmp}/bpf_host-$1-XXXXXX.log"; }

# free_gigabytes: the memory that a new process may take, also under the limit of a control group
free_gigabytes() {
  local free most used
  free=$(awk '/^MemAvailable:/ { print int($2 * 1024 / 1000000000) }' /proc/meminfo)
  most=$(cat /sys/fs/cgroup/memory.max 2> /dev/null || echo max)
  if [ "$most" != max ]; then
    used=$(cat /sys/fs/cgroup/memory.current)
    most=$(((most - used) / 1000000000))
    free=$((most < free ? most : free))
  fi
  echo "$free"
}

# use_all_processors: has rt ci prove something on each processor at any time, where memory holds that: 4.5 GB for each, and
# for one more. By itself it leaves processors idle for want of memory, since it expects half as much again as proofs take.
use_all_processors() {
  local processors
  processors=$(nproc)
  if [ $((2 * $(free_gigabytes))) -ge $((9 * (processors + 1))) ]; then
    export RT_JOBS=$processors
  fi
}

# runs_v3: this processor has what x86-64-v3 names, AVX2 among it
runs_v3() {
  local flags word
  flags=$(grep -m 1 '^flags' /proc/cpuinfo) || return 1
  for word in avx avx2 bmi1 bmi2 f16c fma abm movbe xsave; do
    [[ " ${flags#*:} " == *" $word "* ]] || return 1
  done
}

# program_of TOP NAME: where a program stands that is built for this machine: for x86-64-v3 where its processor is one, unless
# BPF_HOST_CPU=default, and else for every x86-64
program_of() {
  if [ "${BPF_HOST_CPU:-}" != default ] && runs_v3; then
    printf '%s\n' "$1/crates/$2/out/$2-v3"
  else
    printf '%s\n' "$1/crates/$2/out/$2"
  fi
}
