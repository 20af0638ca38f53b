# SPDX-License-Identifier: Apache-2.0 OR GPL-2.0-or-later
# shellcheck shell=bash
# What `run`, `tools/qemu_demo` and `tools/emit_demo` share. They set `top`, the folder of the repository.
: "${top:?}"
QEMU=${QEMU:-qemu-system-aarch64}

# Whether there is a program; says what is left out where there isn't.
has() {
  command -v "$1" >/dev/null 2>&1 && return
  echo "left out: $2, since there is no $1"
  return 1
}

# Whether QEMU is there, with the plugin interface that bbm_trace.c needs; says what is left out where it isn't.
has_qemu() {
  local version
  has "$QEMU" "$1" || return 1
  version=$("$QEMU" --version | sed -n 's/.*version \([0-9]*\.[0-9]*\).*/\1/p')
  case $version in 9.2 | 10.0) return ;; esac
  echo "left out: $1, since $QEMU is of version $version, and the plugin's interface is that of 9.2 and 10.0"
  return 1
}

# The checker: $BBM, or the built one, of which the script knows whether its sources changed. Nothing is built for it.
checker() {
  if [ -n "${BBM:-}" ]; then
    echo "$BBM"
  else
    "$top/bbm" --program
  fi
}

# OUT: compiles the plugin.
build_plugin() {
  cc -O2 -Wall -Wextra -Werror -shared -fPIC -fvisibility=hidden -o "$1" "$top/emit/qemu/bbm_trace.c"
}

# A name for the file with a guest's memory: in memory, where there is a file system for that.
memory_file() {
  if [ -d /dev/shm ]; then
    mktemp /dev/shm/bbm_guest.XXXXXX
  else
    mktemp
  fi
}

# OUT: compiles the guest without an operating system.
build_guest() {
  local guest=$top/emit/qemu/guest
  aarch64-linux-gnu-gcc -g -O2 -Wall -Wextra -Werror -ffreestanding -nostdlib -static -fno-pic -no-pie \
    -mgeneral-regs-only -mstrict-align -fno-stack-protector -Wl,--build-id=none -Wl,--no-warn-rwx-segments \
    -Wl,-T,"$guest/guest.ld" -o "$1" "$guest/start.S" "$guest/guest.c"
}
