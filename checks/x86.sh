# Sourced by the checks: how this machine compiles, links and runs x86-64 programs, which Rattle's are.
# Sets: kit (the folder of the Rattle kit), prefix (of gcc's tools), link (flags), emulator (a command before a program linked so),
# loader (a command before a program of rt's).
kit=${RATTLE_HOME:-$(dirname "$(dirname "$(readlink -f "$(command -v rt)")")")}
if [ "$(uname -m)" = x86_64 ]; then
    prefix='' link=() emulator=() loader=()
else
    tools=$kit/toolchain
    # A processor without erms: the C library then copies by moves, which the emulator makes ten times as fast as that instruction.
    prefix=x86_64-linux-gnu- link=(-static) emulator=("$(command -v qemu-x86_64 || echo qemu-x86_64)" -cpu 'max,-erms')
    loader=("${emulator[@]}" "$tools/lib/ld-linux-x86-64.so.2" --library-path "$tools/lib")
    [ -x "${emulator[0]}" ] || { echo "there is no emulator, qemu-x86_64, for this machine, $(uname -m)" >&2; exit 2; }
fi
