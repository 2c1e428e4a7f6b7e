# The emulated boards on which the libraries of tools/cross are tested and measured. To be sourced, by a script that
# has `root`, the repository, and `fail`, which ends it with a message.

# Sets what belongs to a target: `library`; `tools`, what the names of its compiler's tools begin with; `machine`, the
# processor for its compiler; `cc`, which compiles a C program for the board, with a C library that reads and writes the
# files of this machine; and `qemu`, which runs it.
emulate() { # TARGET
    local flash=0 ram=0x20000000 memory tool
    tools=arm-none-eabi- qemu=(qemu-system-arm -M mps2-an386)
    case $1 in
        thumbv7em) machine=(-mcpu=cortex-m4 -mfloat-abi=soft) ;;
        thumbv6m) machine=(-mcpu=cortex-m0plus -mfloat-abi=soft) ;;
        riscv32)
            tools=riscv64-unknown-elf- qemu=(qemu-system-riscv32 -M virt -bios none)
            machine=(-march=rv32imac -mabi=ilp32) flash=0x80000000 ram=0x80400000
            ;;
        *) fail "$1 is no target of tools/cross" ;;
    esac
    library=$root/target/cross/$1/libdonglora.a
    [ -f "$library" ] || fail "there is no $library"
    for tool in "${qemu[0]}" "${tools}gcc"; do
        command -v "$tool" > /dev/null || fail "there is no $tool"
    done
    memory=--defsym=__flash=$flash,--defsym=__flash_size=0x400000
    memory+=,--defsym=__ram=$ram,--defsym=__ram_size=0x400000,--defsym=__stack_size=0x10000
    cc=("${tools}gcc" --specs=picolibc.specs --picolibc-buildtype=release --oslib=semihost --crt0=semihost
        "${machine[@]}" -std=c99 -O2 -Wall -Wextra -Wpedantic -Werror -I"$root/include" -Wl,"$memory",-z,noexecstack)
    qemu+=(-display none -monitor none -serial none)
}

# Runs a program with these arguments, for a minute at most. What it prints goes to a file.
run_emulated() { # PROGRAM PRINTED ARGUMENT ..
    local program=$1 printed=$2 words=enable=on,target=native,chardev=printed word
    shift 2
    for word in "$@"; do words+=,arg=$word; done
    rm -f "$printed"
    timeout 60 "${qemu[@]}" -chardev "file,id=printed,path=$printed" -semihosting-config "$words" \
        -kernel "$program" < /dev/null
}
