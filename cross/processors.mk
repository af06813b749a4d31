# The processors that the library is built for and tried on. To add one: its name here, and its values below.
#   FLAGS  what the toolchain's clang compiles the library with
#   TEXT   a further line of the module's text, if one is needed
#   NEEDS  the functions that the object may need from outside; any other one is refused
#   CC     compiles and links a program for it
#   ALSO   the same for another kind of program that the library has to fit, if there is one
#   RUN    runs such a program here
#   CYCLES disassembles a program for cross/trace.awk, which knows the cycles of Cortex-M4 alone
#   TOOLS  what CC and RUN need: PACKAGE:COMMAND, or PACKAGE:COMPILER:FILE for a file of the compiler's libraries
PROCESSORS := cortex-m4 cortex-m0plus aarch64 armv7 riscv64

# Which of these an object needs depends on the flags, so the lists have what every C library has.
BARE_NEEDS := __aeabi_memclr __aeabi_memclr4 __aeabi_memclr8 __aeabi_memcpy __aeabi_memcpy4 __aeabi_memcpy8 __aeabi_memmove \
    __aeabi_memmove4 __aeabi_memmove8
LINUX_NEEDS := memset memcpy memmove

BARE := --specs=rdimon.specs -T cross/bare/board.ld cross/bare/start.c -Wl,--no-warn-execstack
BARE_TOOLS := gcc-arm-none-eabi:arm-none-eabi-gcc libnewlib-arm-none-eabi:arm-none-eabi-gcc:librdimon.a \
    qemu-system-arm:qemu-system-arm

# The libraries for ARM use no floating point registers, so that an interrupt that calls them need not save these. No call
# has a floating point number, either: with this line a library says of itself that it fits programs that hand these over
# in such registers and programs that do not, or the linker would refuse it for one of the two.
ANY_FLOAT_ABI := module asm ".eabi_attribute Tag_ABI_VFP_args, 3"

cortex-m4_FLAGS := -O3 --target=thumbv7em-none-eabi -mcpu=cortex-m4 -mfloat-abi=soft
cortex-m4_TEXT := $(ANY_FLOAT_ABI)
cortex-m4_NEEDS := $(BARE_NEEDS)
cortex-m4_CC := arm-none-eabi-gcc -mcpu=cortex-m4 -mthumb -mfloat-abi=soft $(BARE)
cortex-m4_ALSO := arm-none-eabi-gcc -mcpu=cortex-m4 -mthumb -mfloat-abi=hard -mfpu=fpv4-sp-d16 $(BARE)
cortex-m4_RUN := cross/board cortex-m4
cortex-m4_CYCLES := arm-none-eabi-objdump -d
cortex-m4_TOOLS := $(BARE_TOOLS)

cortex-m0plus_FLAGS := -O3 --target=thumbv6m-none-eabi -mcpu=cortex-m0plus -mfloat-abi=soft
cortex-m0plus_NEEDS := $(BARE_NEEDS) __aeabi_lmul
cortex-m0plus_CC := arm-none-eabi-gcc -mcpu=cortex-m0plus -mthumb $(BARE)
cortex-m0plus_RUN := cross/board cortex-m0
cortex-m0plus_TOOLS := $(BARE_TOOLS)

# The last words are the toolchain's own on this processor.
aarch64_FLAGS := -O3 --target=aarch64-linux-gnu -mgeneral-regs-only -mllvm -aarch64-load-store-renaming=false
aarch64_NEEDS := $(LINUX_NEEDS)
aarch64_CC := aarch64-linux-gnu-gcc -static
aarch64_RUN := qemu-aarch64
aarch64_TOOLS := gcc-aarch64-linux-gnu:aarch64-linux-gnu-gcc libc6-dev-arm64-cross:aarch64-linux-gnu-gcc:libc.a \
    qemu-user:qemu-aarch64

armv7_FLAGS := -O3 --target=armv7-linux-gnueabi -mfloat-abi=soft
armv7_TEXT := $(ANY_FLOAT_ABI)
armv7_NEEDS := $(LINUX_NEEDS)
armv7_CC := arm-linux-gnueabihf-gcc -static
armv7_RUN := qemu-arm
armv7_TOOLS := gcc-arm-linux-gnueabihf:arm-linux-gnueabihf-gcc libc6-dev-armhf-cross:arm-linux-gnueabihf-gcc:libc.a \
    qemu-user:qemu-arm

riscv64_FLAGS := -O3 --target=riscv64-linux-gnu -march=rv64gc -mabi=lp64d
riscv64_NEEDS := $(LINUX_NEEDS)
riscv64_CC := riscv64-linux-gnu-gcc -static
riscv64_RUN := qemu-riscv64
riscv64_TOOLS := gcc-riscv64-linux-gnu:riscv64-linux-gnu-gcc libc6-dev-riscv64-cross:riscv64-linux-gnu-gcc:libc.a \
    qemu-user:qemu-riscv64
