# Where a C program begins: the executive calls it as a procedure, so a mask of the registers to save stands first. main gets no
# arguments, and what it returns is in R0 when the run ends.
        .section .text.start, "ax"
        .globl  _start
_start: .word   0
        pushl   $0
        pushl   $0
        calls   $2, main
        chmk    $0
