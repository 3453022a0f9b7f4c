# The empty implementations: three instructions each, which bench/run knows. The
# number of their answer is 0: in registers, or in the memory that the caller lends.
    .intel_syntax noprefix
    .text
    .globl empty_in_registers
    .type empty_in_registers, @function
empty_in_registers:
    xor eax, eax
    xor edx, edx
    ret
    .size empty_in_registers, . - empty_in_registers
    .globl empty_in_memory
    .type empty_in_memory, @function
empty_in_memory:
    mov qword ptr [rdi], 0
    mov rax, rdi
    ret
    .size empty_in_memory, . - empty_in_memory
    .section .note.GNU-stack, "", @progbits
