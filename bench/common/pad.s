# Linked before ours: moves its code by PAD bytes.
    .text
    .p2align 6
    .skip PAD
    .section .note.GNU-stack, "", @progbits
