@ The runs of bytes that the compiler moves and fills: the names of ARM's run-time ABI. The M4 takes single words from any
@ address, and several at once from whole ones.
    .syntax unified
    .thumb
    .text

    .macro entry name
    .globl \name
    .type \name, %function
\name:
    .endm

@ r0: to, r1: from, r2: how many. Backward where the end of `from` lies behind the start of `to`.
    entry __aeabi_memmove
    entry __aeabi_memmove4
    entry __aeabi_memmove8
    subs r3, r0, r1
    cmp r3, r2
    blo backward

    entry __aeabi_memcpy
    orr r3, r0, r1
    lsls r3, r3, #30
    bne apart

    entry __aeabi_memcpy4
    entry __aeabi_memcpy8
    subs r2, #32
    blo 2f
    push {r4-r9}
1:  ldmia r1!, {r3-r9, r12}
    stmia r0!, {r3-r9, r12}
    subs r2, #32
    bhs 1b
    pop {r4-r9}
2:  lsls r3, r2, #28 @ carry: 16 are left; minus: 8
    bcc 3f
    ldmia r1!, {r3, r12}
    stmia r0!, {r3, r12}
    ldmia r1!, {r3, r12}
    stmia r0!, {r3, r12}
3:  bpl 4f
    ldmia r1!, {r3, r12}
    stmia r0!, {r3, r12}
4:  lsls r3, r2, #30 @ carry: 4; minus: 2
    bcc 5f
    ldr r3, [r1], #4
    str r3, [r0], #4
5:  bpl 6f
    ldrh r3, [r1], #2
    strh r3, [r0], #2
6:  lsls r3, r2, #31
    beq 7f
    ldrb r3, [r1]
    strb r3, [r0]
7:  bx lr

apart:
    subs r2, #16
    blo 2f
1:  ldr r3, [r1], #4
    ldr r12, [r1], #4
    str r3, [r0], #4
    str r12, [r0], #4
    ldr r3, [r1], #4
    ldr r12, [r1], #4
    str r3, [r0], #4
    str r12, [r0], #4
    subs r2, #16
    bhs 1b
2:  lsls r3, r2, #29 @ carry: 8 are left; minus: 4
    bcc 3f
    ldr r3, [r1], #4
    ldr r12, [r1], #4
    str r3, [r0], #4
    str r12, [r0], #4
3:  bpl 4f
    ldr r3, [r1], #4
    str r3, [r0], #4
4:  lsls r3, r2, #31 @ carry: 2; not zero: 1
    bcc 5f
    ldrh r3, [r1], #2
    strh r3, [r0], #2
5:  beq 6f
    ldrb r3, [r1]
    strb r3, [r0]
6:  bx lr

backward:
    cbz r3, 4f
    add r0, r2
    add r1, r2
    subs r2, #4
    blo 2f
1:  ldr r3, [r1, #-4]!
    str r3, [r0, #-4]!
    subs r2, #4
    bhs 1b
2:  adds r2, #4
    beq 4f
3:  ldrb r3, [r1, #-1]!
    strb r3, [r0, #-1]!
    subs r2, #1
    bne 3b
4:  bx lr

@ r0: to, r1: how many, r2: the byte.
    entry __aeabi_memclr
    entry __aeabi_memclr4
    entry __aeabi_memclr8
    movs r2, #0
    entry __aeabi_memset
    entry __aeabi_memset4
    entry __aeabi_memset8
    uxtb r2, r2
    orr r2, r2, r2, lsl #8
    orr r2, r2, r2, lsl #16
1:  lsls r3, r0, #30 @ byte by byte up to a whole address
    beq 2f
    subs r1, #1
    blo 9f
    strb r2, [r0], #1
    b 1b
2:  mov r3, r2
    subs r1, #32
    blo 4f
    push {r4-r8}
    mov r4, r2
    mov r5, r2
    mov r6, r2
    mov r7, r2
    mov r8, r2
    mov r12, r2
3:  stmia r0!, {r2-r8, r12}
    subs r1, #32
    bhs 3b
    pop {r4-r8}
4:  lsls r12, r1, #28 @ carry: 16 are left; minus: 8
    bcc 5f
    stmia r0!, {r2, r3}
    stmia r0!, {r2, r3}
5:  bpl 6f
    stmia r0!, {r2, r3}
6:  lsls r12, r1, #30 @ carry: 4; minus: 2
    bcc 7f
    str r2, [r0], #4
7:  bpl 8f
    strh r2, [r0], #2
8:  lsls r12, r1, #31
    beq 9f
    strb r2, [r0]
9:  bx lr
